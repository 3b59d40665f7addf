/* Plans the room of a text file, with a table of 65,536 configurations.
   Build: (cd crates/export && rt lib) && cc -Iinclude include/plan.c crates/export/out/libexport.a -o target/plan-c
   Run: target/plan-c rooms/twelve.txt
   Exit status: 0 GOOD, 1 NONE, 2 refused (codes 2 to 8), 3 too large (ROOM), 64 wrong use, 70 trouble. */

#include <errno.h>
#include <signal.h>
#include <stdio.h>
#include <string.h>

#include "stoerwjok.h"

enum { CONFIGURATIONS = 65536 };
enum { REFUSED = 2, TOO_LARGE = 3, WRONG_USE = 64, TROUBLE = 70 };

static uint64_t table[4 * CONFIGURATIONS];
static uint16_t plan[CONFIGURATIONS];

/* One byte more than the longest text: a longer file is then seen to break the grammar. */
static uint8_t text[STOERWJOK_TEXT_BYTES + 1];

static int trouble(const char *what)
{
    fprintf(stderr, "plan: %s: %s\n", what, strerror(errno));
    return TROUBLE;
}

/* Whether the file could be read; a folder can be opened and not read. */
static int read_text(const char *name, size_t *length)
{
    FILE *file = fopen(name, "rb");
    if (file == NULL)
        return 0;
    *length = fread(text, 1, sizeof text, file);
    int failed = ferror(file), error = errno;
    fclose(file);
    errno = error;
    return !failed;
}

static int status_of(uint64_t code)
{
    switch (code) {
    case STOERWJOK_GOOD:
    case STOERWJOK_NONE:
        return (int)code;
    case STOERWJOK_TABLE:
    case STOERWJOK_ROOM:
    case STOERWJOK_SHORT:
        return TOO_LARGE;
    default:
        return REFUSED;
    }
}

static void print_slot(unsigned long slot, unsigned mask)
{
    printf("slot %lu:", slot);
    if (mask == 0)
        printf(" idle");
    for (unsigned job = 0; job < 16; job++)
        if (mask >> job & 1)
            printf(" %u", job);
    printf("\n");
}

static void print_answer(const uint64_t *numbers)
{
    unsigned long count = (unsigned long)numbers[STOERWJOK_COUNT];
    unsigned long place = (unsigned long)numbers[STOERWJOK_PLACE];
    unsigned long prefix = (unsigned long)numbers[STOERWJOK_PREFIX];
    unsigned long cycle = (unsigned long)numbers[STOERWJOK_CYCLE];
    const char *name = stoerwjok_name(numbers[STOERWJOK_CODE]);
    if (numbers[STOERWJOK_CODE] != STOERWJOK_GOOD) {
        printf("%s: count %lu, place %lu\n", name, count, place);
        return;
    }
    printf("%s: count %lu, prefix %lu, cycle %lu\n", name, count, prefix, cycle);
    for (unsigned long slot = 0; slot < prefix + cycle; slot++)
        print_slot(slot, plan[slot]);
    printf("slots %lu to %lu again, for ever\n", prefix, prefix + cycle - 1);
}

int main(int argc, char **argv)
{
    uint64_t numbers[STOERWJOK_NUMBERS];
    size_t length;
    if (argc != 2) {
        fprintf(stderr, "usage: plan FILE, a room text\n");
        return WRONG_USE;
    }
    if (!read_text(argv[1], &length))
        return trouble(argv[1]);
    uint64_t code = stoerwjok_plan(text, length, table, 4 * CONFIGURATIONS, plan, CONFIGURATIONS,
                                   numbers);
    /* A reader that has gone is then an error of writing, like a full disk. */
    signal(SIGPIPE, SIG_IGN);
    print_answer(numbers);
    if (fflush(stdout) != 0 || ferror(stdout))
        return trouble("the answer could not be written");
    return status_of(code);
}
