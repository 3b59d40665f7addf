/* How deep the calls go on the stack: each runs on a thread whose stack is memory of this program, painted before and looked at
   afterwards. Printed are the bytes that a call used beyond those of a thread that calls nothing.
   Build: (cd crates/export && rt lib) && cc -O2 -Iinclude bench/stack.c crates/export/out/libexport.a -lpthread -o target/stack
   Run: target/stack ROOM_TEXT_FILE .. */

#include <pthread.h>
#include <stdio.h>
#include <stdlib.h>
#include <string.h>

#include "stoerwjok.h"

enum { CONFIGURATIONS = 65536, SLOTS = 4096, DEPTH = 1 << 20, PAINT = 0xa5 };

static uint64_t table[4 * CONFIGURATIONS];
static uint16_t plan[SLOTS];
static uint8_t text[STOERWJOK_TEXT_BYTES + 1];
static uint8_t room[STOERWJOK_ROOM_BYTES];
static uint64_t numbers[STOERWJOK_NUMBERS];
static size_t length, slots;

static void *idle(void *unused)
{
    return unused;
}

static void *call_check(void *unused)
{
    stoerwjok_check(text, length, numbers);
    return unused;
}

static void *call_plan(void *unused)
{
    stoerwjok_plan(text, length, table, 4 * CONFIGURATIONS, plan, SLOTS, numbers);
    slots = (size_t)(numbers[STOERWJOK_PREFIX] + numbers[STOERWJOK_CYCLE]);
    return unused;
}

static void *call_judge(void *unused)
{
    stoerwjok_judge(text, length, table, 4 * CONFIGURATIONS, plan, slots, numbers);
    return unused;
}

static void *call_read(void *unused)
{
    stoerwjok_read(text, length, room, numbers);
    return unused;
}

static void *call_write(void *unused)
{
    stoerwjok_write(room, text, length, numbers);
    return unused;
}

/* The bytes of a painted stack that a thread has changed, from the deepest one on. */
static size_t depth_of(void *(*work)(void *))
{
    pthread_t thread;
    pthread_attr_t attributes;
    uint8_t *stack = aligned_alloc(4096, DEPTH);
    memset(stack, PAINT, DEPTH);
    pthread_attr_init(&attributes);
    pthread_attr_setstack(&attributes, stack, DEPTH);
    if (pthread_create(&thread, &attributes, work, NULL) != 0)
        exit(1);
    pthread_join(thread, NULL);
    size_t clean = 0;
    while (clean < DEPTH && stack[clean] == PAINT)
        clean++;
    free(stack);
    return DEPTH - clean;
}

/* The first run is not counted: in it the loader binds what the call needs. */
static void measure(const char *name, void *(*work)(void *))
{
    depth_of(work);
    size_t depth = depth_of(work);
    printf("  %-6s %6zu bytes, code %d\n", name, depth - depth_of(idle), (int)numbers[STOERWJOK_CODE]);
}

int main(int argc, char **argv)
{
    for (int i = 1; i < argc; i++) {
        FILE *file = fopen(argv[i], "rb");
        if (file == NULL) {
            perror(argv[i]);
            return 1;
        }
        length = fread(text, 1, sizeof text, file);
        fclose(file);
        printf("%s\n", argv[i]);
        measure("check", call_check);
        measure("plan", call_plan);
        measure("judge", call_judge);
        measure("read", call_read);
        measure("write", call_write);
    }
    return 0;
}
