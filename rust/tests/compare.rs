//! The calls against the reference, on texts, rooms and pasts from a fixed seed: `cargo test --release --test compare` takes a
//! tenth of them, and `cargo test --release --test compare -- --ignored` all, some hundred thousand.

#[allow(dead_code)]
mod generate;
#[allow(dead_code)]
mod reference;

use generate::{Random, Sizes};
use reference::{Memory, Reply, Subject, LONGEST_TABLE, ROOM_BYTES};
use std::collections::{BTreeMap, HashSet};
use std::env;
use std::hash::{DefaultHasher, Hash, Hasher};
use std::process::ExitCode;
use std::ptr::{null, null_mut};
use std::time::Instant;
use stoerwjok::{exported, lent, numbers, Code, Numbers, Reading, Room};

const SEED: u64 = 8;
const TEXTS: u64 = 40_000;
const ROOMS: u64 = 40_000;
const PLANNED: u64 = 12_000;
const MOST_STEPS: usize = 10_000;
const SHOWN: usize = 10;

fn main() -> ExitCode {
    let start = Instant::now();
    let all = env::args().any(|word| word == "--ignored" || word == "--include-ignored");
    let share = if all { 1 } else { 10 };
    let mut totals = Totals::default();
    for case in 0..TEXTS / share {
        compare_text(&mut Random::new(SEED + case), &mut totals);
    }
    for case in 0..ROOMS / share {
        compare_room(&mut Random::new(SEED + (1 << 32) + case), &mut totals);
    }
    for case in 0..PLANNED / share {
        compare_plans_and_pasts(&mut Random::new(SEED + (2 << 32) + case), &mut totals);
    }
    compare_long_tables(&mut Random::new(SEED + (3 << 32)), &mut totals);
    compare_null_pointers(&mut totals);
    totals.print();
    if !all {
        println!("a tenth of the cases; all of them with -- --ignored");
    }
    println!("seed {SEED}, {:.1} s", start.elapsed().as_secs_f64());
    match totals.differences.is_empty() {
        true => ExitCode::SUCCESS,
        false => ExitCode::FAILURE,
    }
}

/// How many cases got which code.
type Codes = BTreeMap<u64, u64>;

/// The codes by kind of case, and by call.
#[derive(Default)]
struct Totals {
    kinds: BTreeMap<String, Codes>,
    calls: BTreeMap<&'static str, Codes>,
    texts: Inputs,
    rooms: Inputs,
    pasts: Inputs,
    not_decided: u64,
    greatest_count: u64,
    longest_plan: u64,
    longest_past: usize,
    differences: Vec<String>,
}

/// How many inputs, and the hashes of different ones.
#[derive(Default)]
struct Inputs {
    number: u64,
    different: HashSet<u64>,
}

impl Inputs {
    fn add(&mut self, input: impl Hash) {
        self.number += 1;
        let mut hasher = DefaultHasher::new();
        input.hash(&mut hasher);
        self.different.insert(hasher.finish());
    }
}

impl Totals {
    fn add(&mut self, kind: &str, call: &'static str, reply: &Reply, difference: Option<String>) {
        let kinds = self.kinds.entry(kind.to_string()).or_default();
        let calls = self.calls.entry(call).or_default();
        for codes in [kinds, calls] {
            *codes.entry(reply.code).or_default() += 1;
        }
        self.greatest_count = self.greatest_count.max(reply.count);
        self.longest_plan = self.longest_plan.max(reply.prefix + reply.cycle);
        if let Some(difference) = difference {
            self.differences.push(format!("{kind}: {difference}"));
        }
    }

    fn print(&self) {
        println!("\nCases by kind");
        for (kind, codes) in &self.kinds {
            print_codes(kind, codes);
        }
        println!("\nCases by call");
        let mut all = Codes::new();
        for (call, codes) in &self.calls {
            print_codes(call, codes);
            for (code, number) in codes {
                *all.entry(*code).or_default() += number;
            }
        }
        print_codes("all", &all);
        println!();
        for (name, of) in [
            ("texts", &self.texts),
            ("rooms", &self.rooms),
            ("pasts", &self.pasts),
        ] {
            println!(
                "{name}: {}, different ones: {}",
                of.number,
                of.different.len()
            );
        }
        println!("greatest count {}", self.greatest_count);
        println!(
            "longest plan {}, longest past {}",
            self.longest_plan, self.longest_past
        );
        println!(
            "left out, since the reference gave up: {}",
            self.not_decided
        );
        println!("differences: {}", self.differences.len());
        for difference in self.differences.iter().take(SHOWN) {
            println!("  {difference}");
        }
    }
}

fn print_codes(name: &str, codes: &Codes) {
    let parts: Vec<String> = codes
        .iter()
        .map(|(code, number)| format!("{} {number}", named(*code)))
        .collect();
    println!(
        "{name:28} {:7}: {}",
        codes.values().sum::<u64>(),
        parts.join(", ")
    );
}

fn named(code: u64) -> Code {
    Code::of(code).expect("a code of the list")
}

/// A lent buffer within a wider one, with anything in both.
struct Lent<T> {
    all: Vec<T>,
    found: Vec<T>,
    length: usize,
}

const MARGIN: usize = 6;

impl<T: Copy + PartialEq> Lent<T> {
    fn new(length: usize, mut any: impl FnMut() -> T) -> Lent<T> {
        let all: Vec<T> = (0..length + 2 * MARGIN).map(|_| any()).collect();
        Lent {
            found: all.clone(),
            all,
            length,
        }
    }

    fn with(contents: &[T], any: impl FnMut() -> T) -> Lent<T> {
        let mut lent = Lent::new(contents.len(), any);
        lent.lend().copy_from_slice(contents);
        lent.found.copy_from_slice(&lent.all);
        lent
    }

    fn lend(&mut self) -> &mut [T] {
        &mut self.all[MARGIN..MARGIN + self.length]
    }

    /// The same, as an array of its length.
    fn lend_array<const N: usize>(&mut self) -> &mut [T; N] {
        self.lend().try_into().expect("a buffer of this length")
    }

    /// Whether it holds this from its start, and all else is as found.
    fn holds(&self, written: &[T]) -> bool {
        let end = MARGIN + written.len();
        self.all[..MARGIN] == self.found[..MARGIN]
            && self.all[MARGIN..end] == *written
            && self.all[end..] == self.found[end..]
    }
}

fn lent_table(random: &mut Random, length: usize) -> Lent<u64> {
    match random.below(4) {
        0 => Lent::new(length, || u64::MAX),
        1 => Lent::new(length, || random.next() >> 40),
        _ => Lent::new(length, || random.next()),
    }
}

fn table_holds(table: &Lent<u64>, code: u64) -> bool {
    match reference::table_after(code) {
        Memory::AsFound => table.holds(&[]),
        Memory::Zeros => table.holds(&vec![0; table.length]),
    }
}

/// A call is made by its wrapper, or as exported with lent numbers.
enum Way<'a> {
    Wrapper,
    Exported(&'a mut [u64; 5]),
}

/// Makes the call and says how its reply differs.
fn replied(
    random: &mut Random,
    expected: &Reply,
    call: impl FnOnce(Way) -> Numbers,
) -> Option<String> {
    if random.one_in(2) {
        let given = call(Way::Wrapper);
        return differs(given == Numbers::from(expected.numbers()), &given);
    }
    let mut lent = Lent::new(5, || random.next());
    let code = call(Way::Exported(lent.lend_array())).code.number();
    let same = code == expected.code && lent.holds(&expected.numbers());
    differs(same, &(code, lent.lend()))
}

fn differs(same: bool, given: &impl std::fmt::Debug) -> Option<String> {
    (!same).then(|| format!("given {given:?}"))
}

fn returned(code: u64) -> Numbers {
    Numbers::of(named(code))
}

/// What is wrong with a case, in one line.
fn difference(
    call: impl FnOnce() -> String,
    expected: &Reply,
    reply: Option<String>,
    buffers: &[(&str, bool)],
) -> Option<String> {
    let wrong = buffers.iter().filter(|(_, same)| !same);
    let mut parts: Vec<String> = wrong.map(|(name, _)| format!("{name} buffer")).collect();
    parts.extend(reply);
    let wrong = parts.join(", ");
    (!parts.is_empty()).then(|| format!("{}, expected {expected:?}, {wrong}", call()))
}

fn compare_text(random: &mut Random, totals: &mut Totals) {
    let damage = match random.one_in(1000) {
        true => "empty",
        false => random.pick(&generate::DAMAGES),
    };
    let mut room = any_room(random);
    if random.one_in(4) {
        generate::spoil(random, &mut room);
    }
    let whole = match random.one_in(12) {
        true => generate::longest(random),
        false => reference::text::render(&room),
    };
    let text = generate::damaged(random, &whole, damage);
    let subject = Subject::new(&text, MOST_STEPS);
    let kind = format!("text, {damage}");
    totals.texts.add(&text);
    check(random, totals, &kind, &text, &subject);
    read(random, totals, &kind, &text);
    let table = table_length(random, &subject);
    let buffer = random.below(40);
    plan(random, totals, &kind, &text, &subject, table, buffer);
    let masks = random.pick(&generate::PASTS);
    let past = generate::past(random, &subject, masks);
    judge(random, totals, &kind, &text, &subject, table, &past);
}

fn compare_room(random: &mut Random, totals: &mut Totals) {
    let mut room = any_room(random);
    let faults = random.below(4);
    for _ in 0..faults {
        generate::spoil(random, &mut room);
    }
    let kind = [
        "room",
        "room, one fault",
        "room, two faults",
        "room, three faults",
    ][faults];
    let bytes = generate::bytes(random, &room);
    let text = reference::text::render(&room);
    let buffer = match random.below(6) {
        0 => text.len() - 1,
        1 => text.len() + random.below(50),
        2 => random.below(700),
        3 => random.below(4),
        _ => text.len(),
    };
    totals.rooms.add(bytes);
    write(random, totals, kind, &bytes, buffer);
    check(random, totals, kind, &text, &Subject::new(&text, 0));
}

fn compare_plans_and_pasts(random: &mut Random, totals: &mut Totals) {
    let text = match random.one_in(100) {
        true => generate::longest(random),
        false => reference::text::render(&any_room(random)),
    };
    let subject = Subject::new(&text, MOST_STEPS);
    totals.rooms.add(subject.room.to_bytes());
    let exact = 4 * subject.least_count() + random.below(4);
    let slots = subject.masks().len();
    let longer = slots + 1 + random.below(20);
    let any = random.below(4000);
    let buffers = [
        ("plan, table one less", exact - 4, longer),
        ("plan, table exact", exact, longer),
        ("plan, any table", any, longer),
        ("plan, table of 0 to 8", random.below(9), longer),
        ("plan, buffer exact", exact, slots),
        (
            "plan, buffer one less",
            exact + any,
            slots.saturating_sub(1),
        ),
        ("plan, buffer empty", exact, 0),
    ];
    for (kind, table, buffer) in buffers {
        plan(random, totals, kind, &text, &subject, table, buffer);
    }
    for name in generate::PASTS {
        let past = generate::past(random, &subject, name);
        let table = table_length(random, &subject);
        let kind = format!("past, {name}");
        judge(random, totals, &kind, &text, &subject, table, &past);
    }
}

/// Mostly enough for the configurations, sometimes just not.
fn table_length(random: &mut Random, subject: &Subject) -> usize {
    let exact = 4 * subject.least_count();
    match random.below(12) {
        0 => random.below(9),
        1 => random.below(2000),
        2 => exact.saturating_sub(1),
        3..=6 => exact + random.below(4),
        _ => exact + random.below(400),
    }
}

fn any_room(random: &mut Random) -> reference::Room {
    let sizes: &Sizes = match random.below(64) {
        0 | 1 => &generate::FULL,
        2 | 3 => &generate::WIDE,
        4 => &generate::HIGH,
        5..=15 => &generate::TINY,
        16..=27 => &generate::SMALL,
        _ => &generate::USUAL,
    };
    generate::room(random, sizes)
}

fn compare_long_tables(random: &mut Random, totals: &mut Totals) {
    let texts: [&[u8]; 4] = [
        b"a001\na100010202\na100010202\nff\n",
        b"a001\na100010102\na100010102\nff\n",
        b"a009\na100010202\nff\n",
        b"a001\na100010202\n",
    ];
    let kind = "longest table";
    for text in texts {
        let subject = Subject::new(text, MOST_STEPS);
        for table in [LONGEST_TABLE, LONGEST_TABLE + 1, LONGEST_TABLE + 4] {
            plan(random, totals, kind, text, &subject, table, 1);
            plan(random, totals, kind, text, &subject, table, 2);
            judge(random, totals, kind, text, &subject, table, &[2, 2]);
        }
    }
}

/// Null pointers where a length is 0.
fn compare_null_pointers(totals: &mut Totals) {
    let room_a = b"a001\na100010202\na100010202\nff\n";
    let (text, length) = (room_a.as_ptr(), room_a.len());
    let bytes = reference::text::read(room_a).unwrap().to_bytes();
    let mut table = [7; 16];
    let mut plan = [7; 2];
    let mut room = [7; ROOM_BYTES];
    let (no_text, no_past) = (null::<u8>(), null::<u16>());
    let (no_table, no_plan, no_bytes) = (null_mut::<u64>(), null_mut::<u16>(), null_mut::<u8>());
    let (lent, masks) = (table.as_mut_ptr(), plan.as_mut_ptr());
    let broken = Reply::at(reference::TEXT, 0);
    let full = Reply::of(reference::ROOM);
    let accepted = Reply::of(reference::GOOD).counting(4);
    let short = |needed| Reply::at(reference::SHORT, needed);
    let replies = unsafe {
        use exported::*;
        [
            (
                "check",
                broken,
                numbers(|to| stoerwjok_check(no_text, 0, to)),
            ),
            (
                "plan",
                broken,
                numbers(|to| stoerwjok_plan(no_text, 0, no_table, 0, no_plan, 0, to)),
            ),
            (
                "plan",
                full,
                numbers(|to| stoerwjok_plan(text, length, no_table, 0, masks, 2, to)),
            ),
            (
                "plan",
                short(2),
                numbers(|to| stoerwjok_plan(text, length, lent, 16, no_plan, 0, to)),
            ),
            (
                "judge",
                broken,
                numbers(|to| stoerwjok_judge(no_text, 0, no_table, 0, no_past, 0, to)),
            ),
            (
                "judge",
                full,
                numbers(|to| stoerwjok_judge(text, length, no_table, 0, no_past, 0, to)),
            ),
            (
                "judge",
                accepted,
                numbers(|to| stoerwjok_judge(text, length, lent, 16, no_past, 0, to)),
            ),
            (
                "read",
                broken,
                numbers(|to| stoerwjok_read(no_text, 0, &mut room, to)),
            ),
            (
                "write",
                short(length),
                numbers(|to| stoerwjok_write(&bytes, no_bytes, 0, to)),
            ),
        ]
    };
    for (call, expected, given) in replies {
        let difference = differs(given == Numbers::from(expected.numbers()), &given);
        totals.add("null pointers", call, &expected, difference);
    }
    let buffers = (plan, table, room);
    if buffers != ([7; 2], [0; 16], [0; ROOM_BYTES]) {
        totals
            .differences
            .push(format!("null pointers: {buffers:?}"));
    }
}

fn check(random: &mut Random, totals: &mut Totals, kind: &str, text: &[u8], subject: &Subject) {
    let expected = subject.check();
    let reply = replied(random, &expected, |way| match way {
        Way::Wrapper => stoerwjok::check(text).numbers(),
        Way::Exported(numbers) => returned(lent::check(text, numbers)),
    });
    let call = || format!("check \"{}\"", text.escape_ascii());
    let difference = difference(call, &expected, reply, &[]);
    totals.add(kind, "check", &expected, difference);
}

fn read(random: &mut Random, totals: &mut Totals, kind: &str, text: &[u8]) {
    let (expected, written) = reference::read(text);
    let mut room = Lent::new(ROOM_BYTES, || random.byte());
    let to = room.lend_array();
    let reply = replied(random, &expected, |way| match way {
        Way::Wrapper => {
            let reading = stoerwjok::read(text);
            let room = match reading {
                Reading::Good(room) => room,
                Reading::Text { .. } => Room::default(),
            };
            *to = room.to_bytes();
            reading.numbers()
        }
        Way::Exported(numbers) => returned(lent::read(text, to, numbers)),
    });
    let call = || format!("read \"{}\"", text.escape_ascii());
    let buffers = [("room", room.holds(&written))];
    let difference = difference(call, &expected, reply, &buffers);
    totals.add(kind, "read", &expected, difference);
}

fn write(
    random: &mut Random,
    totals: &mut Totals,
    kind: &str,
    bytes: &[u8; ROOM_BYTES],
    buffer: usize,
) {
    let (expected, written) = reference::write(bytes, buffer);
    let mut text = Lent::new(buffer, || random.byte());
    let to = text.lend();
    let reply = replied(random, &expected, |way| match way {
        Way::Wrapper => stoerwjok::write(&Room::from_bytes(bytes), to).numbers(),
        Way::Exported(numbers) => returned(lent::write(bytes, to, numbers)),
    });
    let call = || format!("write {bytes:?} to {buffer}");
    let buffers = [("text", text.holds(&written))];
    let difference = difference(call, &expected, reply, &buffers);
    totals.add(kind, "write", &expected, difference);
}

fn plan(
    random: &mut Random,
    totals: &mut Totals,
    kind: &str,
    text: &[u8],
    subject: &Subject,
    table_length: usize,
    buffer: usize,
) {
    let Some((expected, written)) = subject.plan(table_length, buffer) else {
        totals.not_decided += 1;
        return;
    };
    let mut table = lent_table(random, table_length);
    let mut plan = Lent::new(buffer, || random.mask());
    let (lent, to) = (table.lend(), plan.lend());
    let reply = replied(random, &expected, |way| match way {
        Way::Wrapper => stoerwjok::plan(text, lent, to).numbers(),
        Way::Exported(numbers) => returned(lent::plan(text, lent, to, numbers)),
    });
    let call = || {
        let text = text.escape_ascii();
        format!("plan \"{text}\" with {table_length}, {buffer}")
    };
    let buffers = [
        ("table", table_holds(&table, expected.code)),
        ("plan", plan.holds(written)),
    ];
    let difference = difference(call, &expected, reply, &buffers);
    totals.add(kind, "plan", &expected, difference);
}

fn judge(
    random: &mut Random,
    totals: &mut Totals,
    kind: &str,
    text: &[u8],
    subject: &Subject,
    table_length: usize,
    past: &[u16],
) {
    let Some(expected) = subject.judge(table_length, past) else {
        totals.not_decided += 1;
        return;
    };
    totals.pasts.add((text, past));
    totals.longest_past = totals.longest_past.max(past.len());
    let mut table = lent_table(random, table_length);
    let mut masks = Lent::with(past, || random.mask());
    let (lent, from) = (table.lend(), masks.lend());
    let reply = replied(random, &expected, |way| match way {
        Way::Wrapper => stoerwjok::judge(text, lent, from).numbers(),
        Way::Exported(numbers) => returned(lent::judge(text, lent, from, numbers)),
    });
    let call = || {
        let text = text.escape_ascii();
        format!("judge \"{text}\" with {table_length}, {past:?}")
    };
    let buffers = [
        ("table", table_holds(&table, expected.code)),
        ("past", masks.holds(&[])),
    ];
    let difference = difference(call, &expected, reply, &buffers);
    totals.add(kind, "judge", &expected, difference);
}
