//! Planning and judging beside the native planner, in one run, with the table touched before on both
//! sides: configurations, masks looked at, seconds, and the ratio. Needs `rt lib` in crates/export. A word
//! on the command line leaves only the rooms whose names have it.

use bench::native::{self, Answer, Room};
use bench::rooms;
use std::time::Instant;
use stoerwjok::{judge, plan, Code, Numbers, Planned};

const PLACES: usize = 1 << 20;
const JUDGED: usize = 1 << 14;
const SLOTS: usize = 1_000_000;

/// The least of some runs of each side, in seconds. The sides take turns, so that a machine that is
/// busy for a while is busy for both.
fn least(runs: usize, own: &mut dyn FnMut(), native: &mut dyn FnMut()) -> (f64, f64) {
    let seconds = |work: &mut dyn FnMut()| {
        let start = Instant::now();
        work();
        start.elapsed().as_secs_f64()
    };
    let mut best = (f64::INFINITY, f64::INFINITY);
    for _ in 0..runs {
        best = (best.0.min(seconds(own)), best.1.min(seconds(native)));
    }
    best
}

fn numbers_of(answer: Answer) -> Numbers {
    let (code, [count, place, prefix, cycle]) = match answer {
        Answer::Good { count, prefix, cycle } => (Code::Good, [count, 0, prefix, cycle]),
        Answer::None { count } => (Code::None, [count, 0, 0, 0]),
        Answer::Full => (Code::Room, [0, 0, 0, 0]),
        Answer::Short { place } => (Code::Short, [0, place, 0, 0]),
        Answer::Out { count, place } => (Code::Out, [count, place, 0, 0]),
    };
    let [count, place, prefix, cycle] = [count, place, prefix, cycle].map(|number| number as u64);
    Numbers { code, count, place, prefix, cycle }
}

/// Plans a room on both sides in a table of so many places, compares the replies, and prints a row.
fn compare(name: &str, room: &Room, table: &mut [u64], buffers: &mut [Vec<u16>; 2]) {
    let text = rooms::text(room);
    let [ours, theirs] = buffers;
    let lent = std::cell::RefCell::new(table);
    let first = native::plan(room, &mut lent.borrow_mut(), theirs);
    let runs = (100_000_000 / first.steps).clamp(2, 300) as usize;
    let mut reply = Numbers::of(Code::Good);
    let (own, other) = least(
        runs,
        &mut || reply = plan(&text, &mut lent.borrow_mut(), ours).numbers(),
        &mut || drop(native::plan(room, &mut lent.borrow_mut(), theirs)),
    );
    assert_eq!(reply, numbers_of(first.answer), "{name}");
    assert_eq!(ours, theirs, "{name}");
    println!(
        "{name:<28} code {:>2} {:>9} {:>11} {own:>9.4} {other:>9.4} {:>8.1} {:>6.2}",
        reply.code.number(),
        reply.count,
        first.steps,
        own * 1e9 / first.steps as f64,
        own / other
    );
}

/// The first slots of the plan of a room.
fn plan_of(room: &Room, table: &mut [u64], buffer: &mut [u16]) -> Vec<u16> {
    match plan(&rooms::text(room), table, buffer) {
        Planned::Good { plan, .. } => plan.slots().take(SLOTS).collect(),
        other => panic!("{other:?}"),
    }
}

/// Judges a past on both sides, compares the replies, and prints a row.
fn compare_judges(name: &str, room: &Room, table: &mut [u64], past: &[u16]) {
    let text = rooms::text(room);
    let lent = std::cell::RefCell::new(table);
    let mut reply = Numbers::of(Code::Good);
    let mut answer = Answer::Full;
    let (own, other) = least(
        5,
        &mut || reply = judge(&text, &mut lent.borrow_mut(), past).numbers(),
        &mut || answer = native::judge(room, &mut lent.borrow_mut(), past).answer,
    );
    assert_eq!(reply, numbers_of(answer), "{name}");
    assert_eq!(reply.code, Code::Good, "{name}");
    println!("{name:<28} {:>9} {own:>9.4} {other:>9.4} {:>6.2}", past.len(), own / other);
}

fn main() {
    let word = std::env::args().nth(1).unwrap_or_default();
    let named = |name: &str| name.contains(&word);
    let rooms: Vec<_> = rooms::all().into_iter().filter(|room| named(room.name)).collect();
    let mut table = vec![1; PLACES * 4];
    let mut buffers = [vec![1; PLACES], vec![1; PLACES]];
    println!(
        "{:<28} {:>7} {:>9} {:>11} {:>9} {:>9} {:>8} {:>6}",
        "plan", "", "count", "masks", "seconds", "native", "ns/mask", "ratio"
    );
    let mut judged = Vec::new();
    for room in &rooms {
        let count = native::configurations(&room.room, &mut table).len();
        compare(room.name, &room.room, &mut table[..count * 4], &mut buffers);
        compare(&format!("{}, one short", room.name), &room.room, &mut table[..(count - 1) * 4], &mut buffers);
        if count <= JUDGED {
            judged.push(room);
        }
    }
    let large = rooms::too_large();
    if named(large.name) {
        compare(large.name, &large.room, &mut table, &mut buffers);
    }
    println!("\n{:<28} {:>9} {:>9} {:>9} {:>6}", "judge the plan", "slots", "seconds", "native", "ratio");
    for room in &judged {
        let past = plan_of(&room.room, &mut table[..JUDGED * 4], &mut buffers[0]);
        compare_judges(room.name, &room.room, &mut table[..JUDGED * 4], &past);
    }
    println!("\n{:<28} {:>9} {:>9} {:>9} {:>6}", "judge another past", "slots", "seconds", "native", "ratio");
    for room in &judged {
        let past = native::wander(&room.room, &mut table[..JUDGED * 4], SLOTS);
        compare_judges(room.name, &room.room, &mut table[..JUDGED * 4], &past);
    }
}
