//! Each call once, on the paper's room A, and what the wrappers add.

use std::thread;
use stoerwjok::{check, jobs, judge, plan, read, write};
use stoerwjok::{Checked, Job, Judged, Planned, Reading, Refusal, Room, Table, Written};

const TEXT: &[u8] = b"a001\na100010202\na100010202\nff\n";

fn room_a() -> Room {
    let job = Job {
        first: 0,
        load: 1,
        deadline: 2,
        period: 2,
    };
    let mut room = Room {
        engines: 1,
        jobs: 2,
        ..Room::default()
    };
    room.job[..2].fill(job);
    room
}

#[test]
fn check_is_good() {
    assert_eq!(check(TEXT), Checked::Good);
    assert_eq!(check(b"a001\nff\n"), Checked::Refused(Refusal::Jobs));
    assert_eq!(check(b"a001\n"), Checked::Text { place: 1 });
}

#[test]
fn plan_is_written() {
    let mut table = [9; 18];
    let mut masks = [9; 3];
    let Planned::Good { count, plan } = plan(TEXT, &mut table, &mut masks) else {
        panic!("a feasible room");
    };
    assert_eq!(count, 4);
    assert_eq!((plan.prefix(), plan.cycle()), (&[][..], &[2, 1][..]));
    assert_eq!(masks, [2, 1, 9]);
    assert_eq!(table, [0; 18]);
}

#[test]
fn plan_goes_on_for_ever() {
    let text = b"a001\na101010102\nff\n";
    let mut table = Table::for_configurations(3);
    let mut buffer = table.plan_buffer();
    let Planned::Good { plan, .. } = plan(text, &mut table, &mut buffer) else {
        panic!("a feasible room, of 3 configurations");
    };
    assert_eq!((plan.prefix(), plan.cycle()), (&[0][..], &[1, 0][..]));
    assert!(plan.slots().take(6).eq([0, 1, 0, 1, 0, 1]));
    for (slot, mask) in plan.slots().take(100).enumerate() {
        assert_eq!(plan.slot(slot as u64), mask);
    }
    assert_eq!(plan.slot(u64::MAX), 1);
}

#[test]
fn table_is_as_large_as_asked() {
    let mut buffer = [0; 2];
    assert_eq!(Table::for_configurations(4).configurations(), 4);
    let mut asked =
        |number| plan(TEXT, &mut Table::for_configurations(number), &mut buffer).numbers();
    assert_eq!(asked(4).count, 4);
    assert_eq!(asked(3), Planned::Room.numbers());
    assert_eq!(asked(Table::MOST).count, 4);
    assert_eq!(asked(Table::MOST + 1), Planned::Table.numbers());
}

#[test]
fn jobs_of_a_mask() {
    assert!(jobs(0).eq([]));
    assert!(jobs(9).eq([0, 3]));
    assert!(jobs(0x8000).eq([15]));
}

#[test]
fn past_is_judged() {
    let mut table = [9; 16];
    let good = judge(TEXT, &mut table, &[1, 2, 2, 1]);
    assert_eq!(good, Judged::Good { count: 4 });
    let out = judge(TEXT, &mut table, &[1, 2, 0]);
    assert_eq!(out, Judged::Out { count: 4, place: 3 });
    assert_eq!(judge(TEXT, &mut [], &[]), Judged::Room);
}

#[test]
fn text_is_read() {
    assert_eq!(read(TEXT), Reading::Good(room_a()));
    assert_eq!(read(b"a001\nff"), Reading::Text { place: 1 });
}

#[test]
fn text_is_written() {
    let mut text = [9; 40];
    assert_eq!(write(&room_a(), &mut text), Written::Good(TEXT));
    assert_eq!(text[TEXT.len()..], [9; 40 - TEXT.len()]);
    let place = TEXT.len() as u64;
    assert_eq!(write(&room_a(), &mut []), Written::Short { place });
    let empty = Room::default();
    assert_eq!(write(&empty, &mut text), Written::Refused(Refusal::Engines));
}

#[test]
fn calls_run_on_threads_at_once() {
    let rooms: [&[u8]; 4] = [
        TEXT,
        include_bytes!("../../rooms/camera.txt"),
        include_bytes!("../../rooms/twelve.txt"),
        include_bytes!("../../rooms/twelve-block.txt"),
    ];
    let planned = |text: &[u8]| {
        let mut table = Table::for_configurations(1_536);
        let mut buffer = table.plan_buffer();
        let numbers = plan(text, &mut table, &mut buffer).numbers();
        (numbers, buffer)
    };
    let alone = rooms.map(planned);
    thread::scope(|threads| {
        for (text, alone) in rooms.iter().zip(&alone) {
            threads.spawn(move || {
                for _ in 0..20 {
                    assert_eq!(planned(text), *alone);
                }
            });
        }
    });
}
