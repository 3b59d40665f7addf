//! Rooms, texts and pasts from a seed.

use crate::reference::configurations::Explored;
use crate::reference::{first_and_multiple, text, Job, Link, Room, Section, Subject, ROOM_BYTES};

/// Xorshift.
pub struct Random(u64);

impl Random {
    pub fn new(seed: u64) -> Random {
        let mut random = Random(seed.wrapping_mul(0x9e37_79b9_7f4a_7c15).max(1));
        for _ in 0..8 {
            random.next();
        }
        random
    }

    pub fn next(&mut self) -> u64 {
        self.0 ^= self.0 << 13;
        self.0 ^= self.0 >> 7;
        self.0 ^= self.0 << 17;
        self.0.wrapping_mul(0x2545_f491_4f6c_dd1d)
    }

    /// From 0 to n - 1.
    pub fn below(&mut self, n: usize) -> usize {
        ((self.next() >> 32) as usize) % n
    }

    pub fn between(&mut self, least: usize, greatest: usize) -> usize {
        least + self.below(greatest - least + 1)
    }

    pub fn one_in(&mut self, n: usize) -> bool {
        self.below(n) == 0
    }

    pub fn pick<T: Copy>(&mut self, from: &[T]) -> T {
        from[self.below(from.len())]
    }

    pub fn byte(&mut self) -> u8 {
        (self.next() >> 56) as u8
    }

    pub fn mask(&mut self) -> u16 {
        (self.next() >> 48) as u16
    }
}

/// What a room is drawn from.
#[derive(Clone, Copy)]
pub struct Sizes {
    pub jobs: usize,
    pub engines: usize,
    pub load: usize,
    pub multiples: &'static [usize],
    pub first: usize,
    pub sections: usize,
    pub links: usize,
    /// In one room of so many each deadline is the load or one more.
    pub tight: usize,
}

pub const TINY: Sizes = Sizes {
    jobs: 3,
    engines: 2,
    load: 2,
    multiples: &[1, 2, 3, 4],
    first: 2,
    sections: 2,
    links: 1,
    tight: 4,
};

pub const SMALL: Sizes = Sizes {
    jobs: 4,
    engines: 3,
    load: 3,
    multiples: &[2, 3, 4, 4, 6],
    first: 4,
    sections: 4,
    links: 2,
    tight: 4,
};

pub const USUAL: Sizes = Sizes {
    jobs: 6,
    engines: 4,
    load: 6,
    multiples: &[2, 3, 4, 6, 6, 8, 10, 12, 12, 20, 24, 36],
    first: 9,
    sections: 6,
    links: 4,
    tight: 4,
};

pub const FULL: Sizes = Sizes {
    jobs: 16,
    engines: 8,
    load: 3,
    multiples: &[1, 2, 3, 4, 4, 6, 8],
    first: 7,
    sections: 32,
    links: 16,
    tight: 1,
};

pub const WIDE: Sizes = Sizes {
    jobs: 3,
    engines: 8,
    load: 64,
    multiples: &[64, 60, 48, 63, 35],
    first: 255,
    sections: 6,
    links: 2,
    tight: 2,
};

pub const HIGH: Sizes = Sizes {
    jobs: 3,
    engines: 4,
    load: 3,
    multiples: &[4032, 4095, 3120, 2520, 1260],
    first: 255,
    sections: 3,
    links: 2,
    tight: 1,
};

/// A room within its limits.
pub fn room(random: &mut Random, sizes: &Sizes) -> Room {
    let multiple = random.pick(sizes.multiples);
    let mut room = Room {
        engines: random.between(1, sizes.engines),
        ..Room::default()
    };
    let jobs = match random.one_in(3) {
        true => random.between(1, sizes.jobs),
        false => random.between(sizes.jobs.div_ceil(2), sizes.jobs),
    };
    let tight = random.one_in(sizes.tight);
    while room.jobs.len() < jobs {
        let mut job = job(random, sizes, multiple, &room.jobs);
        if tight {
            job.deadline = random.between(job.load, job.period.min(job.load + 1));
        }
        room.jobs.push(job);
    }
    if random.one_in(2) {
        add_sections(random, sizes, &mut room);
    }
    if random.one_in(2) {
        add_links(random, sizes, &mut room);
    }
    room
}

fn job(random: &mut Random, sizes: &Sizes, multiple: usize, before: &[Job]) -> Job {
    let divisors: Vec<usize> = (1..=multiple.min(64))
        .filter(|d| multiple / d * d == multiple)
        .collect();
    let mut first = match random.below(3) {
        0 => random.between(0, sizes.first),
        _ => 0,
    };
    let greatest = divisors.len() - 1;
    let mut period = match random.below(3) {
        0 => random.pick(&divisors),
        _ if multiple > 64 => divisors[greatest - random.below(4)],
        _ => divisors[greatest],
    };
    if !before.is_empty() && random.one_in(2) {
        let twin = random.pick(before);
        (first, period) = (twin.first, twin.period);
    }
    let most = period.min(sizes.load);
    let load = random.between(1, most).min(random.between(1, most));
    let deadline = match random.below(4) {
        0 | 1 => period,
        2 => random.between(load, period),
        _ => random.between(load, period.min(load + 1)),
    };
    Job {
        first,
        load,
        deadline,
        period,
    }
}

fn add_sections(random: &mut Random, sizes: &Sizes, room: &mut Room) {
    let blocks = random.pick(&[1, 1, 2, 3, 8]);
    for _ in 0..random.between(1, sizes.sections) {
        if !room.sections.is_empty() && random.one_in(8) {
            let again = random.pick(&room.sections);
            room.sections.push(again);
            continue;
        }
        let job = random.below(room.jobs.len());
        let first = random.below(room.jobs[job].load);
        room.sections.push(Section {
            job,
            block: random.below(blocks),
            first,
            after: random.between(first + 1, room.jobs[job].load),
        });
    }
}

fn add_links(random: &mut Random, sizes: &Sizes, room: &mut Room) {
    let twins = |a: &Job, b: &Job| a.first == b.first && a.period == b.period;
    let ring = random.one_in(8);
    for _ in 0..random.between(1, sizes.links) {
        let sender = random.below(room.jobs.len());
        let receiver = random.below(room.jobs.len());
        if sender == receiver || !twins(&room.jobs[sender], &room.jobs[receiver]) {
            continue;
        }
        let (sender, receiver) = match ring {
            true => (sender, receiver),
            false => (sender.min(receiver), sender.max(receiver)),
        };
        room.links.push(Link { sender, receiver });
        if random.one_in(8) {
            room.links.push(Link { sender, receiver });
        }
        if ring && random.one_in(2) {
            room.links.push(Link {
                sender: receiver,
                receiver: sender,
            });
        }
    }
    room.links.truncate(16);
}

/// Puts a number of a room out of its range, or now and then only near to it; what a text can carry.
pub fn spoil(random: &mut Random, room: &mut Room) {
    if room.jobs.is_empty() {
        return;
    }
    let j = random.below(room.jobs.len());
    match random.below(16) {
        0 => room.engines = random.pick(&[0, 8, 9, 16, 255]),
        1 => room.jobs.clear(),
        2 => room.jobs[j].load = random.pick(&[0, 255]),
        3 => room.jobs[j].load = (room.jobs[j].deadline + 1).min(255),
        4 => room.jobs[j].deadline = (room.jobs[j].period + 1).min(255),
        5 => room.jobs[j].period = random.pick(&[0, 64, 65, 255]),
        6..=8 => spoil_section(random, room),
        9..=11 => spoil_link(random, room),
        _ => spoil_periods(random, room),
    }
}

fn spoil_section(random: &mut Random, room: &mut Room) {
    while room.sections.len() < 4 {
        room.sections.push(Section {
            job: 0,
            block: 0,
            first: 0,
            after: 1,
        });
    }
    let jobs = room.jobs.len();
    let s = random.below(room.sections.len());
    let section = &mut room.sections[s];
    let load = room.jobs.get(section.job).map_or(1, |job| job.load);
    match random.below(6) {
        0 => section.job = random.pick(&[jobs, jobs + 1, 255]),
        1 => section.block = random.pick(&[7, 8, 255]),
        2 => section.first = section.after,
        3 => section.after = section.first,
        4 => section.after = (load + 1).min(255),
        _ => (section.first, section.after) = (random.below(256), random.below(256)),
    }
}

fn spoil_link(random: &mut Random, room: &mut Room) {
    let jobs = room.jobs.len();
    let any = Link {
        sender: random.below(jobs),
        receiver: random.below(jobs),
    };
    let at = random.below(room.links.len() + 1);
    let link = match random.below(5) {
        0 => Link {
            sender: random.pick(&[jobs, 16, 255]),
            ..any
        },
        1 => Link {
            receiver: random.pick(&[jobs, 16, 255]),
            ..any
        },
        2 => Link {
            receiver: any.sender,
            ..any
        },
        _ => any,
    };
    room.links.insert(at, link);
    room.links.truncate(16);
    if random.one_in(2) {
        let job = &mut room.jobs[any.sender];
        match random.one_in(2) {
            true => job.first = (job.first + 1) % 256,
            false => job.period = (job.period + 1).min(64),
        }
    }
}

fn spoil_periods(random: &mut Random, room: &mut Room) {
    for job in &mut room.jobs {
        if random.one_in(2) {
            job.period = random.between(job.deadline.min(64), 64);
        }
    }
}

/// The bytes of a room, with anything in unused entries and now and then any stated numbers.
pub fn bytes(random: &mut Random, room: &Room) -> [u8; ROOM_BYTES] {
    let used = room.to_bytes();
    let mut bytes = used;
    if random.one_in(2) {
        for (from, to, size, number) in [(4, 68, 4, 1), (68, 196, 4, 2), (196, 228, 2, 3)] {
            let unused = (from + size * usize::from(used[number])).min(to);
            bytes[unused..to].fill_with(|| random.byte());
        }
    }
    if random.one_in(6) {
        let number = random.between(1, 3);
        bytes[number] = random.pick(&[0, 15, 16, 17, 32, 33, 34, 255]);
    }
    if random.one_in(40) {
        bytes.fill_with(|| random.byte());
        bytes[0] = random.pick(&[0, 1, 2, 9]);
        bytes[1] = random.pick(&[0, 1, 16, 17]);
    }
    bytes
}

pub const DAMAGES: [&str; 17] = [
    "whole",
    "byte changed",
    "digit changed",
    "byte dropped",
    "byte inserted",
    "line dropped",
    "line doubled",
    "lines swapped",
    "uppercase",
    "0d before 0a",
    "cut short",
    "bytes after ff",
    "too many of a kind",
    "random bytes",
    "longer than 648",
    "empty line",
    "several",
];

/// A text damaged in the named way.
pub fn damaged(random: &mut Random, text: &[u8], damage: &str) -> Vec<u8> {
    let mut bytes = text.to_vec();
    let at = random.below(bytes.len().max(1)).min(bytes.len());
    match damage {
        "byte changed" if !bytes.is_empty() => {
            bytes[at] = match random.one_in(2) {
                true => random.byte(),
                false => random.pick(b"0123456789abcdefABCDEFg/:`\n\r \0"),
            }
        }
        "digit changed" if !bytes.is_empty() && bytes[at] != b'\n' => {
            bytes[at] = random.pick(b"0123456789abcdef");
        }
        "byte dropped" if !bytes.is_empty() => drop(bytes.remove(at)),
        "byte inserted" => bytes.insert(at, random.pick(b"0a7f\n\r\xff")),
        "line dropped" | "line doubled" | "lines swapped" | "empty line" | "too many of a kind" => {
            bytes = lines_damaged(random, &bytes, damage)
        }
        "uppercase" => uppercase(random, &mut bytes),
        "0d before 0a" => {
            let ends: Vec<usize> = positions(&bytes, b'\n');
            if !ends.is_empty() {
                bytes.insert(random.pick(&ends), b'\r');
            }
        }
        "cut short" => bytes.truncate(at),
        "bytes after ff" => {
            let more: &[&[u8]] = &[b"\n", b"f", b"ff\n", b"a001\n", b"\0", b"ff", b"\n\n"];
            bytes.extend_from_slice(random.pick(more));
        }
        "empty" => bytes.clear(),
        "random bytes" => {
            let length = random.below(80);
            bytes.clear();
            bytes.resize_with(length, || random.pick(b"aaaff0123\n\n\r\xff\x00"));
            bytes.iter_mut().for_each(|byte| {
                if random.one_in(20) {
                    *byte = random.byte();
                }
            });
        }
        "longer than 648" => bytes = longer(random, &bytes),
        "several" => {
            for _ in 0..random.between(2, 4) {
                let one = random.between(1, 12);
                bytes = damaged(random, &bytes, DAMAGES[one]);
            }
        }
        _ => {}
    }
    bytes
}

fn positions(bytes: &[u8], byte: u8) -> Vec<usize> {
    (0..bytes.len()).filter(|j| bytes[*j] == byte).collect()
}

fn uppercase(random: &mut Random, bytes: &mut [u8]) {
    let letters: Vec<usize> = (0..bytes.len())
        .filter(|j| bytes[*j].is_ascii_lowercase())
        .collect();
    if letters.is_empty() {
        return;
    }
    match random.one_in(4) {
        true => bytes.make_ascii_uppercase(),
        false => bytes[random.pick(&letters)].make_ascii_uppercase(),
    }
}

fn lines_damaged(random: &mut Random, bytes: &[u8], damage: &str) -> Vec<u8> {
    let mut lines: Vec<Vec<u8>> = bytes
        .split_inclusive(|b| *b == b'\n')
        .map(<[u8]>::to_vec)
        .collect();
    if lines.is_empty() {
        return bytes.to_vec();
    }
    let at = random.below(lines.len());
    let to = random.below(lines.len());
    match damage {
        "line dropped" => drop(lines.remove(at)),
        "line doubled" => lines.insert(at, lines[at].clone()),
        "lines swapped" => lines.swap(at, to),
        "empty line" => lines.insert(at, b"\n".to_vec()),
        _ => {
            let (most, kind) = random.pick(&[(16, b"a1"), (32, b"a2"), (16, b"a3")]);
            if let Some(at) = lines.iter().position(|line| line.starts_with(kind)) {
                let line = lines[at].clone();
                let have = lines.iter().filter(|line| line.starts_with(kind)).count();
                let wanted = random.between(most - 1, most + 2);
                for _ in have..wanted {
                    lines.insert(at, line.clone());
                }
            }
        }
    }
    lines.concat()
}

fn longer(random: &mut Random, bytes: &[u8]) -> Vec<u8> {
    let mut long = bytes.to_vec();
    match random.below(3) {
        0 => long.resize_with(random.between(649, 3000), || random.byte()),
        1 => {
            while long.len() <= 648 {
                long.extend_from_slice(if bytes.is_empty() { b"ff\n" } else { bytes });
            }
        }
        _ => {
            let end = long.len().saturating_sub(3);
            long.truncate(end);
            while long.len() <= 648 {
                long.extend_from_slice(b"a100010101\n");
            }
            long.extend_from_slice(b"ff\n");
        }
    }
    long
}

/// A text of the greatest length, 648 bytes.
pub fn longest(random: &mut Random) -> Vec<u8> {
    let mut room = Room {
        engines: random.between(1, 8),
        ..Room::default()
    };
    for _ in 0..16 {
        room.jobs.push(Job {
            first: random.below(2),
            load: 1,
            deadline: random.between(1, 2),
            period: 2,
        });
    }
    for j in 0..32 {
        room.sections.push(Section {
            job: j % 16,
            block: random.below(8),
            first: 0,
            after: 1,
        });
    }
    let firsts: Vec<usize> = room.jobs.iter().map(|job| job.first).collect();
    while room.links.len() < 16 {
        let (sender, receiver) = (random.below(16), random.below(16));
        if sender < receiver && firsts[sender] == firsts[receiver] {
            room.links.push(Link { sender, receiver });
        }
    }
    text::render(&room)
}

pub const PASTS: [&str; 9] = [
    "empty",
    "plan",
    "plan's beginning",
    "plan, one mask changed",
    "walk in the centre",
    "walk",
    "walk, one mask changed",
    "random masks",
    "long",
];

/// A past of the named kind.
pub fn past(random: &mut Random, subject: &Subject, kind: &str) -> Vec<u16> {
    let plan = subject.masks();
    match kind {
        "plan" => plan.to_vec(),
        "plan's beginning" => repeated(plan, subject.prefix(), random.below(2 * plan.len() + 2)),
        "plan, one mask changed" => {
            let length = random.between(1, plan.len() + 3);
            let past = repeated(plan, subject.prefix(), length);
            changed(random, subject, past)
        }
        "walk in the centre" => walk(random, subject, true, 60),
        "walk" => walk(random, subject, false, 60),
        "walk, one mask changed" => {
            let past = walk(random, subject, true, 60);
            changed(random, subject, past)
        }
        "random masks" => (0..random.below(12))
            .map(|_| any_mask(random, subject))
            .collect(),
        "long" => {
            let length = random.between(100, 1000);
            let past = match random.one_in(2) {
                true => repeated(plan, subject.prefix(), length),
                false => walk(random, subject, true, length),
            };
            match random.one_in(2) {
                true => past,
                false => changed(random, subject, past),
            }
        }
        _ => Vec::new(),
    }
}

/// Prefix, then the cycle again and again; masks of 0 where there is no plan.
fn repeated(plan: &[u16], prefix: usize, length: usize) -> Vec<u16> {
    let cycle = plan.len() - prefix;
    let mask = |slot: usize| match slot < prefix {
        _ if plan.is_empty() => 0,
        true => plan[slot],
        false => plan[prefix + (slot - prefix) % cycle],
    };
    (0..length).map(mask).collect()
}

fn any_mask(random: &mut Random, subject: &Subject) -> u16 {
    let mask = random.mask();
    match random.below(4) {
        0 => mask,
        _ => mask & ((1u32 << subject.room.jobs.len().min(16)) - 1) as u16,
    }
}

fn changed(random: &mut Random, subject: &Subject, mut past: Vec<u16>) -> Vec<u16> {
    if past.is_empty() {
        return vec![any_mask(random, subject)];
    }
    let at = random.below(past.len());
    past[at] = match random.below(4) {
        0 => any_mask(random, subject),
        1 => past[at] ^ 1 << random.below(16),
        2 => past[at] & random.mask(),
        _ => past[at] ^ 1 << random.below(subject.room.jobs.len().clamp(1, 16)),
    };
    past
}

fn walk(random: &mut Random, subject: &Subject, inside: bool, most: usize) -> Vec<u16> {
    let Some(explored) = subject.explored() else {
        return (0..random.below(9)).map(|_| random.mask()).collect();
    };
    let (first, multiple) = first_and_multiple(&subject.room);
    let length = random.below((2 * (first + multiple)).min(most) + 1);
    steps(
        random,
        explored,
        inside,
        length.max(most.saturating_sub(60)),
    )
}

fn steps(random: &mut Random, explored: &Explored, inside: bool, length: usize) -> Vec<u16> {
    let mut past = Vec::new();
    let mut at = 0;
    while past.len() < length {
        let next: Vec<(u16, usize)> = explored.steps[at]
            .iter()
            .filter(|(_, to)| !inside || explored.centre[*to])
            .copied()
            .collect();
        if next.is_empty() {
            break;
        }
        let (mask, to) = random.pick(&next);
        past.push(mask);
        at = to;
    }
    past
}
