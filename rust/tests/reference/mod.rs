//! The paper (01) in plain Rust, written from its sentences alone.

pub mod configurations;
pub mod past;
pub mod slow;
pub mod text;

mod check;

pub use check::{check, first_and_multiple};

use configurations::{explore, Explored};

pub const GOOD: u64 = 0;
pub const NONE: u64 = 1;
pub const TEXT: u64 = 2;
pub const ENGINES: u64 = 3;
pub const JOBS: u64 = 4;
pub const JOB: u64 = 5;
pub const SECTION: u64 = 6;
pub const LINK: u64 = 7;
pub const LONG: u64 = 8;
pub const TABLE: u64 = 9;
pub const ROOM: u64 = 10;
pub const SHORT: u64 = 11;
pub const OUT: u64 = 12;

pub const ROOM_BYTES: usize = 228;
pub const LONGEST_TABLE: usize = 4_194_304;

#[derive(Clone, Copy, Debug, Default, PartialEq, Eq)]
pub struct Reply {
    pub code: u64,
    pub count: u64,
    pub place: u64,
    pub prefix: u64,
    pub cycle: u64,
}

impl Reply {
    pub fn of(code: u64) -> Reply {
        Reply {
            code,
            ..Reply::default()
        }
    }

    pub fn at(code: u64, place: usize) -> Reply {
        Reply {
            place: place as u64,
            ..Reply::of(code)
        }
    }

    pub fn counting(self, count: usize) -> Reply {
        Reply {
            count: count as u64,
            ..self
        }
    }

    pub fn numbers(&self) -> [u64; 5] {
        [self.code, self.count, self.place, self.prefix, self.cycle]
    }
}

#[derive(Clone, Copy, Debug, Default, PartialEq, Eq)]
pub struct Job {
    pub first: usize,
    pub load: usize,
    pub deadline: usize,
    pub period: usize,
}

#[derive(Clone, Copy, Debug, Default, PartialEq, Eq)]
pub struct Section {
    pub job: usize,
    pub block: usize,
    pub first: usize,
    pub after: usize,
}

#[derive(Clone, Copy, Debug, Default, PartialEq, Eq)]
pub struct Link {
    pub sender: usize,
    pub receiver: usize,
}

/// Each list is as long as the stated number.
#[derive(Clone, Debug, Default, PartialEq, Eq)]
pub struct Room {
    pub engines: usize,
    pub jobs: Vec<Job>,
    pub sections: Vec<Section>,
    pub links: Vec<Link>,
}

impl Room {
    pub fn from_bytes(bytes: &[u8; ROOM_BYTES]) -> Room {
        let number = |at: usize| usize::from(bytes[at]);
        let mut room = Room {
            engines: number(0),
            jobs: vec![Job::default(); number(1)],
            sections: vec![Section::default(); number(2)],
            links: vec![Link::default(); number(3)],
        };
        for (j, job) in room.jobs.iter_mut().take(16).enumerate() {
            let at = 4 + 4 * j;
            *job = Job {
                first: number(at),
                load: number(at + 1),
                deadline: number(at + 2),
                period: number(at + 3),
            };
        }
        for (j, section) in room.sections.iter_mut().take(32).enumerate() {
            let at = 4 + 64 + 4 * j;
            *section = Section {
                job: number(at),
                block: number(at + 1),
                first: number(at + 2),
                after: number(at + 3),
            };
        }
        for (j, link) in room.links.iter_mut().take(16).enumerate() {
            let at = 4 + 64 + 128 + 2 * j;
            *link = Link {
                sender: number(at),
                receiver: number(at + 1),
            };
        }
        room
    }

    /// Unused entries are zeros.
    pub fn to_bytes(&self) -> [u8; ROOM_BYTES] {
        let mut bytes = [0; ROOM_BYTES];
        let mut put = |at: usize, numbers: &[usize]| {
            for (j, number) in numbers.iter().enumerate() {
                bytes[at + j] = *number as u8;
            }
        };
        let lengths = [self.jobs.len(), self.sections.len(), self.links.len()];
        put(0, &[self.engines, lengths[0], lengths[1], lengths[2]]);
        for (j, job) in self.jobs.iter().take(16).enumerate() {
            put(4 + 4 * j, &[job.first, job.load, job.deadline, job.period]);
        }
        for (j, s) in self.sections.iter().take(32).enumerate() {
            put(68 + 4 * j, &[s.job, s.block, s.first, s.after]);
        }
        for (j, link) in self.links.iter().take(16).enumerate() {
            put(196 + 2 * j, &[link.sender, link.receiver]);
        }
        bytes
    }
}

#[derive(Clone, Copy, Debug, PartialEq, Eq)]
pub enum Memory {
    AsFound,
    Zeros,
}

pub fn table_after(code: u64) -> Memory {
    match code {
        GOOD | NONE | ROOM | SHORT | OUT => Memory::Zeros,
        _ => Memory::AsFound,
    }
}

/// A room text with all that the paper says of it.
pub struct Subject {
    pub room: Room,
    refusal: Reply,
    explored: Option<Result<Explored, usize>>,
    plan: Option<(Vec<u16>, usize)>,
}

impl Subject {
    /// Gives up the configurations after `most` steps.
    pub fn new(bytes: &[u8], most: usize) -> Subject {
        let (room, refusal) = match text::read(bytes) {
            Ok(room) => {
                let refusal = check(&room);
                (room, refusal)
            }
            Err(line) => (Room::default(), Reply::at(TEXT, line)),
        };
        let explored = (refusal.code == GOOD).then(|| explore(&room, most));
        let plan = match &explored {
            Some(Ok(explored)) => explored.plan(),
            _ => None,
        };
        Subject {
            room,
            refusal,
            explored,
            plan,
        }
    }

    pub fn check(&self) -> Reply {
        self.refusal
    }

    pub fn explored(&self) -> Option<&Explored> {
        self.explored.as_ref()?.as_ref().ok()
    }

    /// Prefix and cycle in one row.
    pub fn masks(&self) -> &[u16] {
        self.plan.as_ref().map_or(&[], |(masks, _)| masks)
    }

    pub fn prefix(&self) -> usize {
        self.plan.as_ref().map_or(0, |(_, prefix)| *prefix)
    }

    /// The number of configurations where it is known, else one that it is not below.
    pub fn least_count(&self) -> usize {
        match &self.explored {
            Some(Ok(explored)) => explored.reached.len(),
            Some(Err(found)) => *found,
            None => 0,
        }
    }

    /// The reply and what the plan buffer then holds from its start; none where the reference gave up.
    pub fn plan(&self, table: usize, buffer: usize) -> Option<(Reply, &[u16])> {
        let explored = match self.until_room(table)? {
            Ok(explored) => explored,
            Err(reply) => return Some((reply, &[])),
        };
        let count = explored.reached.len();
        let Some((masks, prefix)) = &self.plan else {
            return Some((Reply::of(NONE).counting(count), &[]));
        };
        if masks.len() > buffer {
            return Some((Reply::at(SHORT, masks.len()), &[]));
        }
        let reply = Reply {
            count: count as u64,
            prefix: *prefix as u64,
            cycle: (masks.len() - prefix) as u64,
            ..Reply::of(GOOD)
        };
        Some((reply, masks))
    }

    /// The reply; none where the reference gave up.
    pub fn judge(&self, table: usize, past: &[u16]) -> Option<Reply> {
        let explored = match self.until_room(table)? {
            Ok(explored) => explored,
            Err(reply) => return Some(reply),
        };
        let reply = match shortest_outside(&self.room, explored, past) {
            Some(length) => Reply::at(OUT, length),
            None => Reply::of(GOOD),
        };
        Some(reply.counting(explored.reached.len()))
    }

    fn until_room(&self, table: usize) -> Option<Result<&Explored, Reply>> {
        let Some(explored) = &self.explored else {
            return Some(Err(self.refusal));
        };
        if table > LONGEST_TABLE {
            return Some(Err(Reply::of(TABLE)));
        }
        if self.least_count() > table / 4 {
            return Some(Err(Reply::of(ROOM)));
        }
        explored.as_ref().ok().map(Ok)
    }
}

/// The length of the shortest beginning outside the centre: rules by history, the centre by configurations.
fn shortest_outside(room: &Room, explored: &Explored, past: &[u16]) -> Option<usize> {
    (0..=past.len()).find(|&length| {
        let beginning = &past[..length];
        let slot = match beginning.split_last() {
            Some((mask, before)) => past::slot_keeps_rules(room, before, *mask),
            None => true,
        };
        !(slot
            && past::end_keeps_rule(room, beginning)
            && explored.in_centre(&past::configuration(room, beginning)))
    })
}

/// The writer's reply and what the text buffer then holds from its start.
pub fn write(room: &[u8; ROOM_BYTES], buffer: usize) -> (Reply, Vec<u8>) {
    let room = Room::from_bytes(room);
    let refusal = check(&room);
    if refusal.code != GOOD {
        return (refusal, Vec::new());
    }
    let text = text::render(&room);
    if text.len() > buffer {
        return (Reply::at(SHORT, text.len()), Vec::new());
    }
    (Reply::at(GOOD, text.len()), text)
}

/// The reader's reply and the bytes of its room.
pub fn read(bytes: &[u8]) -> (Reply, [u8; ROOM_BYTES]) {
    match text::read(bytes) {
        Err(line) => (Reply::at(TEXT, line), [0; ROOM_BYTES]),
        Ok(room) => (Reply::of(GOOD), room.to_bytes()),
    }
}
