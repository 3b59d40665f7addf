//! A room, and its 228 bytes.

/// A job: first slot, load, deadline, period.
#[derive(Clone, Copy, Debug, Default, PartialEq, Eq)]
pub struct Job {
    pub first: u8,
    pub load: u8,
    pub deadline: u8,
    pub period: u8,
}

/// A section: the units from `first` to before `after` of a job execute on a block.
#[derive(Clone, Copy, Debug, Default, PartialEq, Eq)]
pub struct Section {
    pub job: u8,
    pub block: u8,
    pub first: u8,
    pub after: u8,
}

/// A link: the receiver's instance waits for the sender's.
#[derive(Clone, Copy, Debug, Default, PartialEq, Eq)]
pub struct Link {
    pub sender: u8,
    pub receiver: u8,
}

/// A room. The first `jobs` entries of `job` are its jobs, likewise sections and links; entries beyond a
/// stated number are not looked at.
#[derive(Clone, Copy, Debug, Default, PartialEq, Eq)]
pub struct Room {
    pub engines: u8,
    pub jobs: u8,
    pub sections: u8,
    pub links: u8,
    pub job: [Job; 16],
    pub section: [Section; 32],
    pub link: [Link; 16],
}

impl Room {
    /// The bytes of a room.
    pub const BYTES: usize = 228;

    /// The room in these bytes.
    pub fn from_bytes(bytes: &[u8; Room::BYTES]) -> Room {
        let job = |j: usize| Job {
            first: bytes[4 + 4 * j],
            load: bytes[5 + 4 * j],
            deadline: bytes[6 + 4 * j],
            period: bytes[7 + 4 * j],
        };
        let section = |j: usize| Section {
            job: bytes[68 + 4 * j],
            block: bytes[69 + 4 * j],
            first: bytes[70 + 4 * j],
            after: bytes[71 + 4 * j],
        };
        let link = |j: usize| Link {
            sender: bytes[196 + 2 * j],
            receiver: bytes[197 + 2 * j],
        };
        Room {
            engines: bytes[0],
            jobs: bytes[1],
            sections: bytes[2],
            links: bytes[3],
            job: std::array::from_fn(job),
            section: std::array::from_fn(section),
            link: std::array::from_fn(link),
        }
    }

    /// The bytes of this room.
    pub fn to_bytes(&self) -> [u8; Room::BYTES] {
        let head = [self.engines, self.jobs, self.sections, self.links];
        let job = self
            .job
            .iter()
            .flat_map(|j| [j.first, j.load, j.deadline, j.period]);
        let section = self
            .section
            .iter()
            .flat_map(|s| [s.job, s.block, s.first, s.after]);
        let link = self.link.iter().flat_map(|l| [l.sender, l.receiver]);
        let mut bytes = [0; Room::BYTES];
        let all = head.into_iter().chain(job).chain(section).chain(link);
        bytes
            .iter_mut()
            .zip(all)
            .for_each(|(byte, value)| *byte = value);
        bytes
    }
}
