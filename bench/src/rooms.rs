//! The fixed rooms of the benchmarks, from some hundred to nearly a million configurations. Jobs are
//! (r, C, D, T) as in the paper.

use crate::native::{Job, Link, Room, Section};

pub struct Named {
    pub name: &'static str,
    pub room: Room,
}

fn room(engines: u8, jobs: &[(u8, u8, u8, u8)]) -> Room {
    let jobs = jobs.iter().map(|&(first, load, deadline, period)| Job { first, load, deadline, period }).collect();
    Room { engines, jobs, sections: Vec::new(), links: Vec::new() }
}

/// Four cameras of three linked layers each, on four engines; with a motion search block if asked.
pub fn twelve_layers(slack: u8, block: bool) -> Room {
    let mut layers = Vec::new();
    let mut links = Vec::new();
    for camera in 0..4 {
        for layer in 0..3 {
            layers.push((camera * 2, 4, 4 * (layer + 1) + slack, 16));
        }
        links.push(Link { sender: camera * 3, receiver: camera * 3 + 1 });
        links.push(Link { sender: camera * 3 + 1, receiver: camera * 3 + 2 });
    }
    let section = |job| Section { job, block: 0, first: 0, after: 1 };
    let sections = if block { (0..12).map(section).collect() } else { Vec::new() };
    Room { sections, links, ..room(4, &layers) }
}

pub fn all() -> Vec<Named> {
    vec![
        Named { name: "4 jobs", room: room(2, &[(0, 3, 9, 12), (1, 4, 10, 16), (2, 2, 8, 12), (3, 5, 12, 16)]) },
        Named { name: "8 jobs", room: room(6, &[(1, 5, 5, 24), (1, 1, 2, 16), (0, 1, 3, 48), (4, 2, 5, 16), (0, 3, 7, 12), (5, 2, 4, 8), (0, 6, 7, 24), (2, 7, 11, 32)]) },
        Named { name: "12 layers", room: twelve_layers(2, false) },
        Named { name: "12 layers, block", room: twelve_layers(2, true) },
        Named { name: "12 layers, slack 4", room: twelve_layers(4, true) },
        Named { name: "12 jobs", room: room(6, &[(3, 3, 3, 12), (1, 7, 8, 32), (1, 4, 6, 12), (1, 3, 6, 16), (4, 3, 6, 16), (4, 1, 1, 16), (0, 3, 5, 12), (2, 4, 6, 16), (2, 4, 8, 16), (5, 4, 8, 12), (3, 2, 3, 8), (2, 2, 6, 12)]) },
        Named { name: "16 jobs", room: room(6, &[(5, 1, 3, 8), (5, 1, 5, 8), (4, 1, 4, 12), (0, 1, 5, 8), (2, 4, 7, 16), (2, 1, 4, 8), (2, 7, 8, 24), (0, 4, 5, 24), (5, 3, 4, 12), (0, 4, 6, 16), (3, 3, 4, 32), (5, 2, 6, 16), (4, 5, 5, 32), (1, 1, 4, 48), (5, 2, 6, 32), (1, 2, 3, 16)]) },
        Named { name: "12 jobs, large", room: room(6, &[(5, 2, 3, 12), (3, 2, 3, 48), (5, 4, 6, 12), (4, 7, 9, 32), (3, 7, 11, 32), (2, 8, 11, 48), (4, 2, 4, 8), (2, 15, 19, 48), (5, 5, 7, 16), (2, 1, 3, 12), (4, 1, 5, 12), (3, 3, 5, 48)]) },
        Named { name: "13 jobs, large", room: room(6, &[(4, 4, 5, 24), (2, 2, 2, 8), (1, 1, 5, 16), (4, 2, 6, 16), (1, 10, 13, 32), (1, 7, 10, 24), (4, 2, 6, 24), (5, 8, 9, 24), (5, 4, 5, 12), (3, 3, 7, 48), (3, 1, 5, 12), (4, 4, 6, 16), (4, 2, 6, 12)]) },
        Named { name: "14 jobs, large", room: room(7, &[(1, 4, 6, 12), (4, 5, 9, 16), (4, 8, 9, 32), (2, 4, 7, 12), (1, 5, 9, 16), (2, 3, 5, 16), (5, 2, 2, 16), (3, 7, 11, 32), (3, 2, 3, 8), (0, 4, 8, 48), (2, 2, 6, 12), (2, 1, 3, 16), (1, 2, 2, 8), (4, 5, 9, 32)]) },
        Named { name: "15 jobs, largest", room: room(7, &[(1, 4, 6, 12), (4, 5, 9, 16), (4, 8, 9, 32), (2, 4, 7, 12), (1, 5, 9, 16), (2, 3, 5, 16), (5, 2, 2, 16), (3, 7, 11, 32), (3, 2, 3, 8), (0, 4, 8, 48), (2, 2, 6, 12), (2, 1, 3, 16), (1, 2, 2, 8), (4, 5, 9, 32), (1, 5, 7, 24)]) },
    ]
}

/// A room of more configurations than the largest table holds, 1,048,576: planning it fills the table.
pub fn too_large() -> Named {
    let mut largest = all().pop().expect("a list with rooms");
    largest.room.jobs.push(Job { first: 3, load: 3, deadline: 6, period: 24 });
    Named { name: "16 jobs, too large", room: largest.room }
}

/// A room as the paper's text.
pub fn text(room: &Room) -> Vec<u8> {
    let mut frames = vec![vec![0xa0, room.engines]];
    frames.extend(room.jobs.iter().map(|j| vec![0xa1, j.first, j.load, j.deadline, j.period]));
    frames.extend(room.sections.iter().map(|s| vec![0xa2, s.job, s.block, s.first, s.after]));
    frames.extend(room.links.iter().map(|k| vec![0xa3, k.sender, k.receiver]));
    let mut text = String::new();
    for frame in frames {
        text.extend(frame.iter().map(|byte| format!("{byte:02x}")));
        text.push('\n');
    }
    text.push_str("ff\n");
    text.into_bytes()
}
