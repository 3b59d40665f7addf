//! Slots and pasts by their history: units are counted from the masks, instance by instance.

use super::configurations::Configuration;
use super::*;

pub fn runs(mask: u16, job: usize) -> bool {
    mask >> job & 1 == 1
}

fn start(job: &Job, instance: usize) -> usize {
    job.first + instance * job.period
}

fn current_instance(job: &Job, slot: usize) -> Option<usize> {
    slot.checked_sub(job.first).map(|since| since / job.period)
}

/// The units that an instance of job i has run in this past.
fn units(room: &Room, past: &[u16], i: usize, instance: usize) -> usize {
    let from = start(&room.jobs[i], instance);
    let to = start(&room.jobs[i], instance + 1);
    (from..to.min(past.len()))
        .filter(|slot| runs(past[*slot], i))
        .count()
}

/// The done count of job i at the start of the slot after this past.
pub fn done(room: &Room, past: &[u16], i: usize) -> usize {
    match current_instance(&room.jobs[i], past.len()) {
        Some(instance) => units(room, past, i, instance),
        None => 0,
    }
}

/// Whether the slot after this past keeps the four rules of a slot.
pub fn slot_keeps_rules(room: &Room, past: &[u16], mask: u16) -> bool {
    let running: Vec<usize> = (0..16).filter(|i| runs(mask, *i)).collect();
    running.iter().all(|i| *i < room.jobs.len())
        && running.len() <= room.engines
        && running.iter().all(|i| job_may_run(room, past, *i))
        && (0..8).all(|block| block_users(room, past, &running, block) <= 1)
        && running.iter().all(|i| senders_are_done(room, past, *i))
}

fn job_may_run(room: &Room, past: &[u16], i: usize) -> bool {
    let job = &room.jobs[i];
    match current_instance(job, past.len()) {
        Some(instance) => {
            let deadline = start(job, instance) + job.deadline;
            deadline > past.len() && done(room, past, i) < job.load
        }
        None => false,
    }
}

fn block_users(room: &Room, past: &[u16], running: &[usize], block: usize) -> usize {
    running
        .iter()
        .filter(|i| {
            room.sections.iter().any(|s| {
                s.job == **i && s.block == block && {
                    let unit = done(room, past, **i);
                    s.first <= unit && unit < s.after
                }
            })
        })
        .count()
}

fn senders_are_done(room: &Room, past: &[u16], receiver: usize) -> bool {
    let Some(instance) = current_instance(&room.jobs[receiver], past.len()) else {
        return false;
    };
    room.links
        .iter()
        .filter(|link| link.receiver == receiver)
        .all(|link| units(room, past, link.sender, instance) == room.jobs[link.sender].load)
}

/// Whether at the end every instance begun can still meet its deadline alone.
pub fn end_keeps_rule(room: &Room, past: &[u16]) -> bool {
    let end = past.len();
    room.jobs.iter().enumerate().all(|(i, job)| {
        (0..)
            .take_while(|instance| start(job, *instance) <= end)
            .all(|instance| {
                let deadline = start(job, instance) + job.deadline;
                let left = deadline.saturating_sub(end);
                units(room, past, i, instance) + left >= job.load
            })
    })
}

pub fn admissible(room: &Room, past: &[u16]) -> bool {
    (0..past.len()).all(|slot| slot_keeps_rules(room, &past[..slot], past[slot]))
        && end_keeps_rule(room, past)
}

fn position(room: &Room, slot: usize) -> usize {
    let (first, multiple) = first_and_multiple(room);
    if slot < first {
        slot
    } else {
        first + (slot - first) % multiple
    }
}

/// The configuration that this past reaches.
pub fn configuration(room: &Room, past: &[u16]) -> Configuration {
    let mut counts = [0; 16];
    for (i, count) in counts.iter_mut().take(room.jobs.len()).enumerate() {
        *count = done(room, past, i) as u8;
    }
    Configuration {
        position: position(room, past.len()),
        done: counts,
    }
}
