use super::*;

/// The first of 3 to 8 that applies, else GOOD.
pub fn check(room: &Room) -> Reply {
    if room.engines < 1 || room.engines > 8 {
        return Reply::of(ENGINES);
    }
    if room.jobs.is_empty() || room.jobs.len() > 16 {
        return Reply::of(JOBS);
    }
    if let Some(place) = room.jobs.iter().position(|job| !good_job(job)) {
        return Reply::at(JOB, place);
    }
    if room.sections.len() > 32 {
        return Reply::at(SECTION, 32);
    }
    if let Some(place) = room.sections.iter().position(|s| !good_section(room, s)) {
        return Reply::at(SECTION, place);
    }
    if room.links.len() > 16 {
        return Reply::at(LINK, 16);
    }
    if let Some(place) = room.links.iter().position(|link| !good_link(room, link)) {
        return Reply::at(LINK, place);
    }
    let mut multiple = 1;
    for (place, job) in room.jobs.iter().enumerate() {
        multiple = common_multiple(multiple, job.period);
        if multiple > 4096 {
            return Reply::at(LONG, place);
        }
    }
    Reply::of(GOOD)
}

fn good_job(job: &Job) -> bool {
    job.first <= 255
        && 1 <= job.load
        && job.load <= job.deadline
        && job.deadline <= job.period
        && job.period <= 64
}

fn good_section(room: &Room, section: &Section) -> bool {
    section.job < room.jobs.len()
        && section.block <= 7
        && section.first < section.after
        && section.after <= room.jobs[section.job].load
}

fn good_link(room: &Room, link: &Link) -> bool {
    if link.sender >= room.jobs.len() || link.receiver >= room.jobs.len() {
        return false;
    }
    let (sender, receiver) = (room.jobs[link.sender], room.jobs[link.receiver]);
    link.sender != link.receiver
        && sender.first == receiver.first
        && sender.period == receiver.period
}

fn common_multiple(a: usize, b: usize) -> usize {
    (1..).map(|k| a * k).find(|m| m % b == 0).unwrap()
}

/// R, the greatest first slot, and H, the least common multiple of the periods.
pub fn first_and_multiple(room: &Room) -> (usize, usize) {
    let first = room.jobs.iter().map(|job| job.first).max().unwrap();
    let multiple = room
        .jobs
        .iter()
        .fold(1, |multiple, job| common_multiple(multiple, job.period));
    (first, multiple)
}
