use super::*;

/// The room, or the first bad line.
pub fn read(text: &[u8]) -> Result<Room, usize> {
    let pieces: Vec<&[u8]> = text.split(|byte| *byte == 0x0a).collect();
    let (unclosed, lines) = pieces.split_last().unwrap();
    let mut room = Room::default();
    let mut kind = None;
    for (number, line) in lines.iter().enumerate() {
        let frame = bytes_of(line).ok_or(number)?;
        if !may_follow(kind, frame.first().copied()) || !put(&mut room, &frame) {
            return Err(number);
        }
        kind = Some(frame[0]);
    }
    if kind == Some(0xff) && unclosed.is_empty() {
        Ok(room)
    } else {
        Err(lines.len())
    }
}

fn may_follow(before: Option<u8>, kind: Option<u8>) -> bool {
    match (before, kind) {
        (None, kind) => kind == Some(0xa0),
        (Some(0xff), _) | (_, None) | (_, Some(0xa0)) => false,
        (Some(before), Some(kind)) => before <= kind,
    }
}

fn put(room: &mut Room, frame: &[u8]) -> bool {
    let numbers: Vec<usize> = frame.iter().map(|byte| usize::from(*byte)).collect();
    match numbers[..] {
        [0xa0, engines] => room.engines = engines,
        [0xa1, first, load, deadline, period] if room.jobs.len() < 16 => room.jobs.push(Job {
            first,
            load,
            deadline,
            period,
        }),
        [0xa2, job, block, first, after] if room.sections.len() < 32 => {
            room.sections.push(Section {
                job,
                block,
                first,
                after,
            })
        }
        [0xa3, sender, receiver] if room.links.len() < 16 => {
            room.links.push(Link { sender, receiver })
        }
        [0xff] => {}
        _ => return false,
    }
    true
}

fn bytes_of(line: &[u8]) -> Option<Vec<u8>> {
    if line.len() % 2 == 1 {
        return None;
    }
    line.chunks(2)
        .map(|pair| Some(16 * digit(pair[0])? + digit(pair[1])?))
        .collect()
}

fn digit(byte: u8) -> Option<u8> {
    match byte {
        b'0'..=b'9' => Some(byte - b'0'),
        b'a'..=b'f' => Some(byte - b'a' + 10),
        _ => None,
    }
}

/// The text of a room, whatever its numbers.
pub fn render(room: &Room) -> Vec<u8> {
    let mut text = line(&[0xa0, room.engines]);
    for job in &room.jobs {
        text += &line(&[0xa1, job.first, job.load, job.deadline, job.period]);
    }
    for s in &room.sections {
        text += &line(&[0xa2, s.job, s.block, s.first, s.after]);
    }
    for link in &room.links {
        text += &line(&[0xa3, link.sender, link.receiver]);
    }
    text += &line(&[0xff]);
    text.into_bytes()
}

fn line(numbers: &[usize]) -> String {
    let digits: String = numbers.iter().map(|n| format!("{n:02x}")).collect();
    digits + "\n"
}
