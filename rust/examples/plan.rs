//! Plans the room of a text file, with a table of 65,536 configurations:
//! `cargo run --release --example plan ../rooms/twelve.txt`
//!
//! Exit status: 0 GOOD, 1 NONE, 2 refused (codes 2 to 8), 3 too large (ROOM), 64 wrong use, 70 trouble.

use std::env;
use std::fs::File;
use std::io::{self, Read, Write};
use std::path::Path;
use std::process::ExitCode;
use stoerwjok::{jobs, plan, Code, Plan, Planned, Refusal, Table};

const REFUSED: u8 = 2;
const TOO_LARGE: u8 = 3;
const WRONG_USE: u8 = 64;
const TROUBLE: u8 = 70;

fn main() -> ExitCode {
    let mut names = env::args_os().skip(1);
    let (Some(name), None) = (names.next(), names.next()) else {
        eprintln!("usage: plan FILE, a room text");
        return ExitCode::from(WRONG_USE);
    };
    let text = match text_of(name.as_ref()) {
        Ok(text) => text,
        Err(error) => return trouble(&name.to_string_lossy(), error),
    };
    let mut table = Table::for_configurations(65_536);
    let mut slots = table.plan_buffer();
    let planned = plan(&text, &mut table, &mut slots);
    let mut to = io::stdout();
    match to
        .write_all(answer(&planned).as_bytes())
        .and_then(|()| to.flush())
    {
        Ok(()) => ExitCode::from(status_of(&planned)),
        Err(error) => trouble("the answer could not be written", error),
    }
}

/// The first bytes of a file, one more than the longest room text has: a longer one is then seen to break the grammar.
fn text_of(name: &Path) -> io::Result<Vec<u8>> {
    let mut text = Vec::new();
    File::open(name)?.take(649).read_to_end(&mut text)?;
    Ok(text)
}

fn trouble(what: &str, error: io::Error) -> ExitCode {
    eprintln!("plan: {what}: {error}");
    ExitCode::from(TROUBLE)
}

fn status_of(planned: &Planned) -> u8 {
    match planned {
        Planned::Good { .. } => 0,
        Planned::None { .. } => 1,
        Planned::Text { .. } | Planned::Refused(_) => REFUSED,
        Planned::Table | Planned::Room | Planned::Short { .. } => TOO_LARGE,
    }
}

fn answer(planned: &Planned) -> String {
    let said = match planned {
        Planned::Good { count, plan } => return good(*count, plan),
        Planned::None { count } => format!("no plan exists; {count} configurations"),
        Planned::Text { place } => format!("line {place} breaks the grammar"),
        Planned::Refused(refusal) => refused(refusal),
        Planned::Table => "the table is too long".to_string(),
        Planned::Room => "more configurations than the table holds".to_string(),
        Planned::Short { place } => format!("the plan needs {place} slots"),
    };
    format!("{}: {said}\n", planned.numbers().code)
}

fn refused(refusal: &Refusal) -> String {
    match refusal {
        Refusal::Engines => "the number of engines is out of range".to_string(),
        Refusal::Jobs => "the number of jobs is out of range".to_string(),
        Refusal::Job { place } => format!("the numbers of job {place} are out of range"),
        Refusal::Section { place } => format!("section {place} is bad"),
        Refusal::Link { place } => format!("link {place} is bad"),
        Refusal::Long { place } => {
            format!("with job {place} the multiple of the periods passes 4,096")
        }
    }
}

fn good(count: u64, plan: &Plan) -> String {
    let (prefix, cycle) = (plan.prefix().len(), plan.cycle().len());
    let length = prefix + cycle;
    let mut lines = format!(
        "{}: count {count}, prefix {prefix}, cycle {cycle}\n",
        Code::Good
    );
    for (slot, mask) in plan.slots().take(length).enumerate() {
        let running: Vec<String> = jobs(mask).map(|job| job.to_string()).collect();
        let said = match running.is_empty() {
            true => "idle".to_string(),
            false => running.join(" "),
        };
        lines += &format!("slot {slot}: {said}\n");
    }
    lines + &format!("slots {prefix} to {} again, for ever\n", length - 1)
}
