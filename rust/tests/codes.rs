//! The list of codes stands in include/stoerwjok.h. Each other list in the repository is held to it, and so is what the calls return.

#[allow(dead_code)]
mod reference;

use std::fs;
use std::path::Path;
use stoerwjok::{lent, Code};

/// A code's number and its name.
type Named = (u64, String);

fn file(name: &str) -> String {
    let path = Path::new(env!("CARGO_MANIFEST_DIR")).join("..").join(name);
    fs::read_to_string(&path).unwrap_or_else(|error| panic!("{}: {error}", path.display()))
}

/// The codes of the lines of a file that have one.
fn listed(name: &str, code: impl Fn(&str) -> Option<Named>) -> Vec<Named> {
    let codes: Vec<Named> = file(name).lines().filter_map(code).collect();
    assert!(!codes.is_empty(), "{name} lists no codes");
    codes
}

/// What stands between two strings in a line.
fn between<'a>(line: &'a str, before: &str, after: &str) -> Option<&'a str> {
    let (_, rest) = line.split_once(before)?;
    Some(rest.split_once(after)?.0)
}

/// CODE(GOOD, 0)
fn header() -> Vec<Named> {
    listed("include/stoerwjok.h", |line| {
        let (name, number) = between(line, "    CODE(", ")")?.split_once(", ")?;
        Some((number.parse().ok()?, name.to_string()))
    })
}

#[test]
fn rust() {
    let codes = Code::ALL
        .iter()
        .map(|code| (code.number(), code.to_string()));
    assert_eq!(codes.collect::<Vec<_>>(), header());
}

/// pub const GOOD: u64 = 0;
#[test]
fn reference_of_the_tests() {
    let codes = listed("rust/tests/reference/mod.rs", |line| {
        let name = between(line, "pub const ", ": u64")?;
        Some((between(line, " = ", ";")?.parse().ok()?, name.to_string()))
    });
    assert_eq!(codes, header());
}

/// | 00 | GOOD | ..
#[test]
fn table_of_the_answer() {
    let codes = listed("docs/ANSWER.md", |line| {
        let (number, rest) = line.strip_prefix("| ")?.split_once(" | ")?;
        let (name, _) = rest.split_once(" | ")?;
        Some((u64::from_str_radix(number, 16).ok()?, name.to_string()))
    });
    assert_eq!(codes, header());
}

/// "GOOD", "NONE", ..: the names of the codes 0, 1, ..
#[test]
fn names_that_the_rows_print() {
    let words = file("crates/rows/src/words.rt");
    let names = between(&words, "const NAMES", "];").expect("the names");
    let names = names.split('"').skip(1).step_by(2).map(str::to_string);
    assert_eq!((0..).zip(names).collect::<Vec<Named>>(), header());
}

#[test]
fn version() {
    let text = file("include/stoerwjok.h");
    let defined = |name: &str| {
        let line = format!("#define {name} ");
        let value = text.lines().find_map(|text| text.strip_prefix(&line));
        value.expect(name).to_string()
    };
    let version = env!("CARGO_PKG_VERSION");
    let number = version
        .split('.')
        .fold(0, |all, part| 100 * all + part.parse::<u64>().unwrap());
    assert_eq!(defined("STOERWJOK_VERSION"), format!("\"{version}\""));
    assert_eq!(defined("STOERWJOK_VERSION_NUMBER"), number.to_string());
    assert!(text.contains(&format!("version {version}.")));
}

/// A call for each code.
#[test]
fn what_the_calls_return() {
    let mut table = [0; 64];
    let mut long = vec![0; reference::LONGEST_TABLE + 1];
    let check = |text: &[u8]| lent::check(text, &mut [0; 5]);
    let room_a = b"a001\na100010202\na100010202\nff\n";
    let none = b"a001\na100010102\na100010102\nff\n";
    let given = [
        ("GOOD", check(room_a)),
        ("NONE", lent::plan(none, &mut table, &mut [], &mut [0; 5])),
        ("TEXT", check(b"")),
        ("ENGINES", check(b"a009\nff\n")),
        ("JOBS", check(b"a001\nff\n")),
        ("JOB", check(b"a001\na100000202\nff\n")),
        ("SECTION", check(b"a001\na100010202\na200000000\nff\n")),
        ("LINK", check(b"a001\na100010202\na30000\nff\n")),
        (
            "LONG",
            check(b"a001\na100010140\na10001013f\na100010105\nff\n"),
        ),
        ("TABLE", lent::plan(room_a, &mut long, &mut [], &mut [0; 5])),
        ("ROOM", lent::plan(room_a, &mut [], &mut [], &mut [0; 5])),
        (
            "SHORT",
            lent::plan(room_a, &mut table, &mut [], &mut [0; 5]),
        ),
        ("OUT", lent::judge(room_a, &mut table, &[0], &mut [0; 5])),
    ];
    let given = given.map(|(name, number)| (number, name.to_string()));
    assert_eq!(given.to_vec(), header());
}
