//! The calls of the proved planner for Rust. The words and the numbers are those of the paper (01).
//!
//! Each call takes lent memory and gives back an enum with exactly the replies that it can give:
//!
#![cfg_attr(feature = "linked", doc = "```")]
#![cfg_attr(not(feature = "linked"), doc = "```ignore")]
//! use stoerwjok::{plan, Planned, Table};
//!
//! let text = b"a001\na100010202\na100010202\nff\n";
//! let mut table = Table::for_configurations(1_536);
//! let mut slots = table.plan_buffer();
//! match plan(text, &mut table, &mut slots) {
//!     Planned::Good { plan, .. } => assert!(plan.slots().take(5).eq([2, 1, 2, 1, 2])),
//!     Planned::None { count } => println!("no plan exists; {count} configurations"),
//!     Planned::Text { place } => println!("line {place} of the text is bad"),
//!     Planned::Refused(refusal) => println!("{}", refusal.numbers().code),
//!     Planned::Table | Planned::Room | Planned::Short { .. } => println!("too large"),
//! }
//! ```
//!
//! [`lent`] has the same calls with the reply as five lent numbers.

mod codes;
mod replies;
mod room;
mod table;

pub use codes::{Code, Numbers};
pub use replies::{jobs, Checked, Judged, Plan, Planned, Reading, Refusal, Written};
pub use room::{Job, Link, Room, Section};
pub use table::Table;

#[cfg(feature = "linked")]
mod calls;
#[cfg(feature = "linked")]
pub mod exported;
#[cfg(feature = "linked")]
pub mod lent;

#[cfg(feature = "linked")]
pub use calls::{check, judge, numbers, plan, read, write};
