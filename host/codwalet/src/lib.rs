//! Codwalet for Rust: which areas a carrier holds in whole 100 MHz blocks, which single one it holds in part, and the footprint
//! of that part. The answers are those of a proved engine; the rules behind them are in docs/RULES.md.
//!
//! ```
//! use codwalet::{Cell, Licence, Map, NewArea, Register, write_map};
//!
//! // Area 7, of weight 1: a row of two cells with 60 and 40 people.
//! let cell = |people, longitude| Some(Cell { people, latitude: 14_220_000, longitude });
//! let cells = vec![cell(60, -36_000_000), cell(40, -35_991_360)];
//! let map = Map::owned(write_map(&[NewArea { number: 7, weight: 1, rows: 1, columns: 2, cells }])?)?;
//!
//! // A licence of 50 MHz for all of the area is half a block: one part, which the first cell carries.
//! let register = Register::empty().grant(Licence::area(101, 7))?;
//! let proposal = map.propose(&register, 0)?;
//! assert_eq!(proposal.areas[0].cells, 2);
//! assert_eq!(proposal.share().map(|share| share.to_string()).as_deref(), Some("5,000 weighted MHz-pops"));
//! let footprint = map.footprint(&register, 0)?;
//! assert!(footprint.contains(0, 0) && !footprint.contains(0, 1));
//!
//! // It is cancelled, which ends its counting, and granted again as a slice of 20 MHz.
//! let register = register.cancel(101)?;
//! assert_eq!(map.coverage(&register, 7).mhz_pops.to_string(), "0 MHz-pops");
//! let register = register.grant(Licence::area(101, 7).with_width(20))?;
//! assert_eq!(map.coverage(&register, 7).mhz_pops.to_string(), "2,000 MHz-pops");
//! # Ok::<(), Box<dyn std::error::Error>>(())
//! ```
//!
//! A [`Map`] is checked once and then answers; a [`Register`] is a plain value, and a grant or a cancellation hands back the next
//! one. A [`Refusal`] has the number and the words of the rules, which the project calls document 01.
//!
//! What is proved are the engine's answers, which these types hand on. The library's own are [`write_map`], what it reads from a
//! map by itself ([`Map::areas`], [`Map::area_count`], [`AreaHead::cells`], [`Map::fault`], and so the rows and columns of a
//! [`Footprint`]), and what it says of a licence ([`Licence::flaw`], [`Licence::covers`], [`GeoBox::covers`]). Tests hold them against
//! the engine.

#![warn(missing_docs)]

mod amounts;
mod area;
mod footprint;
mod layout;
mod licence;
pub mod limits;
mod map;
mod proposal;
pub mod raw;
mod refusal;
mod register;

pub use amounts::{MhzPops, People, Weighted, grouped};
pub use area::{AreaHead, Cell, NewArea};
pub use footprint::{Footprint, Workspace};
pub use layout::{Fault, Unwritable, write_map};
pub use licence::{Flaw, GeoBox, Ground, Licence};
pub use map::Map;
pub use proposal::{Blocks, Coverage, Gets, Given, Kind, Part, Proposal};
pub use raw::Entry;
pub use refusal::Refusal;
pub use register::{Register, WrongLength};
