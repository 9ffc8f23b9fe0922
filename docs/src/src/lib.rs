//! A second, independent implementation of `01-scope.md` ("Bridge trees, claims and routes")
//! with requests E1, E2, E4, E5, E11 and E14 of `02-change-requests.md`. Text in quotes in the
//! comments is a sentence of these two documents; what speaks of seats is from E1, what speaks of
//! saved racks and register records from E2, what speaks of special cycles from E4, what speaks of
//! held nodes and bit 6 from E5, what speaks of older bridges from E11, what speaks of the arbiter
//! from E14.
//!
//! - [`file`]: a rack file read to a rack, its registers and its events, or to a refusal.
//! - [`saved`]: a rack and its registers written to a rack file.
//! - [`rack`]: the decoded rack, a bridge's options, buses and agents.
//! - [`seats`]: what each seat may write.
//! - [`refuse`]: refusals 6 to 18 of a decoded rack, images, a call's fields and register records.
//! - [`registers`]: masks, reset images, register read and write, sizing.
//! - [`held`]: which nodes a secondary bus reset holds.
//! - [`machine`]: a rack that passed 6 to 10 with images that passed 11, 12 and 18.
//! - [`windows`]: both ends of windows and regions, and the windows' predicates.
//! - [`claims`]: what an agent claims on a bus.
//! - [`route`]: where an access goes, and the status bits it leaves.
//! - [`check`]: the rack check by boundary points.
//! - [`answer`]: the endings of an event and the lines that show them.
//! - [`calls`]: all of the above as calls over a rack and two lent images.
//! - [`program`]: an event's run, and the whole output for the bytes of a rack file.
//! - [`arbiter`]: whose turn it is on a shared bus; it needs no rack.
//! - [`script`]: scripts of calls as `CALLS.md` says, and what every call gives.

pub mod answer;
pub mod arbiter;
pub mod bytes;
pub mod calls;
pub mod check;
pub mod claims;
pub mod file;
pub mod held;
pub mod machine;
pub mod program;
pub mod rack;
pub mod refuse;
pub mod registers;
pub mod route;
pub mod saved;
pub mod script;
pub mod seats;
pub mod windows;
