//! The endings of an event, and the lines of "The program" that show them.

use std::fmt;

/// The last word of an `unclaimed` line.
#[derive(Clone, Copy, Debug, PartialEq, Eq)]
pub enum Abort {
    /// "`abort` (no crossing)"
    Abort,
    /// `done`
    Done,
    /// `target`
    Target,
}

/// The kind of a fault.
#[derive(Clone, Copy, Debug, PartialEq, Eq)]
pub enum Kind {
    /// `config`
    Config,
    /// `memory`
    Memory,
    /// `io`
    Io,
}

/// What a check shows that does not pass.
#[derive(Clone, Copy, Debug, PartialEq, Eq)]
pub struct Fault {
    /// The bus.
    pub holder: u8,
    /// The kind.
    pub kind: Kind,
    /// The lowest address or bus number.
    pub value: u64,
    /// The first driver.
    pub driver: u8,
    /// The first two claimants in agent order.
    pub claimants: (u8, u8),
}

/// How an event ends. `crossings` is "the number of times a bridge took the access
/// across, up or down".
#[derive(Clone, Copy, Debug, PartialEq, Eq)]
#[allow(missing_docs)] // the fields are named as in "The program"
pub enum Answer {
    /// "`data` crossings and 8 hex digits"
    Data { crossings: usize, data: u32 },
    /// "`stored` crossings"
    Stored { crossings: usize },
    /// "`owner` crossings, node, region, offset (16 hex digits)"
    Owner { crossings: usize, node: u8, region: u8, offset: u64 },
    /// "`host` crossings, offset from its first address (16 too)"
    Host { crossings: usize, offset: u64 },
    /// "`unclaimed` crossings, holder, then `abort` (no crossing), `done` or `target`"
    Unclaimed { crossings: usize, holder: u8, how: Abort },
    /// "`clash` crossings, holder, the first two claimants in agent order"
    Clash { crossings: usize, holder: u8, claimants: (u8, u8) },
    /// "`special` with crossings and holder"
    Special { crossings: usize, holder: u8 },
    /// "`denied` with its crossings"
    Denied { crossings: usize },
    /// "`seat` and its number"
    Seat { seat: u8 },
    /// `silent`
    Silent,
    /// `pass`
    Pass,
    /// "`fault` holder, `config`/`memory`/`io`, value (16 hex digits), driver, two agents"
    Fault(Fault),
}

impl fmt::Display for Abort {
    fn fmt(&self, f: &mut fmt::Formatter) -> fmt::Result {
        f.write_str(match self {
            Abort::Abort => "abort",
            Abort::Done => "done",
            Abort::Target => "target",
        })
    }
}

impl fmt::Display for Kind {
    fn fmt(&self, f: &mut fmt::Formatter) -> fmt::Result {
        f.write_str(match self {
            Kind::Config => "config",
            Kind::Memory => "memory",
            Kind::Io => "io",
        })
    }
}

impl fmt::Display for Fault {
    fn fmt(&self, f: &mut fmt::Formatter) -> fmt::Result {
        let Fault { holder, kind, value, driver, claimants: (a, b) } = self;
        write!(f, "fault {holder} {kind} {value:016X} {driver} {a} {b}")
    }
}

/// "Hex digits are upper case."
impl fmt::Display for Answer {
    fn fmt(&self, f: &mut fmt::Formatter) -> fmt::Result {
        match self {
            Answer::Data { crossings, data } => write!(f, "data {crossings} {data:08X}"),
            Answer::Stored { crossings } => write!(f, "stored {crossings}"),
            Answer::Owner { crossings, node, region, offset } => {
                write!(f, "owner {crossings} {node} {region} {offset:016X}")
            }
            Answer::Host { crossings, offset } => write!(f, "host {crossings} {offset:016X}"),
            Answer::Unclaimed { crossings, holder, how } => {
                write!(f, "unclaimed {crossings} {holder} {how}")
            }
            Answer::Clash { crossings, holder, claimants: (a, b) } => {
                write!(f, "clash {crossings} {holder} {a} {b}")
            }
            Answer::Special { crossings, holder } => write!(f, "special {crossings} {holder}"),
            Answer::Denied { crossings } => write!(f, "denied {crossings}"),
            Answer::Seat { seat } => write!(f, "seat {seat}"),
            Answer::Silent => f.write_str("silent"),
            Answer::Pass => f.write_str("pass"),
            Answer::Fault(fault) => fault.fmt(f),
        }
    }
}
