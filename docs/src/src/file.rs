//! "The rack file", read to a rack with its registers and events or to a refusal.

use std::fmt;

use crate::bytes::{put, u16_at, u32_at, u64_at, u8_at};
use crate::rack::{Event, Header, Node, Options, Rack, Region};
use crate::refuse::{self, Fields};
use crate::registers::{Saved, PART};
use crate::seats::{Grant, Grants};

/// 1: "The file is longer than 65,536 bytes."
pub const LONGEST: usize = 65_536;

/// A refusal of a file: "`refused N at O`".
#[derive(Clone, Copy, Debug, PartialEq, Eq)]
pub struct Refused {
    /// 1 to 10 and 13 to 18.
    pub number: u8,
    /// "the record's offset (65,536 for 1; 0 if empty)"
    pub offset: usize,
}

impl fmt::Display for Refused {
    fn fmt(&self, f: &mut fmt::Formatter) -> fmt::Result {
        write!(f, "refused {} at {}", self.number, self.offset)
    }
}

/// The body's length by kind; none if "The kind is not 1 to 8" nor one of those that "become
/// known to refusal 2": 9, 10, 11 and 13.
fn body_length(kind: u8) -> Option<usize> {
    match kind {
        1 => Some(16),
        2 => Some(6),
        3 => Some(12),
        4 => Some(8),
        5 => Some(3),
        6 => Some(10),
        7 => Some(6),
        8 => Some(0),
        9 => Some(4),         // "seat, node, two-byte mask"
        10 => Some(1),        // the seat
        11 => Some(1 + PART), // "a node and its 64 register bytes"
        13 => Some(6),        // "Kind 13 has kind 2's body"
        _ => None,
    }
}

/// "Kinds 1 to 3 are rack records, 4 to 8 events." Kind 10 is an event, 9, 11 and 13 are
/// none.
fn is_event(kind: u8) -> bool {
    matches!(kind, 4..=8 | 10)
}

/// What the records stand in.
#[derive(Clone, Copy, Debug, PartialEq, Eq)]
enum Source {
    /// A whole rack file: rack records, then events.
    File,
    /// The rack bytes of a call: rack records alone, without registers.
    Call,
}

impl Source {
    /// Whether a record of that kind may stand here: in a call "an event kind there being 2", and
    /// "In a C call's rack bytes kind 11 is 2."
    fn has(self, kind: u8) -> bool {
        self == Source::File || !is_event(kind) && kind != 11
    }
}

/// A whole rack file that is not refused.
#[derive(Clone, Debug, PartialEq, Eq)]
pub struct Contents {
    /// The rack.
    pub rack: Rack,
    /// The register records: what differs from reset where the run starts.
    pub registers: Vec<Saved>,
    /// The events.
    pub events: Vec<Event>,
    /// How many bytes stand before the first register record or event.
    pub records: usize,
}

/// A whole rack file: rack records, then events.
pub fn read(bytes: &[u8]) -> Result<Contents, Refused> {
    read_records(bytes, Source::File)
}

/// The rack records of a call: "1 to 10 as for a file, an event kind there being 2", and kind 11
/// too. A faulty seat record does not stop the reading, as 14 comes "after 13"; the grants then
/// say so.
pub fn read_rack(bytes: &[u8]) -> Result<Rack, Refused> {
    read_records(bytes, Source::Call).map(|contents| contents.rack)
}

/// "A file stops at its first faulty record, with the record's offset".
fn read_records(bytes: &[u8], source: Source) -> Result<Contents, Refused> {
    if bytes.len() > LONGEST {
        return Err(Refused { number: 1, offset: LONGEST });
    }
    let (registers, events) = (Vec::new(), Vec::new());
    let mut reading = Reading { source, rack: None, registers, events };
    let (mut offset, mut records) = (0, 0);
    while let Some(rest) = bytes.get(offset..).filter(|rest| !rest.is_empty()) {
        match one_record(rest, source).and_then(|(kind, body)| reading.take(kind, body)) {
            Ok(length) => offset += 1 + length,
            Err(number) => return Err(Refused { number, offset }),
        }
        if reading.registers.is_empty() && reading.events.is_empty() {
            records = offset;
        }
    }
    // 4: "There is no record"
    let rack = reading.rack.ok_or(Refused { number: 4, offset: 0 })?;
    Ok(Contents { rack, registers: reading.registers, events: reading.events, records })
}

/// Kind and body of the record that `bytes` begin with, or refusal 2 or 3. Kinds that may not
/// stand here are as unknown as those that no record has.
fn one_record(bytes: &[u8], source: Source) -> Result<(u8, &[u8]), u8> {
    let kind = u8_at(bytes, 0);
    // 2: "The kind is not 1 to 8."
    let length = body_length(kind).filter(|_| source.has(kind)).ok_or(2u8)?;
    // 3: "The body is cut short."
    let body = bytes.get(1..1 + length).ok_or(3u8)?;
    Ok((kind, body))
}

/// What has been read so far: first nodes and seats, then registers, then events.
struct Reading {
    source: Source,
    rack: Option<Rack>,
    registers: Vec<Saved>,
    events: Vec<Event>,
}

impl Reading {
    /// Takes one record and gives its body's length, or the refusal (4 to 18).
    fn take(&mut self, kind: u8, body: &[u8]) -> Result<usize, u8> {
        match (&mut self.rack, kind) {
            (None, 1) => {
                let (host_first, host_last) = (u64_at(body, 0), u64_at(body, 8));
                let (nodes, grants) = (Vec::new(), Grants::default());
                self.rack = Some(Rack { host_first, host_last, nodes, grants });
            }
            // 4: "the first is not a host, or a later one is."
            (None, _) | (Some(_), 1) => return Err(4),
            (Some(rack), _) if is_event(kind) => {
                let event = event(kind, body).ok_or(2u8)?;
                let fields = refuse::fields(rack, &Fields::of_event(&event));
                match fields.or_else(|| refuse::seat_of_event(rack, &event)) {
                    Some(number) => return Err(number),
                    None => self.events.push(event),
                }
            }
            // 5: "A rack record follows an event.", which "also covers a register record".
            (Some(_), _) if !self.events.is_empty() => return Err(5),
            (Some(rack), 11) => {
                let saved = saved(body);
                match refuse::registers(rack, &self.registers, &saved) {
                    Some(number) => return Err(number),
                    None => self.registers.push(saved),
                }
            }
            // 5, which covers "any other rack record after a register record" too.
            (Some(_), _) if !self.registers.is_empty() => return Err(5),
            (Some(rack), 9) => {
                rack.grants.take(rack.nodes.len(), grant(body));
                // In a file 14 stands at its record; a call gives it in its turn.
                if let (Source::File, Some(number)) = (self.source, refuse::grants(rack)) {
                    return Err(number);
                }
            }
            (Some(rack), _) => take_node(rack, node(kind, body))?,
        }
        Ok(body.len())
    }
}

/// Refusals 6 to 10, or one node more.
fn take_node(rack: &mut Rack, node: Node) -> Result<(), u8> {
    match refuse::node(&rack.nodes, &node) {
        Some(number) => Err(number),
        None => {
            rack.nodes.push(node);
            Ok(())
        }
    }
}

/// "2 bridge (6): parent, device number, vendor ID (2), device ID (2). 3 device (12):
/// the same six bytes, then three regions of kind (1) and exponent e (1)." An older bridge
/// (13) has the body of kind 2.
pub(crate) fn node(kind: u8, body: &[u8]) -> Node {
    let region = |at| Region { kind: u8_at(body, at), exponent: u8_at(body, at + 1) };
    Node {
        parent: u8_at(body, 0),
        device: u8_at(body, 1),
        vendor_id: u16_at(body, 2),
        device_id: u16_at(body, 4),
        header: match kind {
            2 => Header::Bridge(Options::ALL),
            13 => Header::Bridge(Options::NONE),
            _ => Header::Device([region(6), region(8), region(10)]),
        },
    }
}

/// "kind 9: seat, node, two-byte mask"
fn grant(body: &[u8]) -> Grant {
    Grant { seat: u8_at(body, 0), node: u8_at(body, 1), mask: u16_at(body, 2) }
}

/// "Kind 11 holds a node and its 64 register bytes".
fn saved(body: &[u8]) -> Saved {
    let mut part = [0; PART];
    put(&mut part, 0, body.get(1..).unwrap_or(&[]));
    Saved { node: u8_at(body, 0), part }
}

/// The event of a kind and body of the right length; none for other kinds.
fn event(kind: u8, body: &[u8]) -> Option<Event> {
    let (first, second, third) = (u8_at(body, 0), u8_at(body, 1), u8_at(body, 2));
    match kind {
        4 => Some(Event::ConfigWrite {
            bus: first,
            device_function: second,
            register: third,
            enables: u8_at(body, 3),
            data: u32_at(body, 4),
        }),
        5 => Some(Event::ConfigRead { bus: first, device_function: second, register: third }),
        6 => Some(Event::Memory { initiator: first, direction: second, address: u64_at(body, 2) }),
        7 => Some(Event::Io { initiator: first, direction: second, address: u32_at(body, 2) }),
        8 => Some(Event::Check),
        10 => Some(Event::Seat { seat: first }),
        _ => None,
    }
}

/// The event of a call: "no byte or no event kind is 2, any length but its own is 3."
pub fn read_event(bytes: &[u8]) -> Result<Event, u8> {
    let (kind, body) = bytes.split_first().ok_or(2u8)?;
    if !is_event(*kind) {
        return Err(2);
    }
    if body_length(*kind) != Some(body.len()) {
        return Err(3);
    }
    event(*kind, body).ok_or(2)
}
