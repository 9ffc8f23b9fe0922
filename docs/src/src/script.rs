//! Scripts of calls. Text in quotes in this file is a sentence of `CALLS.md`.

use std::io::{self, ErrorKind, Read, Write};

use crate::answer::{Abort, Answer, Fault, Kind};
use crate::arbiter::{self, State, Step};
use crate::bytes::{u16_at, u32_at, u64_at, u8_at};
use crate::calls::{self, Start};
use crate::file;
use crate::rack::Rack;
use crate::seats::{Grant, Grants};
use crate::windows::Ends;

/// The bytes of a call before those of its rack.
const HEAD: usize = 18;
/// "count of rack bytes, at most 65,600"
const MOST_RACK: usize = 65_600;
/// "count of bytes of the bridges' image, at most 4,160", and of the devices' image.
const MOST_IMAGE: usize = 4_160;
/// "the buffer's length, at most 16,384"
const MOST_BUFFER: u32 = 16_384;

/// "A decoded rack has always 5,585 rack bytes".
const DECODED: usize = 5_585;
/// "first and last address of host memory (8 each), a count of nodes (1)": then the nodes.
const NODES: usize = 17;
/// "96 nodes of 13 bytes"
const NODE: usize = 13;
/// "96 nodes", of which each seat has a pair.
const MOST_NODES: usize = 96;
/// "then, for each seat 1 to 15 and in it for each of 96 nodes, 3 bytes"
const PAIRS: usize = NODES + MOST_NODES * NODE;
/// "3 bytes: whether the pair is named ... and its mask (2)"
const PAIR: usize = 3;

/// Makes every call of a script and writes what it gives. "A script that is cut short
/// ends at its last whole call." So does one that goes on with what is no call.
pub fn run(input: &mut impl Read, out: &mut impl Write) -> io::Result<()> {
    while let Some(mut call) = Call::read(input)? {
        match call.make() {
            Some(given) => call.write(given, out)?,
            None => break,
        }
    }
    Ok(())
}

/// A call, "with all that it needs".
struct Call {
    operation: u8,
    /// "node, or the acting seat"
    node: u8,
    /// "register, region or window"
    named: u8,
    enables: u8,
    data: u32,
    rack: Vec<u8>,
    event: Vec<u8>,
    bridges: Vec<u8>,
    devices: Vec<u8>,
}

/// What a call gives, without both images.
#[derive(Default)]
struct Given {
    /// "0, or the refusal's number"
    number: u8,
    /// "eight numbers of 8 bytes"
    numbers: [u64; 8],
    /// "that part" that the view shows; "of 13 and 14 the whole buffer as the call leaves it"
    part: Vec<u8>,
}

impl Given {
    /// What a refusal gives: numbers "all 0"; of the part 01 says: "The view shows an empty part."
    fn refused(number: u8) -> Given {
        Given { number, ..Given::default() }
    }
}

/// That many bytes of the input; none if there are fewer.
fn bytes(input: &mut impl Read, count: usize) -> io::Result<Option<Vec<u8>>> {
    let mut bytes = vec![0; count];
    match input.read_exact(&mut bytes) {
        Ok(()) => Ok(Some(bytes)),
        Err(error) if error.kind() == ErrorKind::UnexpectedEof => Ok(None),
        Err(error) => Err(error),
    }
}

impl Call {
    /// The next call; none if the script is cut short or a count is too great.
    fn read(input: &mut impl Read) -> io::Result<Option<Call>> {
        let Some(head) = bytes(input, HEAD)? else { return Ok(None) };
        let rack = usize::try_from(u32_at(&head, 1)).unwrap_or(usize::MAX);
        let [event, bridges, devices] = [5, 7, 9].map(|at| usize::from(u16_at(&head, at)));
        if rack > MOST_RACK || bridges > MOST_IMAGE || devices > MOST_IMAGE {
            return Ok(None);
        }
        // "the rack's bytes, the event's bytes, the bridges' image, the devices' image"
        let Some(rack) = bytes(input, rack)? else { return Ok(None) };
        let Some(event) = bytes(input, event)? else { return Ok(None) };
        let Some(bridges) = bytes(input, bridges)? else { return Ok(None) };
        let Some(devices) = bytes(input, devices)? else { return Ok(None) };
        Ok(Some(Call {
            operation: u8_at(&head, 0),
            node: u8_at(&head, 11),
            named: u8_at(&head, 12),
            enables: u8_at(&head, 13),
            data: u32_at(&head, 14),
            rack,
            event,
            bridges,
            devices,
        }))
    }

    /// What the call gives; none if this is no call.
    fn make(&mut self) -> Option<Given> {
        match self.operation {
            1..=7 | 13 => self.make_over_decoded_rack(),
            8..=11 | 14 | 15 => self.make_over_bytes(),
            12 => Some(self.make_without_rack()),
            _ => None,
        }
    }

    /// "Operations over a decoded rack".
    fn make_over_decoded_rack(&mut self) -> Option<Given> {
        let rack = &decoded(&self.rack)?;
        let (b, d) = (&mut self.bridges, &mut self.devices);
        let (node, named) = (self.node, self.named);
        let (data, fill) = (self.data, self.enables);
        let result = match self.operation {
            // "read a register"
            1 => calls::register_read(rack, b, d, node, named)
                .map(|dword| numbers(&[u64::from(dword)])),
            // "write a register"
            2 => calls::register_write(rack, b, d, node, (named, self.enables, self.data))
                .map(|()| numbers(&[])),
            // "view of a node's registers": "an empty part and no number where it is refused"
            3 => {
                let part = calls::view(rack, b, d, node).unwrap_or_default().to_vec();
                Ok(Given { part, ..Given::default() })
            }
            // "size of a region by sizing"
            4 => calls::size(rack, b, d, node, named).map(|size| numbers(&[size])),
            // "both ends of a window or region"
            5 => calls::ends(rack, b, d, node, named).map(both_ends),
            // "run of an event": "one well-formed record of kind 4 to 8 or 10"
            6 => calls::event(rack, b, d, node, &file::read_event(&self.event).ok()?).map(ending),
            // "check"
            7 => calls::check(rack, b, d).map(ending),
            // "the file of the rack with these registers, into a lent buffer"
            13 => return with_buffer(data, fill, |buffer| calls::save(rack, b, d, buffer)),
            _ => return None,
        };
        Some(result.unwrap_or_else(Given::refused))
    }

    /// "Operations over rack bytes ... and event bytes ..., as the C calls take them".
    fn make_over_bytes(&mut self) -> Option<Given> {
        let (rack, b, d) = (&self.rack, &mut self.bridges, &mut self.devices);
        let (data, fill) = (self.data, self.enables);
        let result = match self.operation {
            // "run of an event"
            8 => calls::event_of_bytes(rack, &self.event, b, d, self.node).map(ending),
            // "check"
            9 => calls::check_of_bytes(rack, b, d).map(ending),
            // "reset of both images: refused by 1 to 10, then 11, then 14, never by 12 or 18"
            10 => calls::reset_of_bytes(rack, b, d).map(|()| numbers(&[])),
            // "both ends of a window or region"
            11 => calls::ends_of_bytes(rack, b, d, self.node, self.named).map(both_ends),
            // "the file of the rack with these registers, into a lent buffer"
            14 => {
                return with_buffer(data, fill, |buffer| calls::save_of_bytes(rack, b, d, buffer))
            }
            // "the registers that a run of a file starts from, into both images; the rack's bytes
            // are here a whole file"
            15 => return Some(started(calls::start_of_file(rack, b, d))),
            _ => return None,
        };
        Some(result.unwrap_or_else(Given::refused))
    }

    /// "An operation of both programs that has no rack": "one step of the arbiter".
    fn make_without_rack(&self) -> Given {
        // "node: the place that the high ring granted last; register: the member that the low
        // ring granted last"
        let state = State { high: self.node, low: self.named };
        // "data: its lower two bytes the mask, its upper two the request set"
        let (mask, requests) = (self.data as u16, (self.data >> 16) as u16);
        arbiter::step(mask, state, requests).map_or_else(Given::refused, stepped)
    }

    /// "What a call gives", the images "as the call leaves them".
    fn write(&self, given: Given, out: &mut impl Write) -> io::Result<()> {
        out.write_all(&[given.number])?;
        for value in given.numbers {
            out.write_all(&value.to_le_bytes())?;
        }
        // A part has 64 bytes or none, a buffer at most 16,384.
        out.write_all(&(given.part.len() as u16).to_le_bytes())?;
        out.write_all(&given.part)?;
        out.write_all(&self.bridges)?;
        out.write_all(&self.devices)
    }
}

/// A decoded rack; none if these bytes hold none.
fn decoded(bytes: &[u8]) -> Option<Rack> {
    if bytes.len() != DECODED {
        return None;
    }
    // "Only the first `count` nodes are nodes of the rack".
    let count = usize::from(u8_at(bytes, 16));
    let mut nodes = Vec::with_capacity(count);
    for record in bytes.get(NODES..PAIRS)?.chunks_exact(NODE).take(count) {
        // "kind (2 a bridge, 3 a device, 13 an older bridge; never another), parent, device
        // number, vendor ID (2), device ID (2), three regions of kind and exponent": a
        // device's body.
        let (kind, body) = record.split_first()?;
        if !matches!(kind, 2 | 3 | 13) {
            return None;
        }
        nodes.push(file::node(*kind, body));
    }
    // "the nodes behind the 96th are then there without their bytes, and the first of them is
    // a 33rd bridge (of either kind) or a 65th device if nothing is refused before": 96 nodes
    // that are not refused are 32 bridges and 64 devices, so that 6 refuses the next one,
    // whatever it is.
    nodes.resize(count, file::node(3, &[]));
    let grants = grants(bytes.get(PAIRS..)?, count)?;
    Some(Rack { host_first: u64_at(bytes, 0), host_last: u64_at(bytes, 8), nodes, grants })
}

/// The grants of a decoded rack with so many nodes; none if these bytes hold none.
fn grants(bytes: &[u8], count: usize) -> Option<Grants> {
    let mut grants = Grants::default();
    for (seat, pairs) in (1u8..).zip(bytes.chunks_exact(MOST_NODES * PAIR)) {
        for (node, pair) in (0u8..).zip(pairs.chunks_exact(PAIR)) {
            let grant = Grant { seat, node, mask: u16_at(pair, 1) };
            // "whether the pair is named (0 or 1; never another)"
            match u8_at(pair, 0) {
                0 => {}
                // A missing node is 14, which the call gives in its turn.
                1 => grants.take(count, grant),
                _ => return None,
            }
        }
    }
    Some(grants)
}

/// A call that writes a file "into a lent buffer": "data: the buffer's length, at most 16,384;
/// enables: the byte that fills the buffer before the call". It gives the buffer "as the call
/// leaves it", refused or not; none if this is no call.
fn with_buffer(
    data: u32,
    fill: u8,
    save: impl FnOnce(&mut [u8]) -> Result<usize, u8>,
) -> Option<Given> {
    let length = usize::try_from(data).ok().filter(|_| data <= MOST_BUFFER)?;
    let mut part = vec![fill; length];
    // "the file's length"
    let given = match save(&mut part) {
        Ok(length) => numbers(&[length as u64]),
        Err(number) => Given::refused(number),
    };
    Some(Given { part, ..given })
}

/// "how many bytes stand before the first record of kind 11 or event (all of them where there is
/// none), the count of bridges, the count of devices. Where it is refused by 11 the two counts all
/// the same, with 0 in front of them; all 0 for every other refusal."
fn started(Start { records, bridges, devices }: Start) -> Given {
    let front = records.unwrap_or(0);
    let given = numbers(&[front, bridges, devices].map(|number| number as u64));
    Given { number: records.err().unwrap_or(0), ..given }
}

/// These numbers, "the rest 0".
fn numbers(values: &[u64]) -> Given {
    let mut given = Given::default();
    for (place, value) in given.numbers.iter_mut().zip(values) {
        *place = *value;
    }
    given
}

/// "1, first address, last address; all 0 for an empty window and for a region that is
/// none."
fn both_ends(ends: Option<Ends>) -> Given {
    ends.map_or(numbers(&[]), |ends| numbers(&[1, ends.first, ends.last]))
}

/// "the ending's number and the fields of its line in their order"
fn ending(answer: Answer) -> Given {
    let byte = u64::from;
    let count = |crossings: usize| crossings as u64;
    match answer {
        Answer::Data { crossings, data } => numbers(&[1, count(crossings), u64::from(data)]),
        Answer::Stored { crossings } => numbers(&[2, count(crossings)]),
        Answer::Owner { crossings, node, region, offset } => {
            numbers(&[3, count(crossings), byte(node), byte(region), offset])
        }
        Answer::Host { crossings, offset } => numbers(&[4, count(crossings), offset]),
        Answer::Unclaimed { crossings, holder, how } => {
            numbers(&[5, count(crossings), byte(holder), last_word(how)])
        }
        Answer::Clash { crossings, holder, claimants: (a, b) } => {
            numbers(&[6, count(crossings), byte(holder), byte(a), byte(b)])
        }
        Answer::Denied { crossings } => numbers(&[10, count(crossings)]),
        Answer::Seat { seat } => numbers(&[11, byte(seat)]),
        Answer::Special { crossings, holder } => numbers(&[12, count(crossings), byte(holder)]),
        Answer::Silent => numbers(&[7]),
        Answer::Pass => numbers(&[8]),
        Answer::Fault(Fault { holder, kind, value, driver, claimants: (a, b) }) => {
            numbers(&[9, byte(holder), space(kind), value, byte(driver), byte(a), byte(b)])
        }
    }
}

/// "1, the member granted, then the last granted of the high ring and of the low ring after
/// it; or 2 and the last granted of both rings where there is no grant."
fn stepped(Step { granted, state }: Step) -> Given {
    let [high, low] = [state.high, state.low].map(u64::from);
    match granted {
        Some(member) => numbers(&[1, u64::from(member), high, low]),
        None => numbers(&[2, high, low]),
    }
}

/// "its last field 0 `abort`, 1 `done`, 2 `target`"
fn last_word(how: Abort) -> u64 {
    match how {
        Abort::Abort => 0,
        Abort::Done => 1,
        Abort::Target => 2,
    }
}

/// "its space 0 memory, 1 I/O, 2 configuration"
fn space(kind: Kind) -> u64 {
    match kind {
        Kind::Memory => 0,
        Kind::Io => 1,
        Kind::Config => 2,
    }
}
