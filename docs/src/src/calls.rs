//! Calls over a rack and two lent images. Each gives its result, or the number of the
//! first refusal; a refused call leaves both images as they are.

use crate::answer::Answer;
use crate::bytes::put;
use crate::claims;
use crate::file;
use crate::machine::Machine;
use crate::program::{run_check, run_event};
use crate::rack::{Event, Node, Rack};
use crate::refuse::{self, Fields};
use crate::registers;
use crate::saved;
use crate::windows::{region_ends, Address, Ends, Windows};

/// The machine of a call that is not refused: 6 to 12 and 18, then 13 and 14.
fn accept(rack: &Rack, bridges: &[u8], devices: &[u8], fields: &Fields) -> Result<Machine, u8> {
    let machine = Machine::with_images(rack.clone(), bridges, devices)?;
    match refuse::fields(rack, fields).or_else(|| refuse::grants(rack)) {
        Some(number) => Err(number),
        None => Ok(machine),
    }
}

/// The rack of a call that takes it as bytes: "1 to 10 as for a file".
fn rack_of_bytes(records: &[u8]) -> Result<Rack, u8> {
    file::read_rack(records).map_err(|refused| refused.number)
}

/// Hands the registers back to the lent images; their lengths are equal by refusal 11.
fn hand_back(machine: &Machine, bridges: &mut [u8], devices: &mut [u8]) {
    put(bridges, 0, machine.bridges());
    put(devices, 0, machine.devices());
}

/// Runs one event: "A call that runs an event is told the acting seat". 15 is looked at for
/// every event, and who acts after a seat event is for the caller to say.
pub fn event(
    rack: &Rack,
    bridges: &mut [u8],
    devices: &mut [u8],
    seat: u8,
    event: &Event,
) -> Result<Answer, u8> {
    let mut machine = accept(rack, bridges, devices, &Fields::of_event(event))?;
    if let Some(number) = refuse::seat(rack, seat).or_else(|| refuse::seat_of_event(rack, event)) {
        return Err(number);
    }
    let answer = run_event(&mut machine, seat, event);
    hand_back(&machine, bridges, devices);
    Ok(answer)
}

/// Checks the rack.
pub fn check(rack: &Rack, bridges: &[u8], devices: &[u8]) -> Result<Answer, u8> {
    Ok(run_check(&accept(rack, bridges, devices, &Fields::default())?))
}

/// The C call that runs an event: "1 to 10 as for a file"; "The event to run is read
/// next, before 11"; then 11 to 15, with 18 behind 12.
pub fn event_of_bytes(
    records: &[u8],
    event_bytes: &[u8],
    bridges: &mut [u8],
    devices: &mut [u8],
    seat: u8,
) -> Result<Answer, u8> {
    let rack = rack_of_bytes(records)?;
    let read = file::read_event(event_bytes)?;
    event(&rack, bridges, devices, seat, &read)
}

/// The C call that checks.
pub fn check_of_bytes(records: &[u8], bridges: &[u8], devices: &[u8]) -> Result<Answer, u8> {
    check(&rack_of_bytes(records)?, bridges, devices)
}

/// The reset of both images: 1 to 10, 11, 14. What stands in them plays no part, so that 12 and
/// 18 refuse none.
pub fn reset_of_bytes(records: &[u8], bridges: &mut [u8], devices: &mut [u8]) -> Result<(), u8> {
    let rack = rack_of_bytes(records)?;
    let lengths = refuse::lengths(&rack, bridges, devices);
    if let Some(number) = lengths.or_else(|| refuse::grants(&rack)) {
        return Err(number);
    }
    hand_back(&Machine::at_reset(rack)?, bridges, devices);
    Ok(())
}

/// The writer: the file of the rack with these registers, into the lent buffer; gives its length.
/// 6 to 12, 18 and 14, then "a lent buffer too short for the writer's file is 11 too, tested after
/// all others; a refusal leaves the buffer untouched, and a file that fits the bytes past it".
pub fn save(rack: &Rack, bridges: &[u8], devices: &[u8], buffer: &mut [u8]) -> Result<usize, u8> {
    let file = saved::file(&accept(rack, bridges, devices, &Fields::default())?);
    if buffer.len() < file.len() {
        return Err(11);
    }
    put(buffer, 0, &file);
    Ok(file.len())
}

/// The same with the rack records as bytes.
pub fn save_of_bytes(
    records: &[u8],
    bridges: &[u8],
    devices: &[u8],
    buffer: &mut [u8],
) -> Result<usize, u8> {
    save(&rack_of_bytes(records)?, bridges, devices, buffer)
}

/// What [`start_of_file`] tells.
#[derive(Clone, Copy, Debug, PartialEq, Eq)]
pub struct Start {
    /// How many bytes stand before the first register record or event, or the refusal's number.
    pub records: Result<usize, u8>,
    /// How many bridges the file has; 0 if the file itself is refused.
    pub bridges: usize,
    /// How many devices it has, likewise.
    pub devices: usize,
}

/// The registers that a run of a whole file "starts from ... instead of reset", into both images:
/// 1 to 10 and 13 to 18 as for a file, then 11. As in a reset, what stands in the images plays no
/// part. Images of the wrong length get to know the right ones from the counts.
pub fn start_of_file(bytes: &[u8], bridges: &mut [u8], devices: &mut [u8]) -> Start {
    let read = file::read(bytes).map_err(|refused| refused.number).and_then(|contents| {
        let machine = Machine::with_registers(contents.rack, &contents.registers)?;
        Ok((contents.records, machine))
    });
    let (records, machine) = match read {
        Ok(read) => read,
        Err(number) => return Start { records: Err(number), bridges: 0, devices: 0 },
    };
    let rack = machine.rack();
    let records = refuse::lengths(rack, bridges, devices).map_or(Ok(records), Err);
    if records.is_ok() {
        hand_back(&machine, bridges, devices);
    }
    Start { records, bridges: rack.bridge_count(), devices: rack.device_count() }
}

/// The register view. A refused one has no part but the number: "The view shows an
/// empty part."
pub fn view<'a>(
    rack: &Rack,
    bridges: &'a [u8],
    devices: &'a [u8],
    node: u8,
) -> Result<&'a [u8], u8> {
    let fields = Fields { node: Some(node), ..Fields::default() };
    match refuse::call(rack, bridges, devices, &fields) {
        Some(number) => Err(number),
        None => Ok(registers::part(rack, bridges, devices, node)),
    }
}

/// Register read of a node.
pub fn register_read(
    rack: &Rack,
    bridges: &[u8],
    devices: &[u8],
    node: u8,
    register: u8,
) -> Result<u32, u8> {
    let fields = Fields { node: Some(node), register: Some(register), ..Fields::default() };
    Ok(accept(rack, bridges, devices, &fields)?.read(node, register))
}

/// Register write of a node, with byte enables. Of a held node it is no refusal, but changes
/// nothing; of a bridge it may put all below to reset.
pub fn register_write(
    rack: &Rack,
    bridges: &mut [u8],
    devices: &mut [u8],
    node: u8,
    (register, enables, data): (u8, u8, u32),
) -> Result<(), u8> {
    let fields = Fields {
        node: Some(node),
        register: Some(register),
        enables: Some(enables),
        ..Fields::default()
    };
    let mut machine = accept(rack, bridges, devices, &fields)?;
    machine.write(node, register, enables, data);
    hand_back(&machine, bridges, devices);
    Ok(())
}

/// Sizing of a region; both images are as before.
pub fn size(
    rack: &Rack,
    bridges: &mut [u8],
    devices: &mut [u8],
    node: u8,
    region: u8,
) -> Result<u64, u8> {
    let fields = Fields { region: Some((node, region)), ..Fields::default() };
    let mut machine = accept(rack, bridges, devices, &fields)?;
    let size = machine.size(node, region);
    hand_back(&machine, bridges, devices);
    Ok(size)
}

/// Whether an agent claims an address on the bus of that holder, driven by another.
pub fn claim(
    rack: &Rack,
    bridges: &[u8],
    devices: &[u8],
    (bus, agent): (u8, u8),
    address: Address,
) -> Result<bool, u8> {
    let node = Some(agent).filter(|agent| *agent != crate::rack::HOST);
    let fields = Fields { bus: Some(bus), node, ..Fields::default() };
    let machine = accept(rack, bridges, devices, &fields)?;
    Ok(claims::claims(&machine, bus, agent, address))
}

/// The windows of a node; 13 if it is no bridge.
fn windows_of(machine: &Machine, bridge: u8) -> Result<Windows, u8> {
    let options = machine.rack().bridge(bridge).and_then(Node::options).ok_or(13u8)?;
    Ok(Windows::of(machine.part(bridge), options))
}

/// A bridge's windows, with both ends of each.
pub fn windows(rack: &Rack, bridges: &[u8], devices: &[u8], bridge: u8) -> Result<Windows, u8> {
    let fields = Fields { bridge: Some(bridge), ..Fields::default() };
    windows_of(&accept(rack, bridges, devices, &fields)?, bridge)
}

/// Both ends of a device's region; none for kind 0.
pub fn region(
    rack: &Rack,
    bridges: &[u8],
    devices: &[u8],
    device: u8,
    index: u8,
) -> Result<Option<Ends>, u8> {
    let fields = Fields { region: Some((device, index)), ..Fields::default() };
    let machine = accept(rack, bridges, devices, &fields)?;
    let record = machine.rack().regions(device).and_then(|all| all.get(usize::from(index)));
    let ends = record.and_then(|record| region_ends(machine.part(device), index, record));
    Ok(ends.map(|(_, ends)| ends))
}

/// Both ends of a bridge's window: 0 memory, 1 prefetchable, 2 I/O; none if it is empty.
pub fn window(
    rack: &Rack,
    bridges: &[u8],
    devices: &[u8],
    bridge: u8,
    index: u8,
) -> Result<Option<Ends>, u8> {
    let fields = Fields { window: Some((bridge, index)), ..Fields::default() };
    let machine = accept(rack, bridges, devices, &fields)?;
    Ok(windows_of(&machine, bridge)?.ends(index))
}

/// Both ends of a window of the node, if it is a bridge, else of a region of it.
pub fn ends(
    rack: &Rack,
    bridges: &[u8],
    devices: &[u8],
    node: u8,
    index: u8,
) -> Result<Option<Ends>, u8> {
    match rack.bridge(node) {
        Some(_) => window(rack, bridges, devices, node, index),
        None => region(rack, bridges, devices, node, index),
    }
}

/// The same with the rack records as bytes.
pub fn ends_of_bytes(
    records: &[u8],
    bridges: &[u8],
    devices: &[u8],
    node: u8,
    index: u8,
) -> Result<Option<Ends>, u8> {
    ends(&rack_of_bytes(records)?, bridges, devices, node, index)
}
