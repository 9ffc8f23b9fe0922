//! "Refused, in this order": 6 to 18, of a decoded rack, images, a call's fields and register
//! records.

use crate::held;
use crate::rack::{Event, Header, Node, Rack, Region, HOST, MOST_BRIDGES, MOST_DEVICES};
use crate::registers::{self, Saved};

/// Refusals 6 to 10 of one node after `earlier` ones that are not refused.
pub fn node(earlier: &[Node], node: &Node) -> Option<u8> {
    if too_many(earlier, node) {
        Some(6)
    } else if !parent_stands(earlier, node) {
        Some(7)
    } else if node.device > 15 {
        Some(8) // "The device number exceeds 15."
    } else if device_number_taken(earlier, node) {
        Some(9)
    } else if !regions_in_range(node) {
        Some(10)
    } else {
        None
    }
}

/// 6: "A 33rd bridge or 65th device appears." An older bridge "counts among the 32".
fn too_many(earlier: &[Node], node: &Node) -> bool {
    let alike = earlier.iter().filter(|e| e.is_bridge() == node.is_bridge());
    let most = if node.is_bridge() { MOST_BRIDGES } else { MOST_DEVICES };
    alike.count() >= most
}

/// 7: "The parent is neither 255 nor an earlier bridge."
fn parent_stands(earlier: &[Node], node: &Node) -> bool {
    let parent = earlier.get(usize::from(node.parent));
    node.parent == HOST || parent.is_some_and(Node::is_bridge)
}

/// 9: "The device number is taken on that bus."
fn device_number_taken(earlier: &[Node], node: &Node) -> bool {
    let mut others = earlier.iter();
    others.any(|e| e.parent == node.parent && e.device == node.device)
}

/// 10: "A region's kind or exponent is out of range."
fn regions_in_range(node: &Node) -> bool {
    match &node.header {
        Header::Bridge(_) => true,
        Header::Device(regions) => regions.iter().all(region_in_range),
    }
}

/// "Region kinds: 0 none (e = 0), 1 I/O (e 2 to 8), 2 32-bit memory (e 4 to 31),
/// 3 64-bit memory (e 4 to 31)."
fn region_in_range(region: &Region) -> bool {
    match region.kind {
        0 => region.exponent == 0,
        1 => (2..=8).contains(&region.exponent),
        2 | 3 => (4..=31).contains(&region.exponent),
        _ => false,
    }
}

/// "Calls apply 6 to 10 to the decoded rack node by node, as a file would meet them".
pub fn rack(rack: &Rack) -> Option<u8> {
    let mut earlier: &[Node] = &[];
    for (index, this) in rack.nodes.iter().enumerate() {
        if let Some(number) = node(earlier, this) {
            return Some(number);
        }
        earlier = rack.nodes.get(..=index).unwrap_or(earlier);
    }
    None
}

/// 11: "An image is not 64 times its node count long."
pub fn lengths(rack: &Rack, bridges: &[u8], devices: &[u8]) -> Option<u8> {
    let lengths = (64 * rack.bridge_count(), 64 * rack.device_count());
    ((bridges.len(), devices.len()) != lengths).then_some(11)
}

/// 12: "A fixed bit differs from its reset value."
fn fixed_bits(rack: &Rack, bridges: &[u8], devices: &[u8]) -> Option<u8> {
    let differs = rack.numbered().any(|(number, node)| {
        let part = registers::part(rack, bridges, devices, number);
        registers::fixed_bit_differs(node, part)
    });
    differs.then_some(12)
}

/// 18: "below a set bit 6 all registers have reset values", status bits too.
fn agreement(rack: &Rack, bridges: &[u8], devices: &[u8]) -> Option<u8> {
    let part = |node: u8| registers::part(rack, bridges, devices, node);
    let mut held = rack.numbered().filter(|(number, _)| held::is_held(rack, *number, part));
    held.any(|(number, node)| !registers::equals_reset(node, part(number))).then_some(18)
}

/// Refusals 11, 12 and 18, of two images for a rack that is not refused: "calls give it straight
/// after 12", so that 12 is looked at for every node before.
pub fn images(rack: &Rack, bridges: &[u8], devices: &[u8]) -> Option<u8> {
    lengths(rack, bridges, devices)
        .or_else(|| fixed_bits(rack, bridges, devices))
        .or_else(|| agreement(rack, bridges, devices))
}

/// The fields of a call that refusal 13 speaks of; a call leaves out those it has not.
#[derive(Clone, Copy, Debug, Default, PartialEq, Eq)]
pub struct Fields {
    /// A register.
    pub register: Option<u8>,
    /// Byte enables.
    pub enables: Option<u8>,
    /// A direction.
    pub direction: Option<u8>,
    /// An initiator.
    pub initiator: Option<u8>,
    /// A node named in the call, of either kind.
    pub node: Option<u8>,
    /// A node named in the call that has to be a bridge.
    pub bridge: Option<u8>,
    /// A bus named in the call by its holder.
    pub bus: Option<u8>,
    /// A region named in the call, with the device it is in.
    pub region: Option<(u8, u8)>,
    /// A window named in the call, with the bridge it is of.
    pub window: Option<(u8, u8)>,
}

impl Fields {
    /// The fields of an event.
    pub fn of_event(event: &Event) -> Fields {
        let mut fields = Fields::default();
        match *event {
            Event::ConfigWrite { register, enables, .. } => {
                fields.register = Some(register);
                fields.enables = Some(enables);
            }
            Event::ConfigRead { register, .. } => fields.register = Some(register),
            Event::Memory { initiator, direction, .. } | Event::Io { initiator, direction, .. } => {
                fields.initiator = Some(initiator);
                fields.direction = Some(direction);
            }
            Event::Check | Event::Seat { .. } => {}
        }
        fields
    }
}

/// Refusal 13: "A register is no multiple of 4, enables exceed 15, a direction
/// exceeds 1, an initiator is neither host nor device, or a node or region named
/// in a call is missing."
pub fn fields(rack: &Rack, fields: &Fields) -> Option<u8> {
    let is_device = |number| rack.regions(number).is_some();
    let is_bridge = |number| rack.bridge(number).is_some();
    let fault = fields.register.is_some_and(|register| register % 4 != 0)
        || fields.enables.is_some_and(|enables| enables > 15)
        || fields.direction.is_some_and(|direction| direction > 1)
        || fields.initiator.is_some_and(|number| number != HOST && !is_device(number))
        || fields.node.is_some_and(|number| rack.node(number).is_none())
        || fields.bridge.is_some_and(|number| !is_bridge(number))
        || fields.bus.is_some_and(|holder| holder != HOST && !is_bridge(holder))
        || fields.region.is_some_and(|(number, region)| !is_device(number) || region > 2)
        || fields.window.is_some_and(|(number, window)| !is_bridge(number) || window > 2);
    fault.then_some(13)
}

/// Refusal 14 of a rack: one of its seat records is faulty.
pub fn grants(rack: &Rack) -> Option<u8> {
    rack.grants.is_faulty().then_some(14)
}

/// Refusals 6 to 14 and 18 of a call: "6 to 10 to the decoded rack node by node, ...,
/// then 11 to 13, and return the number"; 18 comes "straight after 12", 14 "after 13".
pub fn call(decoded: &Rack, bridges: &[u8], devices: &[u8], named: &Fields) -> Option<u8> {
    rack(decoded)
        .or_else(|| images(decoded, bridges, devices))
        .or_else(|| fields(decoded, named))
        .or_else(|| grants(decoded))
}

/// Refusal 15: "a seat other than 0 without a record, in a seat event or told to a call".
pub fn seat(rack: &Rack, seat: u8) -> Option<u8> {
    (!rack.grants.know(seat)).then_some(15)
}

/// Refusal 15 of the seat that an event names, if it names one.
pub fn seat_of_event(rack: &Rack, event: &Event) -> Option<u8> {
    match *event {
        Event::Seat { seat: named } => seat(rack, named),
        _ => None,
    }
}

/// Refusals 16 to 18 of a register record behind the `earlier` ones: "A register record whose node
/// is missing or not above the one before is 16, and one that equals reset or changes a fixed bit
/// is 17"; "An image that breaks the agreement is 18, after 17".
pub fn registers(rack: &Rack, earlier: &[Saved], saved: &Saved) -> Option<u8> {
    let above = earlier.last().is_none_or(|before| saved.node > before.node);
    match rack.node(saved.node).filter(|_| above) {
        None => Some(16),
        Some(node) if is_no_record(node, saved) => Some(17),
        Some(_) if below_reset(rack, earlier, saved) => Some(18),
        Some(_) => None,
    }
}

/// 17: "one that equals reset or changes a fixed bit".
fn is_no_record(node: &Node, saved: &Saved) -> bool {
    registers::equals_reset(node, &saved.part) || registers::fixed_bit_differs(node, &saved.part)
}

/// 18: the node is held, while its record differs from reset by 17. The bridges above it have
/// smaller numbers, so that by 16 their records are all among the earlier ones; a bridge that has
/// none is at reset, with bit 6 clear.
fn below_reset(rack: &Rack, earlier: &[Saved], saved: &Saved) -> bool {
    held::is_held(rack, saved.node, |bridge| {
        let record = earlier.iter().find(|record| record.node == bridge);
        record.map_or(&[], |record| &record.part)
    })
}
