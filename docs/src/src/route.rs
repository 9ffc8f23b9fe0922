//! "Routes": where an access goes, and the status bits that it leaves.

use crate::answer::{Abort, Answer};
use crate::claims::{claimants, config_claimants, device_region, host_memory, BusNumbers};
use crate::machine::{Machine, Side};
use crate::rack::HOST;
use crate::windows::Address;

/// One time a bridge took an access across.
#[derive(Clone, Copy, Debug, PartialEq, Eq)]
pub struct Crossing {
    /// The bridge.
    pub bridge: u8,
    /// The side towards the initiator, where the bridge claimed.
    pub near: Side,
    /// The side it then drives.
    pub far: Side,
}

/// How a route ends on its last bus.
#[derive(Clone, Copy, Debug, PartialEq, Eq)]
pub enum Ending {
    /// A device's region owns a memory or I/O access.
    Owner {
        /// The device.
        node: u8,
        /// The region reached.
        region: u8,
        /// The offset in it.
        offset: u64,
    },
    /// Host memory owns a memory access, at this offset from its first address.
    Host(u64),
    /// A node owns a configuration access.
    Node(u8),
    /// No claimant.
    Unclaimed,
    /// Two or more claimants; the first two in agent order.
    Clash(u8, u8),
    /// A special cycle, which nobody on the bus has to claim.
    Special,
}

/// The way of one access.
#[derive(Clone, Debug, PartialEq, Eq)]
pub struct Route {
    /// Every bridge that took the access across, from the initiator on.
    pub crossings: Vec<Crossing>,
    /// The last bus, named by its holder.
    pub bus: u8,
    /// The driver on that bus.
    pub driver: u8,
    /// What happened there.
    pub ending: Ending,
}

/// "An access starts on the bus its initiator sits on, a configuration access and one
/// of the host on the root bus." For an initiator that is no node: the root bus.
fn starting_bus(machine: &Machine, initiator: u8) -> u8 {
    machine.rack().node(initiator).map_or(HOST, |node| node.parent)
}

/// The route of a memory or I/O access, or none if its initiator is silent.
pub fn access_route(machine: &Machine, initiator: u8, address: Address) -> Option<Route> {
    if is_silent(machine, initiator) {
        return None;
    }
    let bus = starting_bus(machine, initiator);
    Some(bus_step(machine, bus, initiator, address, Vec::new()))
}

/// "A device with command bit 2 clear drives nothing."; "A held initiator's access is `silent`."
/// The host is neither.
fn is_silent(machine: &Machine, initiator: u8) -> bool {
    initiator != HOST && (machine.held(initiator) || !machine.command_bit(initiator, 2))
}

/// What a bus does with an access: "With no claimant the access is unclaimed, with two
/// or more it clashes, and one claimant owns it or, if a bridge, takes it across."
fn bus_step(
    machine: &Machine,
    bus: u8,
    driver: u8,
    address: Address,
    crossings: Vec<Crossing>,
) -> Route {
    let ending = match *claimants(machine, bus, driver, address).as_slice() {
        [] => Ending::Unclaimed,
        [bridge] if machine.rack().bridge(bridge).is_some() => {
            return bridge_step(machine, bus, bridge, address, crossings);
        }
        [owner] => owner_ending(machine, owner, address),
        [first, second, ..] => Ending::Clash(first, second),
    };
    Route { crossings, bus, driver, ending }
}

/// What a bridge does with an access that it claimed on `bus`: it drives it on its
/// other bus. The tree has no loops and a driver never claims, so this ends.
fn bridge_step(
    machine: &Machine,
    bus: u8,
    bridge: u8,
    address: Address,
    mut crossings: Vec<Crossing>,
) -> Route {
    if bus == bridge {
        crossings.push(Crossing { bridge, near: Side::Secondary, far: Side::Primary });
        bus_step(machine, starting_bus(machine, bridge), bridge, address, crossings)
    } else {
        crossings.push(Crossing { bridge, near: Side::Primary, far: Side::Secondary });
        bus_step(machine, bridge, bridge, address, crossings)
    }
}

/// The ending at the one claimant that is not a bridge.
fn owner_ending(machine: &Machine, owner: u8, address: Address) -> Ending {
    match (device_region(machine, owner, address), address) {
        (Some((region, offset)), _) => Ending::Owner { node: owner, region, offset },
        // "offset from its first address"; the host claims memory only.
        (None, Address::Memory(at)) => Ending::Host(at.saturating_sub(host_memory(machine).first)),
        (None, Address::Io(_)) => Ending::Unclaimed,
    }
}

/// What a configuration access is meant for on the bus that its number names.
#[derive(Clone, Copy, Debug, PartialEq, Eq)]
pub enum Target {
    /// "device times 8 plus function"
    Function(u8),
    /// A special cycle: the bus itself.
    SpecialCycle,
}

impl Target {
    /// That of a read, which is never a special cycle.
    pub fn of_read(device_function: u8) -> Target {
        Target::Function(device_function)
    }

    /// That of a write: "A configuration write to device 31, function 7, register 0 is one".
    pub fn of_write(device_function: u8, register: u8) -> Target {
        match (device_function >> 3, device_function & 7, register) {
            (31, 7, 0) => Target::SpecialCycle,
            _ => Target::Function(device_function),
        }
    }
}

/// The route of a configuration access. "Configuration starts at the host. Bus 0 is
/// Type 0 on the root bus; others are Type 1".
pub fn config_route(machine: &Machine, number: u8, target: Target) -> Route {
    if number == 0 {
        bus_reached(machine, HOST, target, Vec::new())
    } else {
        type_1(machine, HOST, number, target, Vec::new())
    }
}

/// What becomes of an access on the bus that its number names. A special cycle is one "on
/// the root bus for bus 0 and otherwise on the secondary bus where the access would turn
/// into Type 0"; any other access is Type 0 there. Whether the bus is held is asked for Type 0
/// only: "a special cycle still ends as one".
fn bus_reached(machine: &Machine, bus: u8, target: Target, crossings: Vec<Crossing>) -> Route {
    let ending = match target {
        Target::Function(device_function) => type_0(machine, bus, device_function),
        Target::SpecialCycle => Ending::Special,
    };
    Route { crossings, bus, driver: bus, ending }
}

/// "Type 0 reaches the node of that device number, function 0, which owns it;
/// otherwise, and for devices 16 to 31, it is unclaimed." "configuration finds nobody on a held
/// bus".
fn type_0(machine: &Machine, bus: u8, device_function: u8) -> Ending {
    if machine.bus_held(bus) {
        return Ending::Unclaimed;
    }
    let (device, function) = (device_function >> 3, device_function & 7);
    let rack = machine.rack();
    let mut here = rack.numbered().filter(|(_, node)| node.parent == bus);
    match here.find(|(_, node)| node.device == device) {
        Some((node, _)) if function == 0 && device < 16 => Ending::Node(node),
        _ => Ending::Unclaimed,
    }
}

/// "Type 1, claimed by each bridge on that bus with secondary ≤ bus ≤ subordinate.
/// Equal to secondary becomes Type 0 on its secondary bus; else it stays Type 1." For a
/// special cycle "the claimant count on the way there is as before".
fn type_1(
    machine: &Machine,
    bus: u8,
    number: u8,
    target: Target,
    mut crossings: Vec<Crossing>,
) -> Route {
    let ending = match *config_claimants(machine, bus, number).as_slice() {
        [] => Ending::Unclaimed,
        [bridge] => {
            crossings.push(Crossing { bridge, near: Side::Primary, far: Side::Secondary });
            return if number == BusNumbers::of(machine, bridge).secondary {
                bus_reached(machine, bridge, target, crossings)
            } else {
                type_1(machine, bridge, number, target, crossings)
            };
        }
        [first, second, ..] => Ending::Clash(first, second),
    };
    Route { crossings, bus, driver: bus, ending }
}

/// The answer for a route, with the status bits of an unclaimed one set. `posted` is
/// whether the access is a memory write. A node that owns a configuration access has
/// stored its data; a read is answered before this.
pub fn settle(machine: &mut Machine, route: &Route, initiator: u8, posted: bool) -> Answer {
    let crossings = route.crossings.len();
    match route.ending {
        Ending::Owner { node, region, offset } => Answer::Owner { crossings, node, region, offset },
        Ending::Host(offset) => Answer::Host { crossings, offset },
        Ending::Node(_) => Answer::Stored { crossings },
        Ending::Unclaimed => {
            let how = leave_unclaimed(machine, route, initiator, posted);
            Answer::Unclaimed { crossings, holder: route.bus, how }
        }
        // "A clash sets nothing."
        Ending::Clash(first, second) => {
            Answer::Clash { crossings, holder: route.bus, claimants: (first, second) }
        }
        // "sets no master-abort bit", nor any other
        Ending::Special => Answer::Special { crossings, holder: route.bus },
    }
}

/// The status bits of an unclaimed access, and how it comes back.
fn leave_unclaimed(machine: &mut Machine, route: &Route, initiator: u8, posted: bool) -> Abort {
    // "An unclaimed access sets bit 13 in the status of its driver on that side
    // (status on the primary, secondary status below; a device its status; the host none)."
    let side = route.crossings.last().map_or(Side::Primary, |crossing| crossing.far);
    machine.set_status_bit(route.driver, side, 13);
    match route.crossings.split_last() {
        None => Abort::Abort,
        // "A memory write that crossed a bridge is done."
        Some(_) if posted => Abort::Done,
        // "Otherwise the last bridge, by bridge control bit 5: 0, done ...; 1, target abort"
        Some((last, _)) if !machine.control_bit(last.bridge, 5) => Abort::Done,
        Some((last, earlier)) => {
            leave_target_abort(machine, last, earlier, initiator);
            Abort::Target
        }
    }
}

/// "it sets bit 11 towards the initiator, each earlier bridge bit 12 towards the later
/// and bit 11 towards the initiator, and an initiating device bit 12."
fn leave_target_abort(machine: &mut Machine, last: &Crossing, earlier: &[Crossing], initiator: u8) {
    machine.set_status_bit(last.bridge, last.near, 11);
    for crossing in earlier {
        machine.set_status_bit(crossing.bridge, crossing.far, 12);
        machine.set_status_bit(crossing.bridge, crossing.near, 11);
    }
    machine.set_status_bit(initiator, Side::Primary, 12);
}
