//! "Claims": what each agent of a bus claims there.

use crate::bytes::u8_at;
use crate::machine::{command_bit, Machine};
use crate::rack::{Header, Region, HOST};
use crate::windows::{region_ends, Address, Ends, Windows};

/// The memory of the host; "first above last means none".
pub fn host_memory(machine: &Machine) -> Ends {
    Ends { first: machine.rack().host_first, last: machine.rack().host_last }
}

/// "command bit 0 (I/O) or 1 (memory)"
#[derive(Clone, Copy, Debug, PartialEq, Eq)]
pub struct Spaces {
    io: bool,
    memory: bool,
}

impl Spaces {
    fn of(part: &[u8]) -> Spaces {
        Spaces { io: command_bit(part, 0), memory: command_bit(part, 1) }
    }

    /// Whether the bit of the address's kind is set.
    fn on(&self, address: Address) -> bool {
        match address {
            Address::Io(_) => self.io,
            Address::Memory(_) => self.memory,
        }
    }
}

/// What an agent claims on a bus. Its registers are read once; then it answers yes or
/// no for any number of addresses.
#[derive(Clone, Copy, Debug, PartialEq, Eq)]
pub enum Claim {
    /// The host, with its memory.
    Host(Ends),
    /// A bridge on its primary bus.
    Primary(Spaces, Windows),
    /// A bridge on its secondary bus, with command bit 2.
    Secondary(bool, Windows),
    /// A device, with both ends of each region and whether it is I/O.
    Device(Spaces, [Option<(bool, Ends)>; 3]),
    /// A node that is no agent of the bus, or one that is held.
    Nothing,
}

impl Claim {
    /// The claim of an agent on the bus of that holder.
    pub fn of(machine: &Machine, bus: u8, agent: u8) -> Claim {
        if agent == HOST && bus == HOST {
            return Claim::Host(host_memory(machine));
        }
        let Some(node) = machine.rack().node(agent) else { return Claim::Nothing };
        // "A held node claims nothing", whatever its registers say.
        if machine.held(agent) {
            return Claim::Nothing;
        }
        let part = machine.part(agent);
        match &node.header {
            Header::Bridge(options) if agent == bus => {
                Claim::Secondary(command_bit(part, 2), Windows::of(part, *options))
            }
            _ if node.parent != bus => Claim::Nothing,
            Header::Bridge(options) => {
                Claim::Primary(Spaces::of(part), Windows::of(part, *options))
            }
            Header::Device(regions) => Claim::of_device(part, regions),
        }
    }

    /// The claim of a device with these 64 bytes on the bus it sits on.
    fn of_device(part: &[u8], regions: &[Region; 3]) -> Claim {
        let [a, b, c] = regions;
        let ends = [region_ends(part, 0, a), region_ends(part, 1, b), region_ends(part, 2, c)];
        Claim::Device(Spaces::of(part), ends)
    }

    /// Whether the agent claims an address that another agent drives on the bus.
    pub fn holds(&self, address: Address) -> bool {
        match self {
            // "The host claims its memory."
            Claim::Host(memory) => match address {
                Address::Memory(address) => memory.holds(address),
                Address::Io(_) => false,
            },
            // "On its primary bus a bridge claims addresses in its windows if command
            // bit 0 (I/O) or 1 (memory) is set."
            Claim::Primary(spaces, windows) => spaces.on(address) && windows.hold(address),
            // "On its secondary bus it claims those outside if bit 2 is set; bits 0
            // and 1 play no part there."
            Claim::Secondary(bit_2, windows) => *bit_2 && !windows.hold(address),
            Claim::Device(..) => self.reached(address).is_some(),
            Claim::Nothing => false,
        }
    }

    /// The region of a device that an address reaches, with the offset in it. "A device
    /// claims its regions under its bits 0 and 1; where two of them share an address, it
    /// is one claimant and the lower-numbered region is the one reached."
    fn reached(&self, address: Address) -> Option<(u8, u64)> {
        let Claim::Device(spaces, regions) = self else { return None };
        if !spaces.on(address) {
            return None;
        }
        let (wants_io, address) = match address {
            Address::Io(address) => (true, u64::from(address)),
            Address::Memory(address) => (false, address),
        };
        (0u8..).zip(regions).find_map(|(index, region)| match region {
            Some((is_io, ends)) if *is_io == wants_io && ends.holds(address) => {
                Some((index, address - ends.first))
            }
            _ => None,
        })
    }
}

/// The claims of all agents of a bus that are not held, in agent order.
pub fn bus_claims(machine: &Machine, bus: u8) -> Vec<(u8, Claim)> {
    let agents = machine.free_agents(bus).into_iter();
    agents.map(|agent| (agent, Claim::of(machine, bus, agent))).collect()
}

/// Whether an agent of a bus claims an address that another agent drives there. A
/// node that is no agent of the bus claims nothing on it.
pub fn claims(machine: &Machine, bus: u8, agent: u8, address: Address) -> bool {
    Claim::of(machine, bus, agent).holds(address)
}

/// The region of a device that an address on its bus reaches, with the offset in it.
pub fn device_region(machine: &Machine, device: u8, address: Address) -> Option<(u8, u64)> {
    let bus = machine.rack().node(device)?.parent;
    Claim::of(machine, bus, device).reached(address)
}

/// All claimants of an address on a bus, in agent order: "An agent never claims what
/// it drives on that bus."
pub fn claimants(machine: &Machine, bus: u8, driver: u8, address: Address) -> Vec<u8> {
    let others = machine.rack().agents(bus).into_iter().filter(|agent| *agent != driver);
    others.filter(|agent| claims(machine, bus, *agent, address)).collect()
}

/// A bridge's bus numbers: "19h secondary, 1Ah subordinate".
#[derive(Clone, Copy, Debug, PartialEq, Eq)]
pub struct BusNumbers {
    /// 19h.
    pub secondary: u8,
    /// 1Ah.
    pub subordinate: u8,
}

impl BusNumbers {
    /// The bus numbers of a bridge.
    pub fn of(machine: &Machine, bridge: u8) -> BusNumbers {
        let part = machine.part(bridge);
        BusNumbers { secondary: u8_at(part, 0x19), subordinate: u8_at(part, 0x1A) }
    }

    /// "secondary ≤ bus ≤ subordinate"
    pub fn hold(&self, number: u8) -> bool {
        self.secondary <= number && number <= self.subordinate
    }
}

/// Each bridge that sits on a bus and is not held, with its bus numbers, in agent order.
pub fn bridges_on(machine: &Machine, bus: u8) -> Vec<(u8, BusNumbers)> {
    let nodes = machine.rack().nodes_on(bus).into_iter().filter(|node| !machine.held(*node));
    let bridges = nodes.filter(|node| machine.rack().bridge(*node).is_some());
    bridges.map(|bridge| (bridge, BusNumbers::of(machine, bridge))).collect()
}

/// All claimants of a Type 1 access on a bus, in agent order: "claimed by each bridge
/// on that bus with secondary ≤ bus ≤ subordinate". "Command bits play no part." Those that are
/// held are none.
pub fn config_claimants(machine: &Machine, bus: u8, number: u8) -> Vec<u8> {
    let bridges = bridges_on(machine, bus).into_iter();
    bridges.filter(|(_, numbers)| numbers.hold(number)).map(|(bridge, _)| bridge).collect()
}
