//! The decoded rack: host memory, nodes, buses and the agents of a bus.

use crate::seats::Grants;

/// "A parent is a bridge's node number or 255, the root bus; 255 also names the host."
pub const HOST: u8 = 255;

/// "At most 32 bridges and 64 devices."
pub const MOST_BRIDGES: usize = 32;
/// "At most 32 bridges and 64 devices."
pub const MOST_DEVICES: usize = 64;

/// "three regions of kind (1) and exponent e (1)"
#[derive(Clone, Copy, Debug, Default, PartialEq, Eq)]
pub struct Region {
    /// "0 none (e = 0), 1 I/O (e 2 to 8), 2 32-bit memory (e 4 to 31), 3 64-bit memory (e 4 to 31)"
    pub kind: u8,
    /// "A region has 2 to the e bytes."
    pub exponent: u8,
}

/// What a bridge can do beyond the least that every bridge does, each yes or no: "The claim
/// laws are shown over the set of options a bridge has, for both editions together."
#[derive(Clone, Copy, Debug, PartialEq, Eq)]
pub struct Options {
    /// 32-bit I/O: the upper 16 bits of I/O base and limit at 30h and 32h.
    pub io_32: bool,
    /// 64-bit prefetchable memory: the upper 32 bits of its base and limit at 28h and 2Ch.
    pub prefetchable_64: bool,
    /// VGA 16-bit decode: bridge control bit 4.
    pub vga_16: bool,
}

impl Options {
    /// Those of a bridge of revision 1.2, kind 2.
    pub const ALL: Options = Options { io_32: true, prefetchable_64: true, vga_16: true };
    /// Those of an older bridge, kind 13: "revision 1.1 with the smaller options".
    pub const NONE: Options = Options { io_32: false, prefetchable_64: false, vga_16: false };
}

/// What a node is: record kind 2, 13 or 3.
#[derive(Clone, Copy, Debug, PartialEq, Eq)]
pub enum Header {
    /// "2 bridge (6)" and "Kind 13 has kind 2's body", told apart by their options alone: "an
    /// older bridge is in all else a node and bridge as kind 2 is".
    Bridge(Options),
    /// "3 device (12)", with its three regions.
    Device([Region; 3]),
}

/// "Nodes (kinds 2 and 3) are numbered from 0 in file order", an older bridge among them.
#[derive(Clone, Copy, Debug, PartialEq, Eq)]
pub struct Node {
    /// The bus the node sits on, named by its holder.
    pub parent: u8,
    /// The device number on that bus.
    pub device: u8,
    /// Registers 00h and 01h.
    pub vendor_id: u16,
    /// Registers 02h and 03h.
    pub device_id: u16,
    /// Bridge or device.
    pub header: Header,
}

impl Node {
    /// Whether the node is a bridge, older or not.
    pub fn is_bridge(&self) -> bool {
        self.options().is_some()
    }

    /// The kind of the node's record. No record has a part of the options only.
    pub fn kind(&self) -> u8 {
        match &self.header {
            Header::Bridge(Options::ALL) => 2,
            Header::Bridge(_) => 13,
            Header::Device(_) => 3,
        }
    }

    /// The options of the node, if it is a bridge.
    pub fn options(&self) -> Option<Options> {
        match &self.header {
            Header::Bridge(options) => Some(*options),
            Header::Device(_) => None,
        }
    }
}

/// A decoded rack. It may still be one that refusals 6 to 10 and 14 refuse.
#[derive(Clone, Debug, Default, PartialEq, Eq)]
pub struct Rack {
    /// First address of host memory.
    pub host_first: u64,
    /// Last address of host memory; "first above last means none".
    pub host_last: u64,
    /// Bridges and devices, by number.
    pub nodes: Vec<Node>,
    /// What each seat may write.
    pub grants: Grants,
}

impl Rack {
    /// First and last address of host memory, if there is any.
    pub fn host_memory(&self) -> Option<(u64, u64)> {
        (self.host_first <= self.host_last).then_some((self.host_first, self.host_last))
    }

    /// The node of that number, if there is one.
    pub fn node(&self, number: u8) -> Option<&Node> {
        self.nodes.get(usize::from(number))
    }

    /// The node of that number, if it is a bridge.
    pub fn bridge(&self, number: u8) -> Option<&Node> {
        self.node(number).filter(|node| node.is_bridge())
    }

    /// The regions of the node of that number, if it is a device.
    pub fn regions(&self, number: u8) -> Option<&[Region; 3]> {
        match &self.node(number)?.header {
            Header::Bridge(_) => None,
            Header::Device(regions) => Some(regions),
        }
    }

    /// The nodes with their numbers.
    pub fn numbered(&self) -> impl Iterator<Item = (u8, &Node)> {
        (0..HOST).zip(&self.nodes)
    }

    /// How many bridges there are.
    pub fn bridge_count(&self) -> usize {
        self.nodes.iter().filter(|node| node.is_bridge()).count()
    }

    /// How many devices there are.
    pub fn device_count(&self) -> usize {
        self.nodes.iter().filter(|node| !node.is_bridge()).count()
    }

    /// "Buses in order (root, then bridges by number)", each named by its holder.
    pub fn buses(&self) -> Vec<u8> {
        let bridges = self.numbered().filter(|(_, node)| node.is_bridge());
        std::iter::once(HOST).chain(bridges.map(|(number, _)| number)).collect()
    }

    /// The nodes that sit on a bus, by number.
    pub fn nodes_on(&self, bus: u8) -> Vec<u8> {
        let here = self.numbered().filter(|(_, node)| node.parent == bus);
        here.map(|(number, _)| number).collect()
    }

    /// "Agents of a bus: its holder (the host, or the bridge above it), then the
    /// nodes on it by number."
    pub fn agents(&self, bus: u8) -> Vec<u8> {
        std::iter::once(bus).chain(self.nodes_on(bus)).collect()
    }

    /// The bridges above a node, from the one that holds its bus upwards.
    pub fn bridges_above(&self, node: u8) -> impl Iterator<Item = u8> + '_ {
        let holder = |node: u8| {
            let parent = self.node(node)?.parent;
            // An earlier bridge has a smaller number, so this ends; the root bus is 255.
            (parent < node).then_some(parent)
        };
        std::iter::successors(holder(node), move |bridge| holder(*bridge))
    }

    /// All nodes below a bridge, at every depth, by number.
    pub fn nodes_below(&self, bridge: u8) -> Vec<u8> {
        let numbers = self.numbered().map(|(number, _)| number);
        numbers.filter(|node| self.bridges_above(*node).any(|above| above == bridge)).collect()
    }

    /// "The root bus has depth 0, a bridge's bus one more than the bus it sits on."
    pub fn depth(&self, bus: u8) -> usize {
        match self.bridge(bus) {
            Some(bridge) if bridge.parent == HOST => 1,
            // An earlier bridge has a smaller number, so this ends.
            Some(bridge) if bridge.parent < bus => 1 + self.depth(bridge.parent),
            _ => 0,
        }
    }

    /// "The greatest depth is taken over all buses, those without nodes too."
    pub fn greatest_depth(&self) -> usize {
        let depths = self.buses().into_iter().map(|bus| self.depth(bus));
        depths.max().unwrap_or(0)
    }
}

/// Record kinds 4 to 8 and 10.
#[derive(Clone, Copy, Debug, PartialEq, Eq)]
pub enum Event {
    /// "4 configuration write (8)"
    ConfigWrite {
        /// Bus number.
        bus: u8,
        /// "device times 8 plus function"
        device_function: u8,
        /// Register.
        register: u8,
        /// "byte enables (bit i for byte i)"
        enables: u8,
        /// Data.
        data: u32,
    },
    /// "5 configuration read (3)"
    ConfigRead {
        /// Bus number.
        bus: u8,
        /// "device times 8 plus function"
        device_function: u8,
        /// Register.
        register: u8,
    },
    /// "6 memory access (10)"
    Memory {
        /// 255 or a device's number.
        initiator: u8,
        /// "0 read or 1 write"
        direction: u8,
        /// Address.
        address: u64,
    },
    /// "7 I/O access (6)"
    Io {
        /// 255 or a device's number.
        initiator: u8,
        /// 0 or 1.
        direction: u8,
        /// Address.
        address: u32,
    },
    /// "8 check (0)"
    Check,
    /// "Event kind 10 (seat) says who acts from then on"
    Seat {
        /// 0 or a seat that has a record.
        seat: u8,
    },
}
