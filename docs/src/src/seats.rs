//! Seats in the classroom: the grants of request E1. Text in quotes in this file is from that
//! request, but for their order, which is from E2. Grants belong to the rack and not to the tree
//! of its nodes: claims, routes and the check never look at them.

use std::collections::BTreeMap;

/// The seat that "may write all"; no seat record names it.
pub const ALL: u8 = 0;

/// "A seat record (kind 9: seat, node, two-byte mask, bit i for dword i)".
#[derive(Clone, Copy, Debug, PartialEq, Eq)]
pub struct Grant {
    /// The seat.
    pub seat: u8,
    /// The node.
    pub node: u8,
    /// The dwords of the node that the seat may write.
    pub mask: u16,
}

/// The seat records of a rack. They may still be some that refusal 14 refuses.
#[derive(Clone, Debug, Default, PartialEq, Eq)]
pub struct Grants {
    /// The masks by seat, then node.
    masks: BTreeMap<(u8, u8), u16>,
    /// Whether one of the records is 14.
    faulty: bool,
}

impl Grants {
    /// Takes a seat record that stands behind so many nodes. "A seat record that names no
    /// earlier node, a seat outside 1 to 15, or a seat and node already named together is 14":
    /// it leaves the grants faulty.
    pub fn take(&mut self, nodes: usize, Grant { seat, node, mask }: Grant) {
        let earlier_node = usize::from(node) < nodes;
        if earlier_node && (1..=15).contains(&seat) && self.mask(seat, node).is_none() {
            self.masks.insert((seat, node), mask);
        } else {
            self.faulty = true;
        }
    }

    /// Whether one of the records taken is 14.
    pub fn is_faulty(&self) -> bool {
        self.faulty
    }

    /// The grants "by seat then node".
    pub fn all(&self) -> impl Iterator<Item = Grant> + '_ {
        self.masks.iter().map(|((seat, node), mask)| Grant {
            seat: *seat,
            node: *node,
            mask: *mask,
        })
    }

    /// The mask of a seat and node, if a record names them together.
    pub fn mask(&self, seat: u8, node: u8) -> Option<u16> {
        self.masks.get(&(seat, node)).copied()
    }

    /// Whether this is seat 0 or one that has a record, whatever its mask.
    pub fn know(&self, seat: u8) -> bool {
        seat == ALL || self.masks.range((seat, 0)..=(seat, u8::MAX)).next().is_some()
    }

    /// Whether a seat's write to a register of a node is not denied. A node without a record
    /// of that seat has an empty grant; "writes to 40h and above, are never denied".
    pub fn allow(&self, seat: u8, node: u8, register: u8) -> bool {
        let mask = self.mask(seat, node).unwrap_or(0);
        let dword = u32::from(register / 4);
        seat == ALL || register >= 0x40 || mask.checked_shr(dword).unwrap_or(0) & 1 == 1
    }
}
