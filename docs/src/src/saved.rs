//! "A saved rack that has one form": the writer of request E2. Text in quotes in this file is from
//! that request.

use crate::machine::Machine;
use crate::rack::{Header, Node, Rack};
use crate::registers;
use crate::seats::Grant;

/// The length of the longest file: a host, 32 bridges, 64 devices, a grant of each of 15 seats for
/// each of 96 nodes, and the registers of each of them.
pub const LONGEST: usize = 17 + 32 * 7 + 64 * 13 + 15 * 96 * 5 + 96 * 66;

/// "The writer gives host, nodes, seats by seat then node, and register records by node for exactly
/// those nodes that differ from reset."
pub fn file(machine: &Machine) -> Vec<u8> {
    let rack = machine.rack();
    let mut file = Vec::new();
    write_host(&mut file, rack);
    for node in &rack.nodes {
        write_node(&mut file, node);
    }
    for grant in rack.grants.all() {
        write_grant(&mut file, &grant);
    }
    for (number, node) in rack.numbered() {
        let part = machine.part(number);
        if !registers::equals_reset(node, part) {
            file.extend([11, number]);
            file.extend(part);
        }
    }
    file
}

/// "A host without memory is written as first 1, last 0".
fn write_host(file: &mut Vec<u8>, rack: &Rack) {
    let (first, last) = rack.host_memory().unwrap_or((1, 0));
    file.push(1);
    file.extend(first.to_le_bytes());
    file.extend(last.to_le_bytes());
}

/// A node in its own kind: an older bridge "is saved as kind 13" (E11).
fn write_node(file: &mut Vec<u8>, node: &Node) {
    file.extend([node.kind(), node.parent, node.device]);
    file.extend(node.vendor_id.to_le_bytes());
    file.extend(node.device_id.to_le_bytes());
    if let Header::Device(regions) = &node.header {
        for region in regions {
            file.extend([region.kind, region.exponent]);
        }
    }
}

/// A seat record, whatever its mask.
fn write_grant(file: &mut Vec<u8>, grant: &Grant) {
    file.extend([9, grant.seat, grant.node]);
    file.extend(grant.mask.to_le_bytes());
}

/// Whether both have the same content: all that a file can say. A host without memory "counts as
/// equal to any other without memory. Grants are compared as a set."
pub fn same_content(one: &Machine, other: &Machine) -> bool {
    let (rack, other_rack) = (one.rack(), other.rack());
    rack.host_memory() == other_rack.host_memory()
        && rack.nodes == other_rack.nodes
        && rack.grants == other_rack.grants
        && (one.bridges(), one.devices()) == (other.bridges(), other.devices())
}
