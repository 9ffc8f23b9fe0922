//! "Registers": masks, reset values, the part of a node, read, write and sizing.

use crate::bytes::{put, u32_at, u8_at};
use crate::rack::{Header, Node, Options, Rack, Region};

/// "Each node has 64 bytes."
pub const PART: usize = 64;

/// "Per register byte there is a fixed mask of writable bits and of bits cleared
/// by writing 1; all other bits keep their reset value."
#[derive(Clone, Copy, Debug, PartialEq, Eq)]
pub struct Masks {
    /// Writable bits.
    pub write: [u8; PART],
    /// Bits cleared by writing 1.
    pub clear: [u8; PART],
    /// Reset values.
    pub reset: [u8; PART],
}

/// A register record: "Kind 11 holds a node and its 64 register bytes".
#[derive(Clone, Copy, Debug, PartialEq, Eq)]
pub struct Saved {
    /// The node.
    pub node: u8,
    /// Its 64 bytes.
    pub part: [u8; PART],
}

/// The masks and reset values of a node.
pub fn masks(node: &Node) -> Masks {
    let mut masks = common_masks(node);
    match &node.header {
        Header::Bridge(options) => {
            add_bridge(&mut masks);
            add_options(&mut masks, options);
        }
        Header::Device(regions) => add_device(&mut masks, regions),
    }
    masks
}

/// "00h to 07h, 0Ch, 0Dh, 3Ch as a bridge": what both kinds of node have.
fn common_masks(node: &Node) -> Masks {
    let mut masks = Masks { write: [0; PART], clear: [0; PART], reset: [0; PART] };
    // "00h, 02h the record's IDs, fixed"
    put(&mut masks.reset, 0x00, &node.vendor_id.to_le_bytes());
    put(&mut masks.reset, 0x02, &node.device_id.to_le_bytes());
    // "04h command 0147h; 06h status, clear F900h"
    put(&mut masks.write, 0x04, &0x0147u16.to_le_bytes());
    put(&mut masks.clear, 0x06, &0xF900u16.to_le_bytes());
    // "0Ch, 0Dh FFh"
    put(&mut masks.write, 0x0C, &[0xFF, 0xFF]);
    // "3Ch FFh"
    put(&mut masks.write, 0x3C, &[0xFF]);
    masks
}

/// The rest of the bridge's list, without what an option adds to it.
fn add_bridge(masks: &mut Masks) {
    // "09h to 0Bh fixed 00 04 06"
    put(&mut masks.reset, 0x09, &[0x00, 0x04, 0x06]);
    // "0Eh fixed 01"
    put(&mut masks.reset, 0x0E, &[0x01]);
    // "18h primary, 19h secondary, 1Ah subordinate, 1Bh each FFh"
    put(&mut masks.write, 0x18, &[0xFF; 4]);
    // "1Ch, 1Dh I/O base and limit F0h"
    put(&mut masks.write, 0x1C, &[0xF0, 0xF0]);
    // "1Eh secondary status, clear F900h"
    put(&mut masks.clear, 0x1E, &0xF900u16.to_le_bytes());
    // "20h, 22h memory base and limit FFF0h"
    put(&mut masks.write, 0x20, &0xFFF0u16.to_le_bytes());
    put(&mut masks.write, 0x22, &0xFFF0u16.to_le_bytes());
    // "24h, 26h prefetchable base and limit FFF0h"
    put(&mut masks.write, 0x24, &0xFFF0u16.to_le_bytes());
    put(&mut masks.write, 0x26, &0xFFF0u16.to_le_bytes());
    // "3Eh bridge control 003Fh", of which bit 4 is an option's; bit 6 "becomes writable" (E5).
    put(&mut masks.write, 0x3E, &0x006Fu16.to_le_bytes());
}

/// What each option adds. Without it these bits are as all that no list names: "The rest is
/// fixed 0."
fn add_options(masks: &mut Masks, options: &Options) {
    if options.io_32 {
        // The low digit 1 shows software that "30h, 32h the I/O upper 16 bits" are there.
        put(&mut masks.reset, 0x1C, &[0x01, 0x01]);
        put(&mut masks.write, 0x30, &[0xFF; 4]);
    }
    if options.prefetchable_64 {
        // As above, for "28h, 2Ch their upper 32 bits".
        put(&mut masks.reset, 0x24, &0x0001u16.to_le_bytes());
        put(&mut masks.reset, 0x26, &0x0001u16.to_le_bytes());
        put(&mut masks.write, 0x28, &[0xFF; 8]);
    }
    if options.vga_16 {
        put(&mut masks.write, 0x3E, &0x007Fu16.to_le_bytes());
    }
}

/// The rest of the device's list.
fn add_device(masks: &mut Masks, regions: &[Region; 3]) {
    // "0Bh fixed FFh"
    put(&mut masks.reset, 0x0B, &[0xFF]);
    for (index, region) in (0u8..).zip(regions) {
        add_region(masks, region_register(index), region);
    }
}

/// "region r (0 to 2) of kind 1 to 3 at 10h + 8r"
pub fn region_register(region: u8) -> u8 {
    region.saturating_mul(8).saturating_add(0x10)
}

/// "bits e to 31 writable, low bits fixed (1 for I/O, 0 for 32-bit, 4 for 64-bit
/// memory); the next four bytes writable for kind 3."
fn add_region(masks: &mut Masks, register: u8, region: &Region) {
    let at = usize::from(register);
    let low_bits: u32 = match region.kind {
        1 => 1,
        2 => 0,
        3 => 4,
        _ => return, // a kind 0 region has no register: "The rest is fixed 0."
    };
    put(&mut masks.write, at, &bits_from(region.exponent).to_le_bytes());
    put(&mut masks.reset, at, &low_bits.to_le_bytes());
    if region.kind == 3 {
        put(&mut masks.write, at + 4, &[0xFF; 4]);
    }
}

/// Bits e to 31.
pub fn bits_from(exponent: u8) -> u32 {
    u32::MAX.checked_shl(u32::from(exponent)).unwrap_or(0)
}

/// Whether a node's 64 bytes are those of reset, status bits too.
pub fn equals_reset(node: &Node, part: &[u8]) -> bool {
    part == masks(node).reset
}

/// Refusal 12 for one node: "A fixed bit differs from its reset value."
pub fn fixed_bit_differs(node: &Node, part: &[u8]) -> bool {
    let masks = masks(node);
    (0..PART).any(|at| {
        let fixed = !(u8_at(&masks.write, at) | u8_at(&masks.clear, at));
        (u8_at(part, at) ^ u8_at(&masks.reset, at)) & fixed != 0
    })
}

/// The two images at reset, bridges' first: "Bridges' registers form one image and
/// devices' another, in node order."
pub fn reset_images(rack: &Rack) -> (Vec<u8>, Vec<u8>) {
    let (mut bridges, mut devices) = (Vec::new(), Vec::new());
    for node in &rack.nodes {
        let image = if node.is_bridge() { &mut bridges } else { &mut devices };
        image.extend_from_slice(&masks(node).reset);
    }
    (bridges, devices)
}

/// Where a node's part begins in its image: 64 bytes for each node of its kind before it.
fn part_start(rack: &Rack, node: u8) -> Option<usize> {
    let this = rack.node(node)?;
    let before = rack.nodes.iter().take(usize::from(node));
    Some(PART * before.filter(|other| other.is_bridge() == this.is_bridge()).count())
}

/// The same for all nodes, by number.
pub fn part_starts(rack: &Rack) -> Vec<usize> {
    let (mut bridges, mut devices) = (0, 0);
    let start = |node: &Node| {
        let end = if node.is_bridge() { &mut bridges } else { &mut devices };
        *end += PART;
        *end - PART
    };
    rack.nodes.iter().map(start).collect()
}

/// "The register view hands back that part of whichever of the two lent images
/// holds the node." A missing node, or an image without its bytes, gives an empty part.
pub fn part<'a>(rack: &Rack, bridges: &'a [u8], devices: &'a [u8], node: u8) -> &'a [u8] {
    let image = if rack.bridge(node).is_some() { bridges } else { devices };
    part_start(rack, node).and_then(|start| image.get(start..start + PART)).unwrap_or(&[])
}

/// The same part, to be written: "every byte outside them stays".
pub fn part_mut<'a>(
    rack: &Rack,
    bridges: &'a mut [u8],
    devices: &'a mut [u8],
    node: u8,
) -> &'a mut [u8] {
    let image = if rack.bridge(node).is_some() { bridges } else { devices };
    part_start(rack, node).and_then(|start| image.get_mut(start..start + PART)).unwrap_or(&mut [])
}

/// A register read. "Registers 40h to FCh read 0".
pub fn read(part: &[u8], register: u8) -> u32 {
    if register >= 0x40 {
        0
    } else {
        u32_at(part, usize::from(register))
    }
}

/// A register write. "A byte not enabled is not written. Registers 40h to FCh
/// ... ignore writes."
pub fn write(part: &mut [u8], masks: &Masks, register: u8, enables: u8, data: u32) {
    if register >= 0x40 {
        return;
    }
    for (byte, value) in data.to_le_bytes().into_iter().enumerate() {
        let at = usize::from(register) + byte;
        if enables >> byte & 1 == 1 {
            let new =
                written(u8_at(part, at), u8_at(&masks.write, at), u8_at(&masks.clear, at), value);
            put(part, at, &[new]);
        }
    }
}

/// One register byte after a write of `value`: writable bits take the value, bits
/// "cleared by writing 1" stay where the value has 0, all others stay.
pub fn written(old: u8, write: u8, clear: u8, value: u8) -> u8 {
    let kept = old & !write & !clear;
    let taken = value & write;
    let not_cleared = old & clear & !value;
    kept | taken | not_cleared
}

/// "Sizing writes all ones, reads back, clears the type bits (two for I/O, four for
/// memory) and takes zero minus that, modulo 2 to the 32 (64 for kind 3); it
/// restores the register. A kind 0 region has size 0."
pub fn size(part: &mut [u8], node: &Node, index: u8) -> u64 {
    let register = region_register(index);
    let kind = match &node.header {
        Header::Bridge(_) => 0,
        Header::Device(regions) => regions.get(usize::from(index)).map_or(0, |r| r.kind),
    };
    let low = |back: u32, type_bits: u32| back & !type_bits;
    match kind {
        1 => u64::from(0u32.wrapping_sub(low(read_back(part, node, register), 0b11))),
        2 => u64::from(0u32.wrapping_sub(low(read_back(part, node, register), 0b1111))),
        3 => {
            let lower = u64::from(low(read_back(part, node, register), 0b1111));
            let upper = u64::from(read_back(part, node, register.saturating_add(4)));
            0u64.wrapping_sub(upper << 32 | lower)
        }
        _ => 0,
    }
}

/// "writes all ones, reads back, ... it restores the register"
pub fn read_back(part: &mut [u8], node: &Node, register: u8) -> u32 {
    let masks = masks(node);
    let before = read(part, register);
    write(part, &masks, register, 0b1111, u32::MAX);
    let back = read(part, register);
    write(part, &masks, register, 0b1111, before);
    back
}
