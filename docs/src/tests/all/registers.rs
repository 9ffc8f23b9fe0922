//! Register rules.

use crate::build::{self, all_options, bridge_with, File, Random, NO_REGIONS};
use rackcheck::bytes::u32_at;
use rackcheck::rack::Node;
use rackcheck::registers::{masks, read, region_register, size, write, written, PART};

fn bridge() -> Node {
    build::bridge(255, 0)
}

fn older() -> Node {
    build::older(255, 0)
}

fn device(regions: [(u8, u8); 3]) -> Node {
    build::device(255, 0, regions)
}

/// Rows of register, reset value, writable and cleared bits.
fn rows_stand(node: &Node, rows: [(usize, u32, u32, u32); 16]) {
    let masks = masks(node);
    for (register, reset, writable, clear) in rows {
        assert_eq!(u32_at(&masks.reset, register), reset, "reset {register:X}");
        assert_eq!(u32_at(&masks.write, register), writable, "write {register:X}");
        assert_eq!(u32_at(&masks.clear, register), clear, "clear {register:X}");
    }
    assert!(rows.iter().map(|row| row.0).eq((0..64).step_by(4)));
}

/// Every region kind with every exponent.
fn all_regions() -> Vec<(u8, u8)> {
    let kinds = [(0, 0..=0), (1, 2..=8), (2, 4..=31), (3, 4..=31)];
    kinds.into_iter().flat_map(|(kind, range)| range.map(move |e| (kind, e))).collect()
}

#[test]
fn bridge_reset_and_masks_as_dwords() {
    let rows = [
        // register, reset, writable, clear
        (0x00, 0x0010_1234, 0, 0),
        (0x04, 0, 0x0000_0147, 0xF900_0000),
        (0x08, 0x0604_0000, 0, 0),
        (0x0C, 0x0001_0000, 0x0000_FFFF, 0),
        (0x10, 0, 0, 0),
        (0x14, 0, 0, 0),
        (0x18, 0, 0xFFFF_FFFF, 0),
        (0x1C, 0x0000_0101, 0x0000_F0F0, 0xF900_0000),
        (0x20, 0, 0xFFF0_FFF0, 0),
        (0x24, 0x0001_0001, 0xFFF0_FFF0, 0),
        (0x28, 0, 0xFFFF_FFFF, 0),
        (0x2C, 0, 0xFFFF_FFFF, 0),
        (0x30, 0, 0xFFFF_FFFF, 0),
        (0x34, 0, 0, 0),
        (0x38, 0, 0, 0),
        (0x3C, 0, 0x007F_00FF, 0),
    ];
    rows_stand(&bridge(), rows);
}

#[test]
fn older_bridge_reset_and_masks_as_dwords() {
    let rows = [
        (0x00, 0x0010_1234, 0, 0),
        (0x04, 0, 0x0000_0147, 0xF900_0000),
        (0x08, 0x0604_0000, 0, 0),
        (0x0C, 0x0001_0000, 0x0000_FFFF, 0),
        (0x10, 0, 0, 0),
        (0x14, 0, 0, 0),
        (0x18, 0, 0xFFFF_FFFF, 0),
        (0x1C, 0, 0x0000_F0F0, 0xF900_0000),
        (0x20, 0, 0xFFF0_FFF0, 0),
        (0x24, 0, 0xFFF0_FFF0, 0),
        (0x28, 0, 0, 0),
        (0x2C, 0, 0, 0),
        (0x30, 0, 0, 0),
        (0x34, 0, 0, 0),
        (0x38, 0, 0, 0),
        (0x3C, 0, 0x006F_00FF, 0),
    ];
    rows_stand(&older(), rows);
}

/// Each option moves its own registers, whatever the others are.
#[test]
fn options_are_apart() {
    let (newer, older) = (masks(&bridge()), masks(&older()));
    for options in all_options() {
        let masks = masks(&bridge_with(options, 255, 0));
        let from = |has| if has { &newer } else { &older };
        for at in 0..PART {
            let as_in = match at {
                0x1C | 0x1D | 0x30..=0x33 => from(options.io_32),
                0x24..=0x2F => from(options.prefetchable_64),
                _ => from(options.vga_16),
            };
            let here = (masks.write[at], masks.clear[at], masks.reset[at]);
            assert_eq!(here, (as_in.write[at], as_in.clear[at], as_in.reset[at]), "{at:X}");
        }
    }
}

/// Writes of bits that only a newer bridge has are `stored`, and leave them 0.
#[test]
fn an_older_bridge_ignores_what_it_lacks() {
    let all_ones = |file: File| {
        let file = (0..64).step_by(4).fold(file, |file, at| file.put(0, 0, at, u32::MAX));
        (0..64).step_by(4).fold(file, |file, at| file.get(0, 0, at)).lines()
    };
    let (newer, older) =
        (all_ones(File::new().bridge(255, 0)), all_ones(File::new().older(255, 0)));
    assert!(older[..16].iter().all(|line| line == "stored 0"));
    let differ: Vec<_> = (16..32).filter(|at| newer[*at] != older[*at]).collect();
    assert_eq!(differ, [0x1C, 0x24, 0x28, 0x2C, 0x30, 0x3C].map(|register| 16 + register / 4));
    let digits = ["0000F0F0", "FFF0FFF0", "00000000", "00000000", "00000000", "006F00FF"];
    for (at, digits) in differ.into_iter().zip(digits) {
        assert_eq!(older[at], format!("data 0 {digits}"));
    }
}

#[test]
fn device_reset_and_masks_as_dwords() {
    let rows = [
        (0x00, 0x0020_5678, 0, 0),
        (0x04, 0, 0x0000_0147, 0xF900_0000),
        (0x08, 0xFF00_0000, 0, 0),
        (0x0C, 0, 0x0000_FFFF, 0),
        (0x10, 1, 0xFFFF_FF00, 0),
        (0x14, 0, 0, 0),
        (0x18, 0, 0xFFF0_0000, 0),
        (0x1C, 0, 0, 0),
        (0x20, 4, 0x8000_0000, 0),
        (0x24, 0, 0xFFFF_FFFF, 0),
        (0x28, 0, 0, 0),
        (0x2C, 0, 0, 0),
        (0x30, 0, 0, 0),
        (0x34, 0, 0, 0),
        (0x38, 0, 0, 0),
        (0x3C, 0, 0x0000_00FF, 0),
    ];
    rows_stand(&device([(1, 8), (2, 20), (3, 31)]), rows);
}

#[test]
fn masks_are_disjoint() {
    let devices = all_regions().into_iter().map(|region| device([region; 3]));
    let bridges = all_options().into_iter().map(|options| bridge_with(options, 255, 0));
    for node in devices.chain(bridges) {
        let masks = masks(&node);
        assert!(masks.write.iter().zip(&masks.clear).all(|(write, clear)| write & clear == 0));
        // Bits that can change are 0 at reset.
        let changing = masks.write.iter().zip(&masks.clear).map(|(write, clear)| write | clear);
        assert!(changing.zip(&masks.reset).all(|(bits, reset)| bits & reset == 0));
    }
}

#[test]
fn written_byte_bit_by_bit() {
    for old in 0..=255u8 {
        for value in 0..=255u8 {
            let (write, clear) = (0b0000_1111, 0b0011_0000);
            let new = written(old, write, clear, value);
            for bit in 0..8 {
                let (was, is, put) = (old >> bit & 1, new >> bit & 1, value >> bit & 1);
                let expected = match bit {
                    0..=3 => put,
                    4 | 5 => was & (1 - put),
                    _ => was,
                };
                assert_eq!(is, expected);
            }
        }
    }
}

#[test]
fn byte_enables() {
    for enables in 0..16u8 {
        let mut part = masks(&bridge()).reset;
        write(&mut part, &masks(&bridge()), 0x18, 15, 0x1111_1111);
        write(&mut part, &masks(&bridge()), 0x18, enables, 0xABCD_EF22);
        let expected: Vec<u8> = [0x22, 0xEF, 0xCD, 0xAB]
            .into_iter()
            .enumerate()
            .map(|(byte, value)| if enables >> byte & 1 == 1 { value } else { 0x11 })
            .collect();
        assert_eq!(part[0x18..0x1C], expected);
    }
    let file =
        File::new().bridge(255, 0).put_bytes(0, 0, 0x18, 0b0110, 0xABCD_EF22).get(0, 0, 0x18);
    assert_eq!(file.last(), "data 0 00CDEF00");
}

#[test]
fn write_1_to_clear() {
    // Unclaimed below a bridge: bit 13 of its secondary status.
    let file =
        || File::new().bridge(255, 0).put(0, 0, 0x18, 0x0001_0100).get(1, 0, 0).get(0, 0, 0x1C);
    assert_eq!(file().tail(2), ["unclaimed 1 0 done", "data 0 20000101"]);
    // Not enabled, and zeros: it stays. One: it goes.
    let file = file().put_bytes(0, 0, 0x1C, 0b0111, 0xFFFF_FFFF).get(0, 0, 0x1C);
    assert_eq!(file.last(), "data 0 2000F1F1");
    let file = file.put_bytes(0, 0, 0x1C, 0b1000, 0xDFFF_FFFF).get(0, 0, 0x1C);
    assert_eq!(file.last(), "data 0 2000F1F1");
    let file = file.put_bytes(0, 0, 0x1C, 0b1000, 0x2000_0000).get(0, 0, 0x1C);
    assert_eq!(file.last(), "data 0 0000F1F1");
    // Writing 1 never sets.
    let file =
        file.put(0, 0, 0x1C, 0xFFFF_FFFF).put(0, 0, 4, 0xFFFF_FFFF).get(0, 0, 0x1C).get(0, 0, 4);
    assert_eq!(file.tail(2), ["data 0 0000F1F1", "data 0 00000147"]);
}

#[test]
fn fixed_bits_stay() {
    for ones in [0, u32::MAX, 0x5555_5555, 0xAAAA_AAAA] {
        let devices = [device([(1, 2), (2, 31), (3, 4)]), device([(0, 0); 3])];
        for node in [bridge(), older()].into_iter().chain(devices) {
            let masks = masks(&node);
            let mut part = masks.reset;
            for register in (0..64).step_by(4) {
                write(&mut part, &masks, register, 15, ones);
            }
            for (at, byte) in part.into_iter().enumerate() {
                let expected = masks.reset[at] & !masks.write[at] | ones as u8 & masks.write[at];
                assert_eq!(byte, expected, "{at:X}");
            }
            assert!(!rackcheck::registers::fixed_bit_differs(&node, &part));
        }
    }
}

#[test]
fn registers_from_40h() {
    let mut part = [0xEE; PART];
    for register in (0x40..=0xFC).step_by(4) {
        write(&mut part, &masks(&bridge()), register, 15, u32::MAX);
        assert_eq!(read(&part, register), 0);
    }
    assert_eq!(part, [0xEE; PART]);
    let file = File::new().device(255, 3, NO_REGIONS).put(0, 3, 0x40, u32::MAX).get(0, 3, 0x40);
    assert_eq!(
        file.clone().get(0, 3, 0xFC).lines(),
        ["stored 0", "data 0 00000000", "data 0 00000000"]
    );
    assert_eq!(file.machine(), File::new().device(255, 3, NO_REGIONS).machine());
}

#[test]
fn a_write_changes_only_its_part() {
    let rack = File::new()
        .bridge(255, 0)
        .device(255, 1, [(3, 4); 3])
        .older(255, 2)
        .device(255, 3, [(3, 4); 3])
        .bridge(255, 4)
        .device(255, 5, [(3, 4); 3]);
    let before = rack.machine();
    for node in 0..6u8 {
        let mut after = before.clone();
        for register in (0..64).step_by(4) {
            after.write(node, register, 15, u32::MAX);
        }
        for other in 0..6u8 {
            assert_eq!(after.part(other) == before.part(other), other != node);
        }
        assert_eq!(after.part(node).len(), PART);
    }
    assert!(before.part(6).is_empty() && before.part(255).is_empty());
    // Parts are in node order within their image.
    assert_eq!(before.part(2), &before.bridges()[64..128]);
    assert_eq!(before.part(2), masks(&build::older(255, 2)).reset);
    assert_eq!(before.part(4), &before.bridges()[128..192]);
    assert_eq!(before.part(3), &before.devices()[64..128]);
}

#[test]
fn sizing_all_kinds_and_exponents() {
    let mut random = Random(8);
    for region in all_regions() {
        for index in 0..3u8 {
            let mut regions = [(0, 0); 3];
            regions[usize::from(index)] = region;
            let node = device(regions);
            let mut part = masks(&node).reset;
            for register in (0..64).step_by(4) {
                write(&mut part, &masks(&node), register, 15, random.next() as u32);
            }
            let before = part;
            let expected = if region.0 == 0 { 0 } else { 1u64 << region.1 };
            assert_eq!(size(&mut part, &node, index), expected, "{region:?}");
            assert_eq!(part, before);
            // The other regions are none.
            assert_eq!(size(&mut part, &node, (index + 1) % 3), 0);
        }
    }
    assert_eq!([0, 1, 2].map(region_register), [0x10, 0x18, 0x20]);
}

#[test]
fn sizing_by_events() {
    let file = File::new().device(255, 0, [(1, 2), (3, 31), (2, 4)]);
    let file = [0x10, 0x14, 0x18, 0x1C, 0x20, 0x24]
        .into_iter()
        .fold(file, |file, register| file.put(0, 0, register, u32::MAX).get(0, 0, register));
    let reads: Vec<String> = file.lines().into_iter().skip(1).step_by(2).collect();
    let expected = ["FFFFFFFD", "00000000", "80000004", "FFFFFFFF", "FFFFFFF0", "00000000"];
    assert_eq!(reads, expected.map(|digits| format!("data 0 {digits}")));
}
