//! "Refused, in this order": each number, and several faults at once.

use crate::build::{bridge, bridge_with, device, older, only, File, EDITIONS, NO_REGIONS};
use rackcheck::machine::Machine;
use rackcheck::rack::{Node, Options, Rack};
use rackcheck::refuse::{self, Fields};

pub fn refused(file: File, number: u8, offset: usize) {
    assert_eq!(file.output(), format!("refused {number} at {offset}\n"));
    let error = rackcheck::file::read(&file.0).unwrap_err();
    assert_eq!((error.number, error.offset), (number, offset));
}

pub fn accepted(file: File) {
    assert!(rackcheck::file::read(&file.0).is_ok());
}

pub fn accepted_if(good: bool, file: File, number: u8, offset: usize) {
    match good {
        true => accepted(file),
        false => refused(file, number, offset),
    }
}

#[test]
fn r01_too_long() {
    let checks = vec![8; 65_536 - 17];
    accepted(File::new().raw(&checks));
    refused(File::new().raw(&checks).check(), 1, 65_536);
    // Before every fault inside.
    refused(File::empty().raw(&[0; 70_000]), 1, 65_536);
}

#[test]
fn r02_kind() {
    for kind in (0..=255).filter(|kind| !matches!(kind, 1..=11 | 13)) {
        refused(File::empty().raw(&[kind]), 2, 0);
        refused(File::new().raw(&[kind]), 2, 17);
        refused(File::new().check().raw(&[kind, 1, 2, 3]), 2, 18);
    }
}

#[test]
fn r03_cut_short() {
    let lengths = [16, 6, 12, 8, 3, 10, 6, 0, 4, 1, 65];
    for (kind, length) in (1u8..).zip(lengths).chain([(13, 6)]) {
        for have in 0..length {
            refused(File::new().raw(&[kind]).raw(&vec![0; have]), 3, 17);
            // Before 4: as the first record too.
            refused(File::empty().raw(&[kind]).raw(&vec![0; have]), 3, 0);
        }
    }
    // Before 5: a bridge after an event.
    refused(File::new().check().raw(&[2, 255]), 3, 18);
    refused(File::new().check().raw(&[13, 255, 0, 0, 0, 0]), 3, 18);
}

#[test]
fn r04_host() {
    refused(File::empty(), 4, 0);
    refused(File::empty().check(), 4, 0);
    refused(File::empty().bridge(255, 0), 4, 0);
    refused(File::empty().older(255, 0), 4, 0);
    refused(File::empty().older(7, 99).raw(&File::new().0), 4, 0); // before 7 and 8
    refused(File::empty().bridge(7, 99).check(), 4, 0); // before 7 and 8
    refused(File::empty().memory(3, 9, 0), 4, 0); // before 13
    refused(File::new().raw(&File::new().0), 4, 17);
    refused(File::new().check().raw(&File::new().0), 4, 18); // before 5
}

#[test]
fn r05_rack_record_after_event() {
    refused(File::new().check().bridge(255, 0), 5, 18);
    refused(File::new().check().older(255, 0), 5, 18);
    refused(File::new().check().older(9, 99), 5, 18); // before 7 and 8
    refused(File::all_bridges([2, 13]).check().older(255, 0), 5, 17 + 32 * 7 + 1); // before 6
    refused(File::new().check().device(255, 0, NO_REGIONS), 5, 18);
    refused(File::new().check().device(9, 99, [(9, 9); 3]), 5, 18); // before 7, 8, 10
}

#[test]
fn r06_too_many() {
    for kinds in EDITIONS {
        let full = || File::full(kinds, NO_REGIONS);
        accepted(full());
        let at = 17 + 32 * 7 + 64 * 13;
        refused(full().device(10, 0, NO_REGIONS), 6, at);
        refused(full().device(1, 0, [(9, 9); 3]), 6, at); // before 9 and 10
        for kind in [2, 13] {
            refused(full().bridge_of(kind, 10, 0), 6, at);
            refused(full().bridge_of(kind, 99, 99), 6, at); // before 7 and 8

            // A 64th device after the 32nd bridge, and a 33rd bridge before it.
            refused(File::all_bridges(kinds).bridge_of(kind, 1, 0), 6, 17 + 32 * 7);
        }
    }
}

#[test]
fn r07_parent() {
    refused(File::new().bridge(0, 0), 7, 17); // itself
    refused(File::new().bridge(1, 0).bridge(255, 0), 7, 17); // a later one
    refused(File::new().device(255, 0, NO_REGIONS).bridge(0, 0), 7, 30); // a device
    refused(File::new().bridge(254, 16), 7, 17); // before 8
    refused(File::new().device(3, 16, [(9, 9); 3]), 7, 17); // before 8 and 10
    refused(File::new().older(0, 0), 7, 17);
    refused(File::new().older(1, 0).older(255, 0), 7, 17);
    refused(File::new().device(255, 0, NO_REGIONS).older(0, 0), 7, 30);
    refused(File::new().older(254, 16), 7, 17);
    // An older bridge is a parent of all three.
    accepted(File::new().older(255, 0).older(0, 0).bridge(1, 0).device(1, 1, NO_REGIONS));
}

#[test]
fn r08_device_number() {
    refused(File::new().bridge(255, 16), 8, 17);
    refused(File::new().device(255, 255, [(9, 9); 3]), 8, 17); // before 10
    accepted(File::new().bridge(255, 15));
    refused(File::new().older(255, 16), 8, 17);
    refused(File::new().bridge(255, 16).older(255, 16), 8, 17);
    accepted(File::new().older(255, 15));
}

#[test]
fn r09_taken() {
    refused(File::new().bridge(255, 3).device(255, 3, NO_REGIONS), 9, 24);
    refused(File::new().bridge(255, 3).bridge(255, 3), 9, 24);
    refused(File::new().bridge(255, 3).device(255, 3, [(0, 1); 3]), 9, 24); // before 10
    accepted(File::new().bridge(255, 3).device(0, 3, NO_REGIONS));
    for [first, second] in EDITIONS {
        let one = || File::new().bridge_of(first, 255, 3);
        refused(one().bridge_of(second, 255, 3), 9, 24);
        accepted(one().bridge_of(second, 0, 3));
        refused(one().device(255, 3, NO_REGIONS), 9, 24);
    }
}

#[test]
fn r10_regions() {
    for kind in 0..=255u8 {
        for e in 0..=255u8 {
            let good = match kind {
                0 => e == 0,
                1 => (2..=8).contains(&e),
                2 | 3 => (4..=31).contains(&e),
                _ => false,
            };
            for place in 0..3 {
                let mut regions = NO_REGIONS;
                regions[place] = (kind, e);
                accepted_if(good, File::new().device(255, 0, regions), 10, 17);
            }
        }
    }
}

#[test]
fn r11_image_lengths() {
    for kind in [2, 13] {
        lengths_stand(File::new().bridge_of(kind, 255, 0));
    }
}

/// With two devices more: 64 and 128 bytes.
fn lengths_stand(file: File) {
    let file = file.device(255, 1, NO_REGIONS).device(255, 2, NO_REGIONS);
    let rack = file.rack();
    for bridges in [0, 63, 64, 65, 128] {
        for devices in [0, 64, 127, 128, 129, 192] {
            let (mut b, mut d) = file.images();
            b.resize(bridges, 0);
            d.resize(devices, 0);
            let expected = if (bridges, devices) == (64, 128) { None } else { Some(11) };
            assert_eq!(refuse::images(&rack, &b, &d), expected);
        }
    }
}

#[test]
fn r12_fixed_bits() {
    for kind in [2, 13] {
        let file = File::new().bridge_of(kind, 255, 0);
        fixed_bits_stand(file.device(255, 1, [(1, 3), (2, 4), (3, 31)]));
    }
    // What a newer bridge takes and an older one has fixed: an image of one is none of the other.
    let (newer, old) = (File::new().bridge(255, 0), File::new().older(255, 0));
    assert_eq!(refuse::images(&newer.rack(), &old.images().0, &[]), Some(12));
    assert_eq!(refuse::images(&old.rack(), &newer.images().0, &[]), Some(12));
    for (at, bit) in [(0x1C, 1), (0x1D, 1), (0x24, 1), (0x26, 1), (0x3E, 0x10)]
        .into_iter()
        .chain((0x28..0x34).flat_map(|at| [(at, 1), (at, 0x80)]))
    {
        let mut image = old.images().0;
        image[at] |= bit;
        assert_eq!(refuse::images(&old.rack(), &image, &[]), Some(12), "{at:X}");
    }
}

/// Node 0 in the bridges' image and node 1 in the devices': a bit may differ from reset
/// if a mask has it, and no other.
fn fixed_bits_stand(file: File) {
    let rack = file.rack();
    let reset = file.images();
    assert_eq!(refuse::images(&rack, &reset.0, &reset.1), None);
    for (number, node) in rack.numbered() {
        let masks = rackcheck::registers::masks(node);
        for bit in 0..64 * 8 {
            let (mut b, mut d) = reset.clone();
            let image = if number == 0 { &mut b } else { &mut d };
            image[bit / 8] ^= 1 << (bit % 8);
            let changes = (masks.write[bit / 8] | masks.clear[bit / 8]) >> (bit % 8) & 1 == 1;
            let expected = if changes { None } else { Some(12) };
            assert_eq!(refuse::images(&rack, &b, &d), expected, "node {number} bit {bit}");
        }
    }
}

#[test]
fn r13_in_a_file() {
    for kind in [2, 13] {
        fields_of_events_stand(|| File::new().bridge_of(kind, 255, 0).device(255, 1, NO_REGIONS));
    }
}

/// Node 0 is a bridge, node 1 a device.
fn fields_of_events_stand(rack: impl Fn() -> File) {
    for register in 0..=255u8 {
        for file in [rack().put(0, 0, register, 0), rack().get(0, 0, register)] {
            accepted_if(register % 4 == 0, file, 13, 37);
        }
    }
    for enables in 0..=255u8 {
        accepted_if(enables <= 15, rack().put_bytes(0, 0, 0, enables, 0), 13, 37);
    }
    for value in 0..=255u8 {
        for file in [rack().memory(255, value, 0), rack().io(255, value, 0)] {
            accepted_if(value <= 1, file, 13, 37);
        }
        // Neither host nor device: bridge 0 and every number without a node.
        for file in [rack().memory(value, 0, 0), rack().io(value, 0, 0)] {
            accepted_if(value == 1 || value == 255, file, 13, 37);
        }
    }
}

#[test]
fn first_faulty_record_wins_over_lower_number() {
    // 13 in an early record, 2 in a later one.
    refused(File::new().get(0, 0, 1).raw(&[0]), 13, 17);
    // 10 early, 7 later.
    refused(File::new().device(255, 0, [(5, 0); 3]).bridge(77, 0), 10, 17);
    // A fault in an event before the file is cut short.
    refused(File::new().memory(0, 0, 0).raw(&[6, 0]), 13, 17);
}

fn decoded(nodes: Vec<Node>) -> Rack {
    Rack { nodes, ..Rack::default() }
}

#[test]
fn decoded_racks() {
    let number = |nodes| refuse::rack(&decoded(nodes));
    assert_eq!(number(vec![]), None);
    assert_eq!(number(vec![bridge(255, 0); 2]), Some(9));
    assert_eq!(number(vec![bridge(0, 0)]), Some(7));
    assert_eq!(number(vec![bridge(255, 16)]), Some(8));
    assert_eq!(number(vec![device(255, 0, only(1, 9))]), Some(10));
    // "node by node, as a file would meet them": 10 of node 0 before 7 of node 1.
    assert_eq!(number(vec![device(255, 0, only(1, 9)), bridge(9, 9)]), Some(10));
    let (all, none) = (Options::ALL, Options::NONE);
    for kinds in [[all, all], [all, none], [none, all], [none, none]] {
        let parent = |i: u8| if i == 0 { 255 } else { i - 1 };
        let link = |i: u8| bridge_with(kinds[usize::from(i % 2)], parent(i), 0);
        let chain = |n: u8| (0..n).map(link).collect();
        assert_eq!(number(chain(32)), None);
        assert_eq!(number(chain(33)), Some(6));
        assert_eq!(number(chain(200)), Some(6));
    }
    assert_eq!(number(vec![device(255, 0, NO_REGIONS); 1000]), Some(9));
}

#[test]
fn calls_in_order() {
    let good = decoded(vec![bridge(255, 0), device(0, 0, only(2, 12))]);
    let reset = Machine::at_reset(good.clone()).unwrap();
    let (b, d) = (reset.bridges().to_vec(), reset.devices().to_vec());
    let mut spoilt = d.clone();
    spoilt[0] ^= 1;
    let fault = Fields { register: Some(1), ..Fields::default() };
    let none = Fields::default();
    assert_eq!(refuse::call(&good, &b, &d, &none), None);
    assert_eq!(refuse::call(&good, &b, &d, &fault), Some(13));
    assert_eq!(refuse::call(&good, &b, &spoilt, &fault), Some(12));
    assert_eq!(refuse::call(&good, &b[1..], &spoilt, &fault), Some(11));
    let bad = decoded(vec![bridge(255, 0), device(0, 0, only(2, 3))]);
    assert_eq!(refuse::call(&bad, &b[1..], &spoilt, &fault), Some(10));
    assert_eq!(Machine::with_images(bad.clone(), &b, &d).unwrap_err(), 10);
    assert_eq!(Machine::at_reset(bad).unwrap_err(), 10);
    assert_eq!(Machine::with_images(good.clone(), &b, &spoilt).unwrap_err(), 12);
    assert_eq!(Machine::with_images(good, &b, &[]).unwrap_err(), 11);
}

#[test]
fn r13_fields_of_calls() {
    for bridge in [bridge, older] {
        fields_of_calls_stand(&decoded(vec![bridge(255, 0), device(0, 0, only(2, 12))]));
    }
}

/// Node 0 is a bridge, node 1 a device.
fn fields_of_calls_stand(rack: &Rack) {
    let number = |fields| refuse::fields(rack, &fields);
    let none = Fields::default;
    for node in 0..=255u8 {
        let is = |good: bool| if good { None } else { Some(13) };
        assert_eq!(number(Fields { node: Some(node), ..none() }), is(node < 2));
        assert_eq!(number(Fields { bridge: Some(node), ..none() }), is(node == 0));
        assert_eq!(number(Fields { bus: Some(node), ..none() }), is(node == 0 || node == 255));
        assert_eq!(
            number(Fields { initiator: Some(node), ..none() }),
            is(node == 1 || node == 255)
        );
        for region in 0..=255u8 {
            // A kind 0 region (1 and 2 here) is there: "A kind 0 region has size 0."
            let fields = Fields { region: Some((node, region)), ..none() };
            assert_eq!(number(fields), is(node == 1 && region < 3));
            let fields = Fields { window: Some((node, region)), ..none() };
            assert_eq!(number(fields), is(node == 0 && region < 3));
        }
    }
}
