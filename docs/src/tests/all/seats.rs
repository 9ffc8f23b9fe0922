//! Seats in the classroom (E1): what is denied, what is not, and who acts.

use crate::build::{bridges_above, hex, one_of_each_below, output, status, File, Random, EDITIONS};
use crate::check::random_rack;
use crate::routes::{goes, mixes, open, rack, twice_carried, B11, B12, B13};
use crate::special::random_images;
use rackcheck::answer::Answer;
use rackcheck::bytes::u32_at;
use rackcheck::machine::Machine;
use rackcheck::program::run_event;
use rackcheck::rack::Event;
use rackcheck::registers::masks;
use rackcheck::seats::Grant;

/// Seat 5 without a grant: known by a mask of 0.
const NOTHING: [(u8, u8, u16); 1] = [(5, 0, 0)];

/// The file's last event ends so by seat 5, which may write nothing, with bridges of either
/// kind. No register changes.
fn denied(before: File, event: File, line: &str) {
    for file in mixes(&before.seated(&NOTHING)) {
        let file = file.acts(5);
        assert_eq!(file.clone().raw(&event.0).last(), line);
        assert_eq!(file.clone().raw(&event.0).machine(), file.machine(), "{line}");
    }
}

#[test]
fn a_run_by_hand() {
    // Seat 3 may write dwords 1 and 15 of bridge 0.
    let rack = "01 0100000000000000 0000000000000000 02 FF 01 34 12 10 00 09 03 00 02 80";
    let events = "0A 03  04 00 08 04 0F 07000000  04 00 08 18 0F 00010200  05 00 08 18 \
                  04 00 08 3C 02 00AA0000  04 00 08 40 0F 00000000  0A 00  04 00 08 18 0F 00010200 \
                  0A 03  04 00 08 18 01 05000000  05 00 08 18";
    let expected = [
        "1 seat 3",
        "2 stored 0",
        "3 denied 0",
        "4 data 0 00000000",
        "5 stored 0",
        "6 stored 0",
        "7 seat 0",
        "8 stored 0",
        "9 seat 3",
        "10 denied 0",
        "11 data 0 00020100",
    ];
    assert_eq!(output(&hex(&[rack, events].concat())), expected.join("\n") + "\n");
}

#[test]
fn crossings() {
    let put = |bus, device, register| File::empty().put(bus, device, register, u32::MAX);
    for file in [rack(), open(0), open(0x20)] {
        // The root bus, one bridge down and two, in both branches.
        denied(file.clone(), put(0, 0, 0x3C), "denied 0");
        denied(file.clone(), put(0, 7, 0x18), "denied 0");
        denied(file.clone(), put(1, 0, 0x04), "denied 1");
        denied(file.clone(), put(3, 0, 0x18), "denied 1");
        denied(file.clone(), put(2, 7, 0x04), "denied 2");
        denied(file, put(4, 7, 0x20), "denied 2");
    }
    // A chain of 32 bridges: bridge n holds bus n + 1.
    let file = (0..32u8).fold(File::new(), |file, n| file.bridge(n.wrapping_sub(1), 0));
    let number = |file: File, bus: u8| file.put(bus, 0, 0x18, (0x2001 + u32::from(bus)) << 8);
    let file = (0..32).fold(file, number).seated(&NOTHING).acts(5);
    for bus in 0..32 {
        assert_eq!(file.clone().put(bus, 0, 4, 7).last(), format!("denied {bus}"));
    }
}

/// Each bit is that of one dword of one node, and no bit is that of 40h and above.
#[test]
fn the_bit_of_the_dword() {
    let place = |node: u8| if node == 0 { (0, 0) } else { (1, 1) };
    for kind in [2, 13] {
        let file = || one_of_each_below(kind).put(0, 0, 0x18, 0x0001_0100);
        for (granted, bit) in [0, 1].into_iter().flat_map(|node| (0..16).map(move |b| (node, b))) {
            let file = file().seated(&[(15, granted, 1 << bit), (14, 0, 0), (1, 1, 0xFFFF)]);
            for node in [0, 1] {
                for register in (0..=252u8).step_by(4) {
                    let (bus, device) = place(node);
                    let write = |file: File| file.put(bus, device, register, 0x00FF_0107);
                    let by = write(file.clone().acts(15));
                    if register >= 0x40 || (node, register / 4) == (granted, bit) {
                        assert_eq!(by.last(), format!("stored {node}"));
                        assert_eq!(by.machine(), write(file.clone()).machine());
                    } else {
                        assert_eq!(by.last(), format!("denied {node}"));
                        assert_eq!(by.machine(), file.machine());
                    }
                }
            }
        }
    }
}

/// The whole mask at once, of every seat, as the bits say one by one.
#[test]
fn any_mask_of_any_seat() {
    let mut random = Random(50);
    for seat in 1..=15 {
        let mask = random.next() as u16;
        let other = seat % 15 + 1;
        let file = one_of_each_below(2).seated(&[(seat, 0, mask), (other, 0, !mask)]);
        for register in (0..=252u8).step_by(4) {
            let granted = register >= 0x40 || mask >> (register / 4) & 1 == 1;
            let by = |seat: u8| file.clone().acts(seat).put(0, 0, register, 0).last();
            assert_eq!(by(seat), if granted { "stored 0" } else { "denied 0" });
            let others = register >= 0x40 || !granted;
            assert_eq!(by(other), if others { "stored 0" } else { "denied 0" });
            assert_eq!(by(0), "stored 0");
        }
    }
}

#[test]
fn a_node_without_a_record_has_an_empty_grant() {
    let file = one_of_each_below(2).device(255, 3, [(0, 0); 3]);
    let file = file.seated(&[(2, 1, 0xFFFF), (3, 0, 0xFFFF)]).acts(2);
    for register in (0..0x40).step_by(4) {
        assert_eq!(file.clone().put(0, 0, register, 0).last(), "denied 0");
        assert_eq!(file.clone().put(0, 3, register, 0).last(), "denied 0");
    }
    assert_eq!(file.clone().put(0, 3, 0x40, 0).last(), "stored 0");
    // Seat 3 opens the bridge, and seat 2 reaches its device below.
    let file = file.acts(3).put(0, 0, 0x18, 0x0001_0100).put(1, 1, 4, 7).acts(2).put(1, 1, 4, 7);
    assert_eq!(file.tail(5), ["seat 3", "stored 0", "denied 1", "seat 2", "stored 1"]);
}

#[test]
fn no_byte_enabled_and_fixed_bits_alone() {
    // Register 0 is fixed, and so is all of dword 4 of a bridge.
    let file = |mask: u16| one_of_each_below(2).seated(&[(5, 0, mask)]).acts(5);
    for enables in 0..16 {
        for (register, bit) in [(0, 0), (0x10, 4), (0x18, 6)] {
            let file = |mask: u16| file(mask).put_bytes(0, 0, register, enables, u32::MAX);
            assert_eq!(file(1 << bit).last(), "stored 0");
            assert_eq!(file(!(1 << bit)).last(), "denied 0");
            assert_eq!(file(0).last(), "denied 0");
        }
    }
    // A byte that is not enabled stays, granted or not; writing 1 to clear needs the grant too.
    let file = |mask| open(0x20).get(2, 9, 0).seated(&[(5, 0, mask)]).acts(5);
    assert_eq!(status(&file(0).put(0, 0, 4, 0xFFFF_0007).machine(), 0), (B11, B12));
    assert_eq!(status(&file(2).put_bytes(0, 0, 4, 3, u32::MAX).machine(), 0), (B11, B12));
    assert_eq!(status(&file(2).put(0, 0, 4, 0xFFFF_0007).machine(), 0), (0, B12));
    assert_eq!(status(&file(0x80).put(0, 0, 0x1C, 0xFFFF_9090).machine(), 0), (B11, 0));
}

/// A write that does not arrive at a node ends as by seat 0, with its status bits.
#[test]
fn what_does_not_arrive_is_not_denied() {
    let by = |file: File| file.seated(&NOTHING).acts(5);
    let write = |file: File, bus, device| file.put(bus, device, 0x18, u32::MAX);
    goes(write(by(rack()), 0, 9), "unclaimed 0 255 abort", &[]);
    goes(write(by(rack()), 9, 0), "unclaimed 0 255 abort", &[]);
    goes(write(by(rack()), 1, 9), "unclaimed 1 0 done", &[(0, 0, B13)]);
    goes(write(by(rack()), 2, 16), "unclaimed 2 2 done", &[(2, 0, B13)]);
    let marks = [(0, B11, B12), (2, B11, B13)];
    goes(write(by(open(0x20)), 2, 9), "unclaimed 2 2 target", &marks);
    // Function 1 of a node that is there.
    let function = by(rack()).raw(&[4, 0, 1, 4, 15, 0, 0, 0, 0]);
    goes(function, "unclaimed 0 255 abort", &[]);
    goes(write(by(rack().put(0, 1, 0x18, 0x0004_0200)), 2, 7), "clash 0 255 0 1", &[]);
    assert_eq!(write(by(twice_carried()), 0xF0, 0).last(), "clash 1 0 1 2");
}

#[test]
fn special_cycles_are_not_denied() {
    for file in [rack(), open(0), open(0x20)] {
        denied(file.clone(), File::empty().special(0), "special 0 255");
        denied(file.clone(), File::empty().special(1), "special 1 0");
        denied(file.clone(), File::empty().special(4), "special 2 3");
        denied(file, File::empty().special(9), "unclaimed 0 255 abort");
    }
    // Function 0 of a node with device number 15 is none, and is denied.
    let file = File::new().device(255, 15, [(0, 0); 3]).seated(&NOTHING).acts(5);
    let file = file.put(0, 15, 0, 0).special(0);
    assert_eq!(file.tail(2), ["denied 0", "special 0 255"]);
}

#[test]
fn reads_accesses_and_checks_are_not_denied() {
    let by = |file: File| file.seated(&NOTHING).acts(5);
    for register in (0..=252).step_by(4) {
        for (bus, device, crossings) in [(0, 0, 0), (1, 0, 1), (2, 7, 2)] {
            for file in mixes(&open(0)) {
                let read = file.clone().get(bus, device, register).last();
                assert!(read.starts_with(&format!("data {crossings} ")));
                assert_eq!(by(file).get(bus, device, register).last(), read);
            }
        }
    }
    for direction in [0, 1] {
        let owner = "owner 2 4 1 0000000000000234";
        denied(open(0), File::empty().memory(255, direction, 0x8000_1234), owner);
        let owner = "owner 4 4 2 0000000000000003";
        denied(open(0), File::empty().io(5, direction, 0x8013), owner);
        denied(open(0), File::empty().memory(4, direction, 0x1000_0010), "host 2 0000000000000010");
    }
    denied(open(0), File::empty().check(), "pass");
    let file = by(open(0).put(1, 0, 4, 3)).memory(4, 0, 0x1000_0010);
    goes(file, "unclaimed 0 2 abort", &[(4, B13, 0)]);
    let clash = by(rack().put(0, 1, 0x18, 0x0004_0200)).check();
    goes(clash, "fault 255 config 0000000000000002 255 0 1", &[]);
    denied(rack(), File::empty().memory(4, 1, 0), "silent");
}

#[test]
fn who_acts_lasts_until_the_next_seat_event() {
    let write = |file: File| file.put(0, 0, 4, 7).put(0, 0, 0x3C, 5);
    let file = one_of_each_below(13).seated(&[(1, 0, 2), (2, 0, 0x8000), (3, 1, 0xFFFF)]);
    // Seat 0 at first, then over to each, to itself, and back.
    let acting = [None, Some(1), Some(2), Some(2), Some(3), Some(0), Some(1), Some(0), Some(0)];
    let (mut file, mut expected) = (file, Vec::new());
    for seat in acting {
        if let Some(seat) = seat {
            file = file.acts(seat);
            expected.push(format!("seat {seat}"));
        }
        // Other events between do not change who acts.
        file = write(file.check().get(0, 0, 0).memory(255, 1, 0x8000_0000).special(0));
        expected.extend(["pass", "data 0 00101234", "unclaimed 0 255 abort"].map(String::from));
        expected.push("special 0 255".to_string());
        expected.extend(
            match seat.unwrap_or(0) {
                0 => ["stored 0", "stored 0"],
                1 => ["stored 0", "denied 0"],
                2 => ["denied 0", "stored 0"],
                _ => ["denied 0", "denied 0"],
            }
            .map(String::from),
        );
    }
    assert_eq!(file.lines(), expected);
    // A seat event changes no register.
    let file = open(0x20).get(2, 9, 0).seated(&[(1, 0, 2)]);
    assert_eq!(file.clone().acts(1).acts(0).acts(1).machine(), file.machine());
}

#[test]
fn seat_0_needs_no_record() {
    assert_eq!(File::new().acts(0).output(), "1 seat 0\n");
    let file = one_of_each_below(2).acts(0).put(0, 0, 4, 7).acts(0);
    assert_eq!(file.output(), "1 seat 0\n2 stored 0\n3 seat 0\n");
}

/// Seat 15 of a full rack, with a record for each of its 96 nodes.
#[test]
fn a_full_rack() {
    for kinds in EDITIONS {
        let full = File::full(kinds, [(2, 12), (0, 0), (0, 0)]);
        let grants = (1..=15).flat_map(|seat| (0..96).map(move |node| (seat, node, 1 << seat)));
        let file = full.seated(&grants.collect::<Vec<_>>()).acts(15);
        let file = file.put(0, 0, 4, 7).put(0, 15, 0x3C, 7).acts(1).put(0, 0, 4, 7);
        assert_eq!(file.tail(4), ["denied 0", "stored 0", "seat 1", "stored 0"]);
    }
}

/// Rack records of seats that never act change no line; nor do those of seat 0 acting.
#[test]
fn without_seats_as_before() {
    let mut random = Random(51);
    for _ in 0..300 {
        let file = random_rack(&mut random).check();
        let nodes = file.rack().nodes.len() as u8;
        let grants: Vec<_> = (0..nodes).map(|node| (1 + node % 15, node, 0)).collect();
        let seated = file.seated(&grants);
        assert_eq!(seated.output(), file.output());
        assert_eq!(seated.images(), file.images());
        assert_eq!(file.rack().grants, Default::default());
        let (records, events) = seated.0.split_at(seated.records_length());
        let acting = File(records.to_vec()).acts(0).raw(events);
        assert_eq!(acting.lines()[1..], file.lines());
    }
}

/// A random event: mostly writes, to buses 0 to 4.
fn random_event(random: &mut Random, devices: &[u8]) -> Event {
    let (bus, device) = (random.pick(&[0, 0, 1, 2, 3, 4]), random.pick(devices));
    let (device_function, register) = (device << 3, random.byte() & 0x7C);
    let (initiator, direction) = (255, random.below(2) as u8);
    match random.below(8) {
        0 => Event::ConfigRead { bus, device_function, register },
        1 => Event::Memory { initiator, direction, address: random.next() >> random.below(64) },
        2 => Event::Io { initiator, direction, address: random.next() as u32 & 0xFFFF },
        3 => Event::Check,
        _ => {
            let (enables, data) = (random.below(16) as u8, random.next() as u32);
            Event::ConfigWrite { bus, device_function, register, enables, data }
        }
    }
}

/// Runs an event by a seat and says whether it was denied: it ends as by seat 0 with the same
/// registers, unless seat 0 would have stored its data; then nothing changes.
fn as_seat_0_or_denied(machine: &mut Machine, seat: u8, event: &Event) -> Answer {
    let (before, mut by_0) = (machine.clone(), machine.clone());
    let expected = run_event(&mut by_0, 0, event);
    let answer = run_event(machine, seat, event);
    match (answer, expected) {
        (Answer::Denied { crossings }, Answer::Stored { crossings: as_0 }) => {
            assert_eq!((crossings, &*machine), (as_0, &before), "{event:?}");
        }
        _ => assert_eq!((answer, &*machine), (expected, &by_0), "{event:?}"),
    }
    answer
}

/// Whether a seat may reset a node: a bridge above it has the control register, dword 15, among
/// the seat's grants.
fn may_reset(machine: &Machine, seat: u8, node: u8) -> bool {
    let grants = &machine.rack().grants;
    let mut above = bridges_above(machine.rack(), node).into_iter();
    above.any(|bridge| grants.mask(seat, bridge).unwrap_or(0) >> 15 == 1)
}

/// "After any list of events by one seat other than 0, a register outside its grants differs
/// at most in status bits." Below a bridge whose control register the seat may write it "has,
/// status bits aside, its old value or its reset value".
#[test]
fn registers_outside_the_grants() {
    let mut random = Random(52);
    // Endings by crossings, registers that differ and those that went back to reset.
    let (mut stored, mut denied, mut differ, mut reset) = ([0; 9], [0; 9], 0, 0);
    for _ in 0..3_000 {
        let file = random_rack(&mut random);
        let (mut rack, images) = (file.rack(), random_images(&mut random, &file));
        let seat = 1 + random.below(15) as u8;
        for node in 0..rack.nodes.len() {
            let mask = random.next() as u16 & random.pick(&[0, 0xFFFF]) | random.pick(&[0, 0x40]);
            rack.grants.take(rack.nodes.len(), Grant { seat, node: node as u8, mask });
        }
        let devices: Vec<u8> = rack.nodes.iter().map(|node| node.device).collect();
        let before = Machine::with_images(rack, &images.0, &images.1).unwrap();
        let mut machine = before.clone();
        for _ in 0..random.below(40) {
            let event = random_event(&mut random, &devices);
            match as_seat_0_or_denied(&mut machine, seat, &event) {
                Answer::Stored { crossings } => stored[crossings] += 1,
                Answer::Denied { crossings } => denied[crossings] += 1,
                _ => {}
            }
        }
        for (node, record) in before.rack().numbered() {
            let mask = before.rack().grants.mask(seat, node).unwrap();
            let (bits, may_reset) = (masks(record), may_reset(&before, seat, node));
            for at in (0..64).step_by(4) {
                let (old, new) = (u32_at(before.part(node), at), u32_at(machine.part(node), at));
                let granted = mask >> (at / 4) & 1 == 1;
                let written = if granted { u32_at(&bits.write, at) } else { 0 };
                let may = u32_at(&bits.clear, at) | written;
                let same = |value: u32| (new ^ value) & !may == 0;
                assert!(same(old) || may_reset && same(u32_at(&bits.reset, at)), "{node} {at:X}");
                differ += u32::from(new != old);
                reset += u32::from(!same(old));
            }
        }
    }
    println!("stored: {stored:?}, denied: {denied:?}, differ: {differ}, reset: {reset}");
    let enough = stored[..3].iter().chain(&denied[..3]).all(|count| *count >= 10);
    assert!(enough && differ >= 500 && reset >= 20, "{stored:?} {denied:?} {differ} {reset}");
}
