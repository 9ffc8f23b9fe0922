//! Secondary bus reset (E5): what bit 6 of bridge control does to everything below the bridge, and
//! what held nodes do no more.

use crate::build::{
    bridges_above, device, held_nodes, hex, older, output, status, File, Random, EDITIONS,
    NO_REGIONS,
};
use crate::check::random_rack;
use crate::routes::{goes, mixes, open, rack, twice_carried, B11, B12, B13};
use crate::special::random_images;
use rackcheck::answer::{Answer, Fault};
use rackcheck::claims::{bridges_on, bus_claims, claimants, claims, config_claimants};
use rackcheck::machine::Machine;
use rackcheck::program::{run_check, run_event};
use rackcheck::rack::{Event, Rack, HOST};
use rackcheck::registers::{self, masks};
use rackcheck::windows::Address;

/// Bit 6 of bridge control, in register 3Ch.
pub const BIT_6: u32 = 0x40_0000;

/// Writes these bits of bridge control of a bridge at a bus and device number, and nothing else.
pub fn control(file: File, (bus, device): (u8, u8), bits: u32) -> File {
    file.put_bytes(bus, device, 0x3C, 0b0100, bits << 16)
}

/// Bus and device number of bridges 0 to 3 of [`rack`].
const B: [(u8, u8); 4] = [(0, 0), (0, 1), (1, 0), (3, 0)];

/// The rack of [`open`], with these control bits, in which that bridge then resets its bus.
fn reset(bridge: usize, bits: u32) -> File {
    control(open(bits), B[bridge], bits | 0x40)
}

/// Whether a node has the registers of reset.
fn at_reset(machine: &Machine, node: u8) -> bool {
    machine.part(node) == masks(machine.rack().node(node).unwrap()).reset
}

/// The nodes that are held.
fn held(machine: &Machine) -> Vec<u8> {
    let all = machine.rack().numbered().map(|(number, _)| number);
    all.filter(|number| machine.held(*number)).collect()
}

#[test]
fn a_run_by_hand() {
    // Bridge 0 (device number 1) and below it device 1 (device number 2).
    let rack = "01 0100000000000000 0000000000000000 02 FF 01 34 12 10 00 \
                03 00 02 78 56 20 00 02 0C 00 00 00 00";
    let events = "04 00 08 18 0F 00010100  04 01 10 04 0F 07000000  05 01 10 04 \
                  04 00 08 3C 04 00004000  05 01 10 04  04 01 FF 00 0F 00000000 \
                  06 01 00 0000000000000000  08  05 00 08 1C  05 00 08 3C \
                  04 00 08 3C 04 00000000  05 01 10 04  06 01 00 0000000000000000";
    let expected = [
        "1 stored 0",
        "2 stored 1",
        "3 data 1 00000007",
        "4 stored 0",
        "5 unclaimed 1 0 done",
        "6 special 1 0",
        "7 silent",
        "8 pass",
        "9 data 0 20000101",
        "10 data 0 00400000",
        "11 stored 0",
        "12 data 1 00000000",
        "13 silent",
    ];
    assert_eq!(output(&hex(&[rack, events].concat())), expected.join("\n") + "\n");
}

/// A class resets a branch, sees everything below silent, and sets it up again.
#[test]
fn a_branch_is_reset_and_set_up_again() {
    let down = |file: File| file.memory(255, 0, 0x8000_1234).memory(4, 0, 0x1000_0010);
    let working = ["owner 2 4 1 0000000000000234", "host 2 0000000000000010"];
    for file in mixes(&open(0)) {
        assert_eq!(down(file.clone()).tail(2), working);
        let file = control(file, B[0], 0x40);
        assert_eq!(down(file.clone()).tail(2), ["unclaimed 1 0 done", "silent"]);
        assert_eq!(file.clone().check().last(), "pass");
        let file = control(file, B[0], 0);
        // Bridge 2 and device 4 are free, but at reset: bus 2 has to be numbered again.
        assert_eq!(file.clone().get(1, 0, 0x18).last(), "data 1 00000000");
        assert_eq!(file.clone().get(2, 7, 0x18).last(), "unclaimed 1 0 done");
        let file = file
            .put(1, 0, 0x18, 0x0002_0201)
            .put(1, 0, 0x20, 0x8000_8000)
            .put(1, 0, 0x24, 0x0000_FFF0)
            .put(1, 0, 0x04, 7)
            .put(2, 7, 0x18, 0x8000_1000)
            .put(2, 7, 4, 7);
        assert_eq!(file.tail(3), ["stored 1", "stored 2", "stored 2"]);
        assert_eq!(down(file.clone()).tail(2), working);
        assert_eq!(file.check().last(), "pass");
    }
}

/// A chain of 32 bridges, of which bridge n holds bus n + 1, with two devices on each of these
/// buses. No register that can be off reset is at reset, and all have a status bit.
fn chain(kinds: [u8; 2]) -> Machine {
    let kind = |n: u8| kinds[usize::from(n % 2)];
    let file = (0..32).fold(File::new(), |file, n| file.bridge_of(kind(n), n.wrapping_sub(1), 0));
    let file = (0..64).fold(file, |file, n| file.device(n / 2, 1 + n % 2, [(2, 12); 3]));
    let number = |file: File, bus: u8| file.put(bus, 0, 0x18, (0x2001 + u32::from(bus)) << 8);
    let file = (0..32).fold(file, number);
    let file = (1..=32).fold(file, |file, bus| file.put(bus, 1, 4, 4).put(bus, 2, 4, 4));
    let file = (32..96).fold(file, |file, device| file.memory(device, 0, u64::MAX));
    (1..=32).fold(file, |file, bus| file.get(bus, 9, 0)).machine()
}

/// A configuration write of bits of bridge control.
fn control_write(bus: u8, device: u8, bits: u32) -> Event {
    let (device_function, register) = (device << 3, 0x3C);
    Event::ConfigWrite { bus, device_function, register, enables: 4, data: bits << 16 }
}

#[test]
fn at_every_depth() {
    for kinds in EDITIONS {
        let before = chain(kinds);
        assert!((0..96).all(|node| !at_reset(&before, node) && status(&before, node) != (0, 0)));
        for bridge in 0..32u8 {
            let is_below =
                |node: u8| if node < 32 { node > bridge } else { (node - 32) / 2 >= bridge };
            let mut machine = before.clone();
            let answer = run_event(&mut machine, 0, &control_write(bridge, 0, 0x40));
            assert_eq!(answer, Answer::Stored { crossings: bridge.into() });
            for node in 0..96 {
                assert_eq!(machine.held(node), is_below(node));
                let mut part = before.part(node).to_vec();
                part[0x3E] |= if node == bridge { 0x40 } else { 0 };
                match is_below(node) {
                    true => assert!(at_reset(&machine, node)),
                    false => assert_eq!(machine.part(node), part),
                }
            }
            for bus in (0..32).chain([HOST]) {
                assert_eq!(machine.bus_held(bus), bus != HOST && bus >= bridge);
            }
            found_nobody_below(&machine, bridge);
            // Clearing the bit lets all of them go, as they are.
            let held = machine.clone();
            run_event(&mut machine, 0, &control_write(bridge, 0, 0));
            assert!((0..96).all(|node| !machine.held(node)));
            let others = |machine: &Machine, node| machine.part(node).to_vec();
            assert!((0..96).all(|n| n == bridge || others(&machine, n) == others(&held, n)));
            assert_eq!(machine.part(bridge), before.part(bridge));
        }
    }
}

/// What the bus of that bridge of a [`chain`] still answers, while the bridge resets it.
fn found_nobody_below(machine: &Machine, bridge: u8) {
    let crossings = bridge + 1;
    let run = |event: Event| run_event(&mut machine.clone(), 0, &event).to_string();
    let unclaimed = format!("unclaimed {crossings} {bridge} done");
    let bus = bridge + 1;
    for device in 0..32u8 {
        let device_function = device << 3;
        assert_eq!(run(Event::ConfigRead { bus, device_function, register: 0 }), unclaimed);
    }
    let special = |bus| {
        let (device_function, register) = (0xFF, 0);
        run(Event::ConfigWrite { bus, device_function, register, enables: 15, data: 0 })
    };
    assert_eq!(special(bus), format!("special {crossings} {bridge}"));
    if bridge < 31 {
        assert_eq!(special(bus + 1), unclaimed);
        assert_eq!(run(Event::ConfigRead { bus: 32, device_function: 8, register: 0 }), unclaimed);
    }
    for initiator in 32..96u8 {
        let parent = (initiator - 32) / 2;
        let expected = if parent >= bridge {
            "silent".to_string()
        } else {
            format!("unclaimed 0 {parent} abort")
        };
        assert_eq!(run(Event::Memory { initiator, direction: 0, address: 9 }), expected);
        assert_eq!(run(Event::Io { initiator, direction: 1, address: 9 }), expected);
    }
}

/// Bits 6 above and below each other, set and cleared in both orders.
#[test]
fn nested() {
    for file in mixes(&open(0)) {
        // Bridge 2 first: it holds device 4 alone.
        let inner = control(file.clone(), B[2], 0x40);
        assert_eq!(held(&inner.machine()), [4]);
        assert!(at_reset(&inner.machine(), 4) && !at_reset(&inner.machine(), 2));
        // Then bridge 0: the bit of bridge 2 is gone with its other registers.
        let both = control(inner, B[0], 0x40);
        assert_eq!(held(&both.machine()), [2, 4]);
        assert!(at_reset(&both.machine(), 2) && !both.machine().resets(2));
        // Nothing arrives at bridge 2 now, neither a set nor a clear.
        for bits in [0x40, 0] {
            let again = control(both.clone(), B[2], bits);
            assert_eq!(again.last(), "unclaimed 1 0 done");
            assert!(at_reset(&again.machine(), 2));
        }
        // Bridge 0 lets both go: bridge 2 holds nothing any more.
        let free = control(both, B[0], 0);
        assert_eq!(held(&free.machine()), []);
        let set_up = free.put(1, 0, 0x18, 0x0002_0201).get(2, 7, 0);
        assert_eq!(set_up.last(), "data 2 00205678");
        // Both branches at once, and one let go.
        let two = control(control(file, B[2], 0x40), B[1], 0x40);
        assert_eq!(held(&two.machine()), [3, 4, 5]);
        assert_eq!(held(&control(two.clone(), B[1], 0).machine()), [4]);
        assert_eq!(held(&control(two, B[2], 0).machine()), [3, 5]);
    }
}

/// "The effect follows the value after the write": byte 3Eh has to be enabled, and bit 6 of the
/// data is all that counts; by an event and directly.
#[test]
fn byte_enables_and_data() {
    let before = open(0x20).machine();
    for enables in 0..16u8 {
        for data in [0, BIT_6, !BIT_6, u32::MAX, 0x4040_4040 ^ BIT_6] {
            let resets = enables & 4 != 0 && data & BIT_6 != 0;
            let mut direct = before.clone();
            direct.write(0, 0x3C, enables, data);
            let mut machine = before.clone();
            let (bus, device_function, register) = (0, 0, 0x3C);
            let event = Event::ConfigWrite { bus, device_function, register, enables, data };
            let answer = run_event(&mut machine, 0, &event);
            assert_eq!((answer, &machine), (Answer::Stored { crossings: 0 }, &direct));
            for node in 1..7 {
                match node {
                    2 | 4 if resets => assert!(at_reset(&machine, node)),
                    _ => assert_eq!(machine.part(node), before.part(node)),
                }
            }
            assert_eq!(held(&machine), if resets { vec![2, 4] } else { vec![] });
        }
    }
    // The other bits of the same write are taken too.
    let mut machine = before;
    machine.write(0, 0x3C, 15, u32::MAX);
    assert_eq!(machine.read(0, 0x3C), 0x007F_00FF);
    machine.write(0, 0x3C, 15, 0);
    assert_eq!(machine.read(0, 0x3C), 0);
}

/// No other register of a bridge, and none of a device, has such a bit.
#[test]
fn no_other_write_reaches_below() {
    let before = open(0).machine();
    for node in 0..7u8 {
        for register in (0..=252).step_by(4) {
            for data in [0, u32::MAX] {
                let mut machine = before.clone();
                machine.write(node, register, 15, data);
                let resets = node < 4 && register == 0x3C && data != 0;
                for other in (0..7).filter(|other| *other != node) {
                    let below = bridges_above(before.rack(), other).contains(&node);
                    let same = machine.part(other) == before.part(other);
                    assert_eq!(same, !(resets && below), "{node} {register:X} {other}");
                }
            }
        }
    }
}

#[test]
fn writing_1_over_1() {
    for file in mixes(&reset(0, 0)) {
        let machine = file.machine();
        // Once more; with other bits; and other registers of the bridge.
        assert_eq!(control(file.clone(), B[0], 0x40).machine(), machine);
        for (bits, register) in [(0x6F, 0x3C), (0x40, 0x18), (0x40, 0x04)] {
            let again = file.clone().put(0, 0, register, bits << 16 | 0x77).machine();
            assert_eq!(again.devices(), machine.devices());
            assert!((1..4).all(|node| again.part(node) == machine.part(node)));
            assert_eq!(held(&again), [2, 4]);
        }
        // A write that does not enable the byte leaves the bit, and so what is held.
        assert_eq!(held(&file.clone().put_bytes(0, 0, 0x3C, 0b1011, 0).machine()), [2, 4]);
        // Writing 0 over 0.
        let free = control(file, B[0], 0);
        assert_eq!(control(free.clone(), B[0], 0).machine(), free.machine());
    }
}

/// The bridge keeps all of its own registers, secondary status too.
#[test]
fn the_bridge_itself_is_not_reset() {
    let before = open(0x20).get(2, 9, 0).get(1, 9, 0);
    assert_eq!(status(&before.machine(), 0), (B11, B12 | B13));
    let after = control(before.clone(), B[0], 0x60).machine();
    let mut part = before.machine().part(0).to_vec();
    part[0x3E] |= 0x40;
    assert_eq!(after.part(0), part);
    // Those above and beside it stay too.
    let after = control(before.clone(), B[2], 0x60).machine();
    for node in [0, 1, 3, 5, 6] {
        assert_eq!(after.part(node), before.machine().part(node));
    }
}

/// "The bridge itself keeps claiming": down, from above and from beside, and up.
#[test]
fn the_bridge_keeps_claiming() {
    let taken = |bits| match bits {
        0 => ("unclaimed 1 0 done", vec![(0, 0, B13)]),
        _ => ("unclaimed 1 0 target", vec![(0, B11, B13)]),
    };
    for bits in [0, 0x20] {
        let (line, marks) = taken(bits);
        goes(reset(0, bits).memory(255, 0, 0x8000_1234), line, &marks);
        goes(reset(0, bits).io(255, 0, 0x8010), line, &marks);
        goes(reset(0, bits).io(255, 1, 0x8010), line, &marks);
        // "A memory write that crossed a bridge is done."
        goes(reset(0, bits).memory(255, 1, 0x8000_1234), "unclaimed 1 0 done", &[(0, 0, B13)]);
        let peer = if bits == 0 { vec![] } else { vec![(6, B12, 0)] };
        goes(reset(0, bits).memory(6, 0, 0x8000_1000), line, &[marks, peer].concat());
    }
    // From the other branch, up and down again.
    let marks = [(0, B11, B13), (1, B12, B11), (3, B12, B11), (5, B12, 0)];
    goes(reset(0, 0x20).memory(5, 0, 0x8000_1000), "unclaimed 3 0 target", &marks);
    // One bridge further down.
    let marks = [(0, B11, B12), (2, B11, B13)];
    goes(reset(2, 0x20).memory(255, 0, 0x8000_1000), "unclaimed 2 2 target", &marks);
    // It clashes as before.
    let file = open(0).put(0, 7, 0x18, 0x8000_1000);
    let line = "clash 0 255 0 6";
    goes(control(file.clone(), B[0], 0x40).memory(255, 0, 0x8000_1000), line, &[]);
    let fault = "fault 255 memory 0000000080001000 255 0 6";
    goes(control(file, B[0], 0x40).check(), fault, &[]);
    // On its secondary bus, where nobody is left to drive.
    let machine = reset(0, 0).machine();
    assert!(claims(&machine, 0, 0, Address::Memory(0x1000_0000)));
    assert!(!claims(&machine, 0, 0, Address::Memory(0x8000_1000)));
    assert!(claims(&machine, 255, 0, Address::Memory(0x8000_1000)));
}

#[test]
fn held_nodes_claim_nothing() {
    let machine = reset(0, 0).machine();
    assert_eq!(machine.free_agents(255), [255, 0, 1, 6]);
    assert_eq!(machine.free_agents(0), [0]);
    assert_eq!(machine.free_agents(2), []);
    assert_eq!(machine.free_agents(1), [1, 3]);
    for address in [0, 0x1000, 0x8000_1000, 0xFFFF_FFFF] {
        for address in [Address::Memory(address), Address::Io(address as u32)] {
            assert!(!claims(&machine, 0, 2, address));
            assert!(!claims(&machine, 2, 2, address));
            assert!(!claims(&machine, 2, 4, address));
            assert_eq!(claimants(&machine, 2, 254, address), []);
        }
    }
    assert!(bridges_on(&machine, 0).is_empty() && bus_claims(&machine, 2).is_empty());
    // At reset a bridge has bus numbers 0 to 0; free, it claims 0, held it does not.
    assert_eq!(config_claimants(&machine, 0, 0), []);
    let free = control(reset(0, 0), B[0], 0).machine();
    assert_eq!(config_claimants(&free, 0, 0), [2]);
    assert_eq!(free.free_agents(2), [2, 4]);
}

#[test]
fn configuration_finds_nobody() {
    for (bits, line, marks) in
        [(0, "unclaimed 1 0 done", (0, 0, B13)), (0x20, "unclaimed 1 0 target", (0, B11, B13))]
    {
        for device in 0..32 {
            // Bridge 2 is device 0 there; Type 0 finds neither it nor anybody else.
            goes(reset(0, bits).get(1, device, 0), line, &[marks]);
            goes(reset(0, bits).put(1, device, 4, 7), line, &[marks]);
        }
        goes(reset(0, bits).raw(&[5, 1, 1, 0]), line, &[marks]);
        // Type 1 for a deeper number has no taker there.
        goes(reset(0, bits).get(2, 7, 0), line, &[marks]);
        goes(reset(0, bits).put(2, 7, 4, 7), line, &[marks]);
    }
    // Below bridge 2 alone.
    goes(reset(2, 0).get(2, 7, 0), "unclaimed 2 2 done", &[(2, 0, B13)]);
    let marks = [(0, B11, B12), (2, B11, B13)];
    goes(reset(2, 0x20).get(2, 7, 0), "unclaimed 2 2 target", &marks);
    goes(reset(2, 0x20).get(1, 0, 0), "data 1 00101234", &[]);
    // Only the bit 5 of the bridge that resets counts.
    let file = control(control(open(0), B[0], 0x20), B[2], 0x40);
    goes(file.get(2, 7, 0), "unclaimed 2 2 done", &[(2, 0, B13)]);
    // The other branch is as ever.
    goes(reset(0, 0).get(4, 7, 0), "data 2 00205678", &[]);
    goes(reset(0, 0).get(0, 0, 0x3C), "data 0 00400000", &[]);
}

#[test]
fn special_cycles() {
    for bits in [0, 0x20] {
        for file in mixes(&reset(0, bits)) {
            for (bus, line) in [(0, "special 0 255"), (1, "special 1 0"), (4, "special 2 3")] {
                assert_eq!(file.clone().special(bus).last(), line);
                assert_eq!(file.clone().special(bus).machine(), file.machine());
            }
        }
        for file in mixes(&reset(2, bits)) {
            assert_eq!(file.clone().special(2).last(), "special 2 2");
            assert_eq!(file.clone().special(2).machine(), file.machine());
        }
    }
    // One that would have to go on ends where Type 1 does.
    goes(reset(0, 0).special(2), "unclaimed 1 0 done", &[(0, 0, B13)]);
    goes(reset(0, 0x20).special(2), "unclaimed 1 0 target", &[(0, B11, B13)]);
    // By a seat without grants too.
    let file = reset(0, 0).seated(&[(5, 0, 0)]).acts(5);
    goes(file.special(1), "special 1 0", &[]);
}

#[test]
fn held_initiators_are_silent() {
    for bits in [0, 0x20] {
        for (bridge, silent) in [(0, 4), (2, 4), (1, 5), (3, 5)] {
            for direction in [0, 1] {
                for address in [0, 0x1000_0010, 0x8000_1000, 0x9000_1000, 0xA000_0000] {
                    let file = reset(bridge, bits).memory(silent, direction, address);
                    goes(file, "silent", &[]);
                    let file = reset(bridge, bits).io(silent, direction, address as u32);
                    goes(file, "silent", &[]);
                }
            }
            // The devices that are not held, and the host, are not.
            goes(reset(bridge, bits).memory(6, 0, 0x1000_0010), "host 0 0000000000000010", &[]);
            let other = 9 - silent;
            goes(reset(bridge, bits).memory(other, 0, 0x1000_0010), "host 2 0000000000000010", &[]);
            let file = reset(bridge, bits).memory(255, 0, 0xA000_0000);
            goes(file, "owner 0 6 1 0000000000000000", &[]);
        }
    }
    // A bridge is no initiator, held or not.
    crate::refusals::refused(rack().memory(2, 0, 0), 13, rack().0.len());
    // Let go, the device is silent by its command bit until it is written.
    let file = control(reset(2, 0), B[2], 0);
    goes(file.clone().memory(4, 0, 0x1000_0010), "silent", &[]);
    goes(file.put(2, 7, 4, 4).memory(4, 0, 0x1000_0010), "host 2 0000000000000010", &[]);
}

#[test]
fn direct_writes_on_held_nodes() {
    for bridge in [0, 1] {
        for file in mixes(&reset(bridge, 0)) {
            let before = file.machine();
            for node in held(&before) {
                for register in (0..=252).step_by(4) {
                    for enables in [1, 4, 15] {
                        let mut machine = before.clone();
                        machine.write(node, register, enables, u32::MAX);
                        assert_eq!(machine, before);
                    }
                }
            }
        }
    }
    // Those on the bridge itself and on others are stored.
    let before = reset(0, 0).machine();
    for node in [0, 1, 3, 5, 6] {
        let mut machine = before.clone();
        machine.write(node, 0x0C, 1, 0x55);
        assert_eq!(machine.read(node, 0x0C) & 0xFF, 0x55);
    }
    // Once let go, they are stored there too; a bit 6 of bridge 2 then holds device 4.
    let mut machine = before;
    machine.write(2, 0x3C, 4, BIT_6);
    machine.write(0, 0x3C, 4, 0);
    assert_eq!(held(&machine), []);
    machine.write(4, 0x0C, 1, 0x55);
    assert!(!at_reset(&machine, 4));
    machine.write(2, 0x3C, 4, BIT_6);
    assert!(at_reset(&machine, 4) && held(&machine) == [4]);
}

#[test]
fn sizing_of_held_nodes() {
    let mut machine = reset(0, 0).machine();
    let before = machine.clone();
    let sizes = |machine: &mut Machine, node| [0, 1, 2].map(|region| machine.size(node, region));
    for node in [4, 5, 6] {
        assert_eq!(sizes(&mut machine, node), [0, 1 << 12, 1 << 4]);
    }
    assert_eq!(machine, before);
    for regions in [[(1, 2), (2, 4), (3, 4)], [(3, 31), (1, 8), (2, 31)]] {
        let file = File::new().older(255, 0).device(0, 1, regions);
        let mut machine = control(file, (0, 0), 0x40).machine();
        let before = machine.clone();
        assert!(machine.held(1));
        assert_eq!(sizes(&mut machine, 1), regions.map(|(_, e)| 1 << e));
        assert_eq!(machine, before);
    }
}

/// A denied write resets nothing and lets nothing go; a granted one needs no grant below.
#[test]
fn by_seats() {
    let grants = [(1, 0, 0x8000), (2, 0, 0x7FFF), (2, 2, 0xFFFF), (2, 4, 0xFFFF), (3, 2, 0x8000)];
    let file = || open(0).seated(&grants);
    let by = |seat: u8, bridge: usize, bits: u32| control(file().acts(seat), B[bridge], bits);
    for enables in 0..16 {
        let denied = file().acts(2).put_bytes(0, 0, 0x3C, enables, BIT_6);
        goes(denied.clone(), "denied 0", &[]);
        assert_eq!(denied.machine(), file().machine());
    }
    goes(by(1, 0, 0x40), "stored 0", &[]);
    assert_eq!(held(&by(1, 0, 0x40).machine()), [2, 4]);
    assert!(at_reset(&by(1, 0, 0x40).machine(), 4));
    goes(by(3, 2, 0x40), "stored 1", &[]);
    assert_eq!(held(&by(3, 2, 0x40).machine()), [4]);
    goes(by(3, 0, 0x40), "denied 0", &[]);
    goes(by(1, 2, 0x40), "denied 1", &[]);
    // What is held is not found, whoever may write it; the bit stays until it is cleared by one
    // that may.
    let held_by_1 = by(1, 0, 0x40);
    goes(held_by_1.clone().acts(2).put(1, 0, 4, 7), "unclaimed 1 0 done", &[(0, 0, B13)]);
    let denied = control(held_by_1.clone().acts(2), B[0], 0);
    assert_eq!((denied.last().as_str(), held(&denied.machine())), ("denied 0", vec![2, 4]));
    let cleared = control(held_by_1.acts(1), B[0], 0);
    assert_eq!((cleared.last().as_str(), held(&cleared.machine())), ("stored 0", vec![]));
}

/// Faults below a reset are gone, those beside it stay.
#[test]
fn the_check_beside_held_branches() {
    // Memory: bridge 0, device 1 and device 2 below it clash as in item 11; bridge 3 (command 4)
    // has the same below it.
    let regions = [(2, 12), (0, 0), (0, 0)];
    let branch = |file: File, bus: u8, device: u8| {
        let numbers = u32::from(bus) << 8 | u32::from(bus) << 16;
        file.put(0, device, 0x18, numbers)
            .put(0, device, 0x04, 4)
            .put(bus, 0, 0x10, 0x9000_0000)
            .put(bus, 0, 0x04, 2)
    };
    for [first, second] in EDITIONS {
        let file = File::new()
            .bridge_of(first, 255, 0)
            .device(0, 0, regions)
            .device(0, 1, NO_REGIONS)
            .bridge_of(second, 255, 1)
            .device(3, 0, regions)
            .device(3, 1, NO_REGIONS);
        let file = branch(branch(file, 1, 0), 2, 1);
        let faults =
            ["fault 0 memory 0000000090000000 2 0 1", "fault 3 memory 0000000090000000 5 3 4"];
        assert_eq!(file.clone().check().last(), faults[0]);
        let one = control(file.clone(), (0, 0), 0x40);
        assert_eq!(one.clone().check().last(), faults[1]);
        assert_eq!(control(file, (0, 1), 0x40).check().last(), faults[0]);
        let both = control(one, (0, 1), 0x40);
        assert_eq!(both.clone().check().last(), "pass");
        // Let go, the nodes are at reset.
        assert_eq!(control(both, (0, 0), 0).check().last(), "pass");
    }
    // Configuration, on the bus below.
    let fault = "fault 0 config 00000000000000F0 0 1 2";
    assert_eq!(twice_carried().check().last(), fault);
    assert_eq!(control(twice_carried(), (0, 0), 0x40).check().last(), "pass");
    // Bridges that reset claim bus numbers and addresses as before.
    let file = rack().put(0, 1, 0x18, 0x0004_0200);
    let file = control(control(file, B[0], 0x40), B[1], 0x40);
    goes(file.check(), "fault 255 config 0000000000000002 255 0 1", &[]);
    let file = open(0).put(0, 1, 0x20, 0x8000_8000);
    let file = control(control(file, B[0], 0x40), B[1], 0x40);
    goes(file.check(), "fault 255 memory 0000000080000000 255 0 1", &[]);
}

/// What a node says of itself while it is held: the registers of reset.
#[test]
fn reads_and_ends_of_held_nodes() {
    let machine = reset(0, 0).machine();
    let (rack, b, d) = (machine.rack(), machine.bridges(), machine.devices());
    let free = File(open(0).0[..open(0).records_length()].to_vec()).machine();
    for node in [2, 4] {
        assert_eq!(rackcheck::calls::view(rack, b, d, node), Ok(free.part(node)));
        for register in (0..=252).step_by(4) {
            let read = rackcheck::calls::register_read(rack, b, d, node, register);
            assert_eq!(read, Ok(free.read(node, register)));
        }
        for index in 0..3 {
            let ends = rackcheck::calls::ends(rack, b, d, node, index);
            assert_eq!(
                ends,
                rackcheck::calls::ends(rack, free.bridges(), free.devices(), node, index)
            );
        }
    }
}

#[test]
fn bridges_above_and_nodes_below() {
    let mut random = Random(80);
    for _ in 0..200 {
        let rack = random_rack(&mut random).rack();
        for (number, _) in rack.numbered() {
            let above: Vec<u8> = rack.bridges_above(number).collect();
            assert_eq!(above, bridges_above(&rack, number));
            let below = rack.numbered().map(|(n, _)| n);
            let below: Vec<u8> =
                below.filter(|n| bridges_above(&rack, *n).contains(&number)).collect();
            assert_eq!(rack.nodes_below(number), below);
        }
        assert_eq!(rack.bridges_above(255).count(), 0);
    }
    // A rack that is refused, with nodes that are their own parents or each other's.
    let nodes = vec![older(0, 0), older(2, 0), older(1, 0), device(2, 0, NO_REGIONS)];
    let rack = Rack { nodes, ..Rack::default() };
    assert_eq!(rack.bridges_above(3).collect::<Vec<_>>(), [2, 1]);
    assert_eq!(rack.bridges_above(0).count(), 0);
}

/// The same rack without the nodes that are held, and the number there of each node of it.
fn without_held(machine: &Machine) -> (Machine, Vec<Option<u8>>) {
    let rack = machine.rack();
    let held = held_nodes(rack, machine.bridges());
    let (mut left, mut numbers) = (Rack { nodes: Vec::new(), ..rack.clone() }, Vec::new());
    let (mut bridges, mut devices) = (Vec::new(), Vec::new());
    for (number, node) in rack.numbered() {
        if held[usize::from(number)] {
            numbers.push(None);
            continue;
        }
        numbers.push(Some(left.nodes.len() as u8));
        let parent =
            if node.parent == HOST { HOST } else { numbers[usize::from(node.parent)].unwrap() };
        left.nodes.push(rackcheck::rack::Node { parent, ..*node });
        let image = if node.is_bridge() { &mut bridges } else { &mut devices };
        image.extend(machine.part(number));
    }
    (Machine::with_images(left, &bridges, &devices).expect("not refused"), numbers)
}

/// An answer over the rack that [`without_held`] gives, with the numbers of the whole rack.
fn renumbered(answer: Answer, numbers: &[Option<u8>]) -> Answer {
    let of = |left: u8| {
        let place = numbers.iter().position(|number| *number == Some(left));
        place.map_or(left, |place| place as u8)
    };
    let two = |(a, b): (u8, u8)| (of(a), of(b));
    match answer {
        Answer::Owner { crossings, node, region, offset } => {
            Answer::Owner { crossings, node: of(node), region, offset }
        }
        Answer::Unclaimed { crossings, holder, how } => {
            Answer::Unclaimed { crossings, holder: of(holder), how }
        }
        Answer::Clash { crossings, holder, claimants } => {
            Answer::Clash { crossings, holder: of(holder), claimants: two(claimants) }
        }
        Answer::Special { crossings, holder } => Answer::Special { crossings, holder: of(holder) },
        Answer::Fault(Fault { holder, kind, value, driver, claimants }) => {
            let (holder, driver, claimants) = (of(holder), of(driver), two(claimants));
            Answer::Fault(Fault { holder, kind, value, driver, claimants })
        }
        other => other,
    }
}

fn random_event(random: &mut Random, rack: &Rack) -> Event {
    let (bus, device) = (random.below(6) as u8, random.pick(&rack.nodes).device);
    let (device_function, direction) = (device << 3, random.below(2) as u8);
    let devices = rack.numbered().filter(|(_, node)| !node.is_bridge());
    let initiators: Vec<u8> = devices.map(|(number, _)| number).chain([HOST]).collect();
    let initiator = random.pick(&initiators);
    let low = random.pick(&[0, 0x300, 0x3B0, 0x1000, 0x2400, 0xFC00, 0x4_0000, 0x12_0000]);
    let address = low + random.below(4);
    match random.below(10) {
        0 => Event::ConfigRead { bus, device_function, register: 0x18 },
        1 => Event::ConfigWrite { bus, device_function: 0xFF, register: 0, enables: 15, data: 0 },
        2 | 3 => Event::Memory { initiator, direction, address },
        4 | 5 => Event::Io { initiator, direction, address: address as u32 },
        6 => Event::Check,
        7 => control_write(bus, device, random.pick(&[0, 0x20, 0x40, 0x60])),
        _ => {
            let register = random.pick(&[4, 4, 0x10, 0x18, 0x1C, 0x20]);
            let data = random.pick(&[7, 7, 0x0005_0100, 0x00FF_0200, 0xF000, 0]);
            Event::ConfigWrite { bus, device_function, register, enables: 15, data }
        }
    }
}

/// A rack in which nodes are held answers every event as the same rack without them, and all
/// other nodes have the same registers after it.
#[test]
fn as_without_the_held_nodes() {
    let mut random = Random(81);
    // Endings while a node is held, by their words.
    let mut seen = std::collections::BTreeMap::new();
    for _ in 0..1_500 {
        let file = random_rack(&mut random);
        let (rack, (mut b, d)) = (file.rack(), random_images(&mut random, &file));
        for part in b.chunks_mut(64) {
            part[0x3E] |= if random.one_in(4) { 0x40 } else { 0 };
        }
        let (b, d) = crate::build::agreed(&rack, (b, d));
        let mut machine = Machine::with_images(rack, &b, &d).unwrap();
        for _ in 0..20 {
            let event = random_event(&mut random, machine.rack());
            let (mut left, numbers) = without_held(&machine);
            let some_held = numbers.contains(&None);
            let by_held = match &event {
                Event::Memory { initiator, .. } | Event::Io { initiator, .. } => {
                    *initiator != HOST && numbers[usize::from(*initiator)].is_none()
                }
                _ => false,
            };
            let before = machine.clone();
            let answer = run_event(&mut machine, 0, &event);
            if some_held {
                let line = answer.to_string();
                let word = line.split(' ').next().unwrap().to_string();
                *seen.entry(word).or_insert(0) += 1;
            }
            if by_held {
                assert_eq!((answer, &machine), (Answer::Silent, &before));
                continue;
            }
            let mut event = event;
            if let Event::Memory { initiator, .. } | Event::Io { initiator, .. } = &mut event {
                if *initiator != HOST {
                    *initiator = numbers[usize::from(*initiator)].unwrap();
                }
            }
            let expected = renumbered(run_event(&mut left, 0, &event), &numbers);
            assert_eq!(answer, expected, "{event:?}");
            for (number, there) in (0u8..).zip(&numbers) {
                match there {
                    Some(there) => assert_eq!(machine.part(number), left.part(*there)),
                    None => assert!(at_reset(&machine, number)),
                }
            }
        }
    }
    println!("while a node is held: {seen:?}");
    let words = ["clash", "data", "fault", "owner", "pass", "silent", "special", "stored"];
    for word in words.into_iter().chain(["host", "unclaimed"]) {
        assert!(seen.get(word).is_some_and(|count| *count >= 20), "{word}: {seen:?}");
    }
}

/// Direct writes in any order keep the agreement, and only those of bit 6 reach another part.
#[test]
fn random_direct_writes() {
    let mut random = Random(82);
    let (mut stored, mut held, mut reset) = (0, 0, 0);
    for _ in 0..600 {
        let file = random_rack(&mut random);
        let mut machine = file.machine();
        for _ in 0..30 {
            let node = random.below(machine.rack().nodes.len() as u64) as u8;
            let register = random.pick(&[4, 0x0C, 0x10, 0x18, 0x3C, 0x3C, 0x3C, 0x40]);
            let (enables, data) = (random.below(16) as u8, random.next() as u32);
            let before = machine.clone();
            machine.write(node, register, enables, data);
            if held_nodes(before.rack(), before.bridges())[usize::from(node)] {
                assert_eq!(machine, before);
                held += 1;
                continue;
            }
            stored += 1;
            // The write alone, then what is below put to reset where bit 6 is set.
            let record = *before.rack().node(node).unwrap();
            let mut images = (before.bridges().to_vec(), before.devices().to_vec());
            let part = registers::part_mut(before.rack(), &mut images.0, &mut images.1, node);
            registers::write(part, &masks(&record), register, enables, data);
            let written = images.clone();
            let images = crate::build::agreed(before.rack(), images);
            reset += u32::from(images != written);
            assert_eq!((machine.bridges(), machine.devices()), (&images.0[..], &images.1[..]));
            let sets = register == 0x3C && enables & 4 != 0 && data & BIT_6 != 0;
            assert!(images == written || sets && record.is_bridge());
        }
        let (left, numbers) = without_held(&machine);
        assert_eq!(run_check(&machine), renumbered(run_check(&left), &numbers));
    }
    println!("stored: {stored}, on held nodes: {held}, below reset: {reset}");
    assert!(stored >= 5_000 && held >= 500 && reset >= 200);
}
