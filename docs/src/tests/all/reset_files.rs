//! Refusal 18 in files, and saved racks in which a bridge resets its bus.

use crate::build::{off_reset, File, Random, EDITIONS, NO_REGIONS};
use crate::refusals::{accepted, accepted_if, refused};
use crate::resets::control;
use crate::routes::{mixes, open};
use crate::saved::{content, random_content};
use rackcheck::machine::Machine;
use rackcheck::rack::Node;
use rackcheck::refuse;
use rackcheck::registers::{masks, Saved};
use rackcheck::saved;

/// Bridge 0 and below it bridge 1 and device 2; device 3 below bridge 1; bridge 4 and device 5 on
/// the root bus, device 6 below bridge 4.
fn rack(kinds: [u8; 2]) -> File {
    let regions = [(1, 4), (2, 12), (3, 20)];
    File::new()
        .bridge_of(kinds[0], 255, 0)
        .bridge_of(kinds[1], 0, 0)
        .device(0, 1, regions)
        .device(1, 0, regions)
        .bridge_of(kinds[1], 255, 1)
        .device(255, 2, regions)
        .device(4, 0, regions)
}

/// The nodes below bridges 0, 1 and 4.
const BELOW: [(u8, &[u8]); 3] = [(0, &[1, 2, 3]), (1, &[3]), (4, &[6])];

fn node_of(file: &File, node: u8) -> Node {
    file.rack().nodes[usize::from(node)]
}

/// The registers of a node at reset but for bit 6.
fn resets(file: &File, node: u8) -> [u8; 64] {
    let mut part = masks(&node_of(file, node)).reset;
    part[0x3E] = 0x40;
    part
}

/// The same with 0Ch off reset too.
fn resets_and_more(file: &File, node: u8) -> [u8; 64] {
    let mut part = off_reset(&node_of(file, node));
    part[0x3E] = 0x40;
    part
}

fn off(file: &File, node: u8) -> [u8; 64] {
    off_reset(&node_of(file, node))
}

#[test]
fn r18_at_the_lower_record() {
    for kinds in EDITIONS {
        let file = rack(kinds);
        let at = file.0.len();
        for (bridge, below) in BELOW {
            for part in [resets(&file, bridge), resets_and_more(&file, bridge)] {
                // Alone it agrees: all below is at reset without a record.
                let one = file.clone().saved(bridge, &part);
                accepted(one.clone());
                accepted(one.clone().check());
                for node in bridge + 1..7 {
                    let two = one.clone().saved(node, &off(&file, node));
                    accepted_if(!below.contains(&node), two.clone(), 18, at + 66);
                    // Whatever stands behind it.
                    if below.contains(&node) {
                        refused(two.clone().saved(0, &[0; 64]), 18, at + 66);
                        refused(two.raw(&[0]), 18, at + 66);
                    }
                }
            }
        }
        // Without the bit every record is right.
        let all = (0..7).fold(file.clone(), |all, node| all.saved(node, &off(&file, node)));
        accepted(all);
        // A bit below a bit, and the first lower record of many.
        refused(file.clone().saved(0, &resets(&file, 0)).saved(1, &resets(&file, 1)), 18, at + 66);
        let one = file.clone().saved(0, &off(&file, 0)).saved(1, &resets(&file, 1));
        accepted(one.clone().saved(2, &off(&file, 2)));
        let all = (2..7).fold(one, |all, node| all.saved(node, &off(&file, node)));
        refused(all, 18, at + 3 * 66);
        // Others between them.
        let one = file.clone().saved(0, &resets(&file, 0)).saved(4, &off(&file, 4));
        accepted(one.saved(5, &off(&file, 5)).saved(6, &off(&file, 6)));
        let one = file.clone().saved(1, &resets(&file, 1)).saved(2, &off(&file, 2));
        refused(one.saved(3, &off(&file, 3)), 18, at + 2 * 66);
    }
}

/// Every bit of the lower record: 17 where it is fixed, 18 else, status bits too.
#[test]
fn r18_for_every_bit() {
    for kinds in EDITIONS {
        let file = rack(kinds);
        let at = file.0.len() + 66;
        let one = file.clone().saved(0, &resets(&file, 0));
        for node in [1, 2, 3] {
            let masks = masks(&node_of(&file, node));
            for bit in 0..512 {
                let changes = (masks.write[bit / 8] | masks.clear[bit / 8]) >> (bit % 8) & 1 == 1;
                let mut part = masks.reset;
                part[bit / 8] ^= 1 << (bit % 8);
                refused(one.clone().saved(node, &part), if changes { 18 } else { 17 }, at);
                // A fixed bit beside one that is not.
                part[0x0D] = 0xA5;
                refused(one.clone().saved(node, &part), if changes { 18 } else { 17 }, at);
            }
        }
    }
}

/// In one record 2, 3, 4, 5, 16 and 17 come before; the first faulty record decides.
#[test]
fn r18_in_its_order() {
    let file = rack([2, 13]);
    let at = file.0.len();
    let one = || file.clone().saved(0, &resets(&file, 0));
    let lower = off(&file, 2);
    refused(one().saved(2, &lower), 18, at + 66);
    refused(one().saved(2, &masks(&node_of(&file, 2)).reset), 17, at + 66);
    refused(one().saved(2, &[0xFF; 64]), 17, at + 66);
    refused(one().saved(7, &lower), 16, at + 66);
    refused(one().saved(0, &lower), 16, at + 66);
    // A record of node 3 that is right in itself makes that of node 2 one that is not above.
    let three = file.clone().saved(1, &resets(&file, 1)).saved(2, &lower);
    refused(three.clone().saved(2, &lower), 16, at + 2 * 66);
    refused(three.saved(3, &off(&file, 3)), 18, at + 2 * 66);
    // Behind an event it is 5, cut short 3; a host there is 4.
    refused(one().check().saved(2, &lower), 5, at + 67);
    refused(one().raw(&[11, 2]).raw(&lower[1..]), 3, at + 66);
    refused(one().raw(&File::new().0), 4, at + 66);
    refused(one().raw(&[12]), 2, at + 66);
    // Faults in front of it and behind it: 13, 15 and 17.
    refused(one().saved(2, &lower).get(0, 0, 1), 18, at + 66);
    refused(one().saved(2, &lower).acts(9), 18, at + 66);
    refused(one().get(0, 0, 1).saved(2, &lower), 13, at + 66);
    refused(file.clone().saved(0, &[0; 64]).saved(2, &lower), 17, at);
    refused(file.clone().seat(0, 0, 0).saved(0, &resets(&file, 0)).saved(2, &lower), 14, at);
    // 1 before all.
    refused(one().saved(2, &lower).raw(&[8; 65_536]), 1, 65_536);
    // Nothing runs.
    assert_eq!(one().saved(2, &lower).check().output(), format!("refused 18 at {}\n", at + 66));
}

/// A chain of 32 bridges with devices at each end of it: at every depth.
#[test]
fn r18_at_every_depth() {
    for kinds in EDITIONS {
        let kind = |n: u8| kinds[usize::from(n % 2)];
        let chain = |file: File, n: u8| file.bridge_of(kind(n), n.wrapping_sub(1), 0);
        let file = (0..32).fold(File::new(), chain).device(31, 0, NO_REGIONS);
        let file = file.device(255, 1, NO_REGIONS);
        let at = file.0.len() + 66;
        for bridge in 0..32 {
            let one = file.clone().saved(bridge, &resets(&file, bridge));
            accepted(one.clone().saved(33, &off(&file, 33)));
            for node in bridge + 1..33 {
                refused(one.clone().saved(node, &off(&file, node)), 18, at);
            }
        }
    }
}

/// The same of records in the library.
#[test]
fn r18_in_the_library() {
    let file = rack([13, 2]);
    let (rack, resets) = (file.rack(), Saved { node: 0, part: resets(&file, 0) });
    let record = |node: u8| Saved { node, part: off(&file, node) };
    assert_eq!(refuse::registers(&rack, &[resets], &record(3)), Some(18));
    assert_eq!(refuse::registers(&rack, &[resets], &record(5)), None);
    assert_eq!(refuse::registers(&rack, &[record(0)], &record(3)), None);
    assert_eq!(refuse::registers(&rack, &[resets], &Saved { node: 3, part: [0; 64] }), Some(17));
    let machine = |records: &[Saved]| Machine::with_registers(rack.clone(), records);
    assert_eq!(machine(&[resets, record(4), record(2)]), Err(16));
    assert_eq!(machine(&[resets, record(2)]), Err(18));
    assert!(machine(&[resets, record(4)]).unwrap().held(3));
}

/// Saved while a branch is held, a run goes on as if it had not been.
#[test]
fn saved_with_bit_6_set() {
    for run in mixes(&open(0x20)) {
        for (bridge, held) in [((0, 0), 4), ((1, 0), 4), ((0, 1), 5)] {
            let run = control(run.clone(), bridge, 0x60).get(2, 7, 0).memory(255, 1, 0x9000_0000);
            let saved = File(saved::file(&run.machine()));
            assert_eq!(saved.machine(), run.machine());
            assert_eq!(saved::file(&saved.machine()), saved.0);
            // The held nodes have no record, the bridge has one.
            let machine = run.machine();
            let records: Vec<u8> = saved.contents().registers.iter().map(|r| r.node).collect();
            let free: Vec<u8> = (0..7).filter(|node| !machine.held(*node)).collect();
            assert_eq!(records, free);
            let on = |file: File| {
                let file = file.memory(held, 0, 0).special(1).get(1, 0, 0).check();
                control(file, bridge, 0x20).get(1, 0, 0x3C).memory(held, 0, 0).check()
            };
            let (lines, after) = (on(run.clone()).tail(8), on(saved.clone()));
            assert_eq!((after.lines(), after.machine()), (lines, on(run).machine()));
            assert_eq!(after.lines()[0], "silent");
        }
    }
}

/// Saved racks with random registers: every one is read, and a record of a held node added to it
/// is 18.
#[test]
fn random_saved_racks() {
    let mut random = Random(83);
    let (mut some_held, mut broken) = (0, 0);
    for _ in 0..600 {
        let machine = random_content(&mut random);
        let file = File(saved::file(&machine));
        assert_eq!(content(&file.machine()), content(&machine));
        let contents = file.contents();
        let records = File(file.0[..contents.records].to_vec());
        let held = |node: &u8| machine.held(*node);
        some_held += u32::from((0..machine.rack().nodes.len() as u8).any(|node| held(&node)));
        for (number, node) in machine.rack().numbered().filter(|(number, _)| held(number)) {
            let mut all = records.clone();
            for record in contents.registers.iter().filter(|record| record.node < number) {
                all = all.saved(record.node, &record.part);
            }
            let at = all.0.len();
            all = all.saved(number, &off_reset(node));
            for record in contents.registers.iter().filter(|record| record.node > number) {
                all = all.saved(record.node, &record.part);
            }
            refused(all, 18, at);
            broken += 1;
        }
    }
    println!("with held nodes: {some_held}, records of held nodes: {broken}");
    assert!(some_held >= 50 && broken >= 100, "{some_held} {broken}");
}
