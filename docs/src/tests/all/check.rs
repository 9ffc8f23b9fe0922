//! The check: its order, and brute force over every I/O address below 64 KiB and some above.

use std::time::{Duration, Instant};

use crate::build::{full_at_work, held_nodes, only, File, Random, EDITIONS, NO_REGIONS};
use rackcheck::answer::{Fault, Kind};
use rackcheck::check::{check, check_bus, fault_at, points};
use rackcheck::claims::{bus_claims, claimants};
use rackcheck::machine::Machine;
use rackcheck::windows::Address;

#[test]
fn order_of_buses_and_kinds() {
    // Two devices on the bus of bridge 0 and two on the root bus, all at reset places.
    let regions = [(2, 4), (1, 2), (0, 0)];
    let file = File::new()
        .bridge(255, 0)
        .device(0, 0, regions)
        .device(0, 1, regions)
        .device(255, 1, regions)
        .device(255, 2, regions)
        .put(0, 0, 0x18, 0x0001_0100)
        .put(1, 0, 4, 3)
        .put(1, 1, 4, 3);
    assert_eq!(file.clone().check().last(), "fault 0 memory 0000000000000000 0 1 2");
    let file = file.put(0, 1, 4, 1).put(0, 2, 4, 1);
    // I/O on the root bus comes before memory on a bridge's bus.
    assert_eq!(file.clone().check().last(), "fault 255 io 0000000000000000 255 3 4");
    let file = file.put(0, 1, 4, 3).put(0, 2, 4, 3);
    assert_eq!(file.check().last(), "fault 255 memory 0000000000000000 255 3 4");
}

#[test]
fn bus_numbers_that_never_arrive() {
    // Bridges 1 and 2 both claim bus 1, the secondary of the bridge above them.
    let file = File::new()
        .bridge(255, 0)
        .bridge(0, 0)
        .bridge(0, 1)
        .put(0, 0, 0x18, 0x0001_0100)
        .put(1, 0, 0x18, 0x0001_0100)
        .put(1, 1, 0x18, 0x0001_0000)
        .check();
    assert_eq!(file.last(), "fault 0 config 0000000000000001 0 1 2");
    // Bus number 0 is not tried: at reset all bridges hold it.
    assert_eq!(File::new().bridge(255, 0).bridge(255, 1).check().last(), "pass");
}

#[test]
fn first_driver() {
    // Host memory and device 1 clash; the host and device 0 are earlier drivers, but
    // with the host driving there is one claimant only.
    let file = File::host(0x5000, 0x5FFF)
        .device(255, 0, NO_REGIONS)
        .device(255, 1, only(2, 4))
        .put(0, 1, 0x10, 0x5FF0)
        .put(0, 1, 4, 2)
        .check();
    assert_eq!(file.last(), "fault 255 memory 0000000000005FF0 0 255 1");
    // With three claimants the first driver is the holder.
    let file = File::host(0x5000, 0x5FFF)
        .device(255, 0, only(2, 4))
        .device(255, 1, only(2, 4))
        .put(0, 0, 0x10, 0x5010)
        .put(0, 1, 0x10, 0x5010)
        .put(0, 0, 4, 2)
        .put(0, 1, 4, 2)
        .check();
    assert_eq!(file.last(), "fault 255 memory 0000000000005010 255 0 1");
}

#[test]
fn top_of_the_spaces() {
    let top = |kind, e| {
        File::new()
            .device(255, 0, only(kind, e))
            .device(255, 1, only(kind, e))
            .put(0, 0, 0x10, u32::MAX)
            .put(0, 1, 0x10, u32::MAX)
            .put(0, 0, 0x14, u32::MAX)
            .put(0, 1, 0x14, u32::MAX)
            .put(0, 0, 4, 3)
            .put(0, 1, 4, 3)
            .check()
            .last()
    };
    assert_eq!(top(3, 4), "fault 255 memory FFFFFFFFFFFFFFF0 255 0 1");
    assert_eq!(top(2, 4), "fault 255 memory 00000000FFFFFFF0 255 0 1");
    assert_eq!(top(1, 2), "fault 255 io 00000000FFFFFFFC 255 0 1");
    // Bridge 0's I/O window is everything, so that there is nothing outside it: no I/O
    // address above 2 to the 32 counts. Its memory windows are everything too.
    let file = File::new()
        .bridge(255, 0)
        .device(0, 0, only(1, 8))
        .device(0, 1, NO_REGIONS)
        .put(0, 0, 0x18, 0x0001_0100)
        .put(0, 0, 0x1C, 0xF000)
        .put(0, 0, 0x30, 0xFFFF_0000)
        .put(0, 0, 0x24, 0xFFF0_0000)
        .put(0, 0, 0x2C, u32::MAX)
        .put(0, 0, 4, 7)
        .put(1, 0, 0x10, u32::MAX)
        .put(1, 0, 4, 7);
    assert_eq!(file.clone().check().last(), "pass");
    // With ISA on, the region at FFFFFF00h is still inside; moved to a hole it clashes.
    let file = file.put(0, 0, 0x3C, 0x0004_0000);
    assert_eq!(file.clone().check().last(), "pass");
    let file = file.put(1, 0, 0x10, 0xF300);
    assert_eq!(file.check().last(), "fault 0 io 000000000000F300 2 0 1");
}

#[test]
fn a_check_changes_no_register() {
    let file = random_rack(&mut Random(5));
    assert_eq!(file.clone().check().check().machine(), file.machine());
}

/// 3 to 8 nodes, bridges of both kinds among them, with I/O ranges that often touch each
/// other. Now and then a bridge resets what is below it.
pub fn random_rack(random: &mut Random) -> File {
    let mut file = File::host(random.below(4) << 18, random.below(4) << 18 | 0xFFF);
    let (mut bridges, mut places, mut taken) = (vec![255u8], Vec::new(), Vec::new());
    let nodes = 3 + random.below(6) as u8;
    for node in 0..nodes {
        let parent = random.pick(&bridges);
        let device = random.below(16) as u8;
        if taken.contains(&(parent, device)) {
            return random_rack(random);
        }
        taken.push((parent, device));
        if random.below(5) < 2 {
            file = file.bridge_of(random.pick(&[2, 13]), parent, device);
            bridges.push(node);
            places.push((parent, device, true));
        } else {
            file = file.device(parent, device, random_regions(random));
            places.push((parent, device, false));
        }
    }
    random_registers(random, file, &places)
}

fn random_regions(random: &mut Random) -> [(u8, u8); 3] {
    [(); 3].map(|()| match random.below(3) {
        0 => (0, 0),
        1 => (1, 2 + random.below(7) as u8),
        _ => (2 + random.below(2) as u8, 4 + random.below(20) as u8),
    })
}

/// Registers are written through the numbers secondary = node + 1, subordinate 255 in a
/// chain that is set up node by node and so never clashes: each bridge is numbered,
/// all below it is written, then it is closed by secondary 255, subordinate 0.
fn random_registers(random: &mut Random, file: File, places: &[(u8, u8, bool)]) -> File {
    write_bus(random, file, places, 255, 0)
}

fn write_bus(
    random: &mut Random,
    mut file: File,
    places: &[(u8, u8, bool)],
    bus: u8,
    number: u8,
) -> File {
    for (node, (parent, device, is_bridge)) in (0u8..).zip(places) {
        if *parent != bus {
            continue;
        }
        let command = random.pick(&[7, 7, 7, 3, 1, 2, 4, 5, 6, 0]);
        if *is_bridge {
            let secondary = node + 1;
            file = file.put(number, *device, 0x18, u32::from(secondary) << 8 | 0x00FF_0000);
            file = write_bus(random, file, places, node, secondary);
            let flags = random.below(8) as u32 | if random.one_in(12) { 0x10 } else { 0 };
            file = file
                .put(number, *device, 0x18, 0x0000_FF00)
                .put(
                    number,
                    *device,
                    0x1C,
                    random.pick(&[0xF000, 0x1000, 0x2010, 0x0000, 0x00F0, 0x3020]),
                )
                .put(number, *device, 0x30, if random.one_in(4) { 0x0001_0000 } else { 0 })
                .put(number, *device, 0x20, random.pick(&[0x0010_0000, 0x0000_0010, 0x0020_0010]))
                .put(number, *device, 0x24, random.pick(&[0x0000_0010, 0x0030_0020]))
                .put(number, *device, 0x3C, flags << 18);
        } else {
            for register in [0x10, 0x18, 0x20] {
                let low = random.pick(&[0x300, 0x3B0, 0x3C0, 0x0, 0x2FC, 0x100, 0x380]);
                let high = random.pick(&[0, 0x400, 0xFC00, 0x1000, 0x2400, 0x3C00]);
                file = file.put(number, *device, register, low + high);
            }
        }
        file = file.put(number, *device, 4, command);
    }
    file
}

/// Beyond the first 64 KiB, so that what ends there is met.
const TRIED: u32 = 0x1_1000;

/// The first fault of a bus below [`TRIED`], by trying every address with every driver that is
/// not held.
fn brute_force(machine: &Machine, bus: u8) -> Option<Fault> {
    let held = held_nodes(machine.rack(), machine.bridges());
    let mut agents = machine.rack().agents(bus);
    agents.retain(|agent| *agent == 255 || !held[usize::from(*agent)]);
    for value in 0..TRIED {
        for driver in &agents {
            if let [a, b, ..] = *claimants(machine, bus, *driver, Address::Io(value)).as_slice() {
                let claimants = (a, b);
                return Some(Fault {
                    holder: bus,
                    kind: Kind::Io,
                    value: u64::from(value),
                    driver: *driver,
                    claimants,
                });
            }
        }
    }
    None
}

#[test]
fn brute_force_io() {
    let mut random = Random(1);
    let (mut zero, mut inside, mut none) = (0, 0, 0);
    for _ in 0..200 {
        let machine = random_rack(&mut random).machine();
        for bus in machine.rack().buses() {
            let by_points =
                check_bus(&machine, bus, Kind::Io).filter(|fault| fault.value < TRIED.into());
            let by_force = brute_force(&machine, bus);
            assert_eq!(by_points, by_force);
            match by_force.map(|fault| fault.value) {
                Some(0) => zero += 1,
                Some(_) => inside += 1,
                None => none += 1,
            }
        }
    }
    println!("faults at 0: {zero}, above: {inside}, none: {none}");
    assert!(zero >= 5 && inside >= 20 && none >= 50, "{zero} {inside} {none}");
}

/// Claims do not change between neighbouring points: each address below [`TRIED`] has the
/// claimants of the point at or below it.
#[test]
fn claims_are_constant_between_points() {
    let mut random = Random(2);
    for _ in 0..40 {
        let machine = random_rack(&mut random).machine();
        for bus in machine.rack().buses() {
            let points = points(&bus_claims(&machine, bus), Kind::Io);
            let mut known = Vec::new();
            for value in 0..TRIED {
                let here = claimants(&machine, bus, 254, Address::Io(value));
                if points.binary_search(&u64::from(value)).is_ok() {
                    known = here;
                } else {
                    assert_eq!(here, known, "bus {bus} address {value:X}");
                }
            }
        }
    }
}

/// Memory, at random addresses: none below the fault clashes, and those at points do not either.
#[test]
fn random_memory() {
    let mut random = Random(3);
    let mut faults = 0;
    for _ in 0..200 {
        let machine = random_rack(&mut random).machine();
        for bus in machine.rack().buses() {
            let fault = check_bus(&machine, bus, Kind::Memory);
            faults += u32::from(fault.is_some());
            let claims = bus_claims(&machine, bus);
            let end = fault.map_or(1 << 33, |fault| fault.value);
            if let Some(fault) = fault {
                let all = claimants(&machine, bus, fault.driver, Address::Memory(fault.value));
                assert_eq!((all[0], all[1]), fault.claimants);
            }
            for _ in 0..200 {
                let bits = random.below(34);
                let address = random.next() & ((1 << bits) - 1);
                if address < end {
                    assert_eq!(fault_at(&claims, bus, Kind::Memory, address), None);
                }
            }
        }
    }
    assert!(faults >= 20, "{faults}");
}

#[test]
fn whole_check_is_the_first_bus_and_kind() {
    let mut random = Random(4);
    for _ in 0..100 {
        let machine = random_rack(&mut random).machine();
        let mut all = Vec::new();
        for bus in machine.rack().buses() {
            for kind in [Kind::Config, Kind::Memory, Kind::Io] {
                all.extend(check_bus(&machine, bus, kind));
            }
        }
        assert_eq!(check(&machine), all.first().copied());
    }
}

#[test]
fn full_rack_is_quick() {
    for kinds in EDITIONS {
        println!("{kinds:?}, all points tried: {:?}", passes_quickly(&full_and_quiet(kinds)));
    }
    println!("full rack at work: {:?}", passes_quickly(&full_at_work()));
}

/// 32 bridges and 64 devices, ISA and VGA on in all bridges, no clash anywhere: the
/// check has to try everything.
fn full_and_quiet(kinds: [u8; 2]) -> Machine {
    let mut machine = File::full(kinds, [(1, 8), (2, 12), (3, 31)]).machine();
    for bridge in 0..32u8 {
        let window = u32::from(bridge % 16) << 4;
        machine.write(bridge, 0x1C, 15, window | window << 8);
        machine.write(bridge, 0x20, 15, 0x8000_8000 + u32::from(bridge) * 0x10_0010);
        machine.write(bridge, 0x24, 15, 0x0000_FFF0);
        machine.write(bridge, 0x3C, 15, 0x000C_0000);
    }
    // Two bridges with VGA on one bus would clash, so that one on the root bus claims
    // down; the buses with devices (of bridges 1 to 4) have a holder that claims up.
    machine.write(5, 0x04, 15, 3);
    for bridge in 1..=4 {
        machine.write(bridge, 0x04, 15, 4);
    }
    for device in 32..96u8 {
        let place = u32::from(device);
        machine.write(device, 0x10, 15, 0x1_0000 + place * 0x100);
        machine.write(device, 0x18, 15, 0x9000_0000 + place * 0x1000);
        machine.write(device, 0x20, 15, place << 31);
        machine.write(device, 0x24, 15, place);
    }
    machine
}

/// The time of a check that passes: the best of five, so that a busy machine does not count.
fn passes_quickly(machine: &Machine) -> Duration {
    let times = [(); 5].map(|()| {
        let start = Instant::now();
        assert_eq!(check(machine), None);
        start.elapsed()
    });
    let took = times.into_iter().min().unwrap();
    assert!(took < Duration::from_millis(20), "{took:?}");
    took
}
