//! A saved rack has one form (E2): what the writer gives, round trips, racks that differ in one
//! bit, and runs that start from saved registers.

use crate::build::{
    agreed, bridge, device, event_length, full_at_work, hex, off_reset, older, output, File,
    Random, EDITIONS, NO_REGIONS,
};
use crate::check::random_rack;
use crate::script::decoded;
use rackcheck::calls;
use rackcheck::machine::Machine;
use rackcheck::program::Run;
use rackcheck::rack::{Event, Header, Node, Options, Rack, Region};
use rackcheck::refuse;
use rackcheck::registers::{self, masks};
use rackcheck::saved::{file, same_content, LONGEST};
use rackcheck::seats::{Grant, Grants};

/// A node's registers with random bits wherever a bit is not fixed; now and then few of them, or
/// those of reset.
pub fn random_part(random: &mut Random, node: &Node) -> Vec<u8> {
    let masks = masks(node);
    let few = random.below(4);
    let byte = |at: usize| {
        let bits = match few {
            0 => 0,
            1 if !random.one_in(16) => 0,
            _ => random.byte(),
        };
        masks.reset[at] ^ bits & (masks.write[at] | masks.clear[at])
    };
    (0..64).map(byte).collect()
}

fn random_region(random: &mut Random) -> Region {
    let (kind, exponent) = match random.below(4) {
        0 => (0, 0),
        1 => (1, 2 + random.below(7) as u8),
        kind => (kind as u8, 4 + random.below(28) as u8),
    };
    Region { kind, exponent }
}

fn random_node(random: &mut Random, parents: &[u8]) -> Node {
    let header = match random.below(4) {
        0 => Header::Bridge(Options::ALL),
        1 => Header::Bridge(Options::NONE),
        _ => Header::Device([(); 3].map(|()| random_region(random))),
    };
    Node {
        parent: random.pick(parents),
        device: random.below(16) as u8,
        vendor_id: random.next() as u16,
        device_id: random.next() as u16,
        header,
    }
}

/// A random rack of up to 12 nodes with random grants and registers, which agree below a bit 6.
pub fn random_content(random: &mut Random) -> Machine {
    let ends = [0, 1, 2, 0x8000_0000, u64::MAX, random.next()];
    let mut rack =
        Rack { host_first: random.pick(&ends), host_last: random.pick(&ends), ..Rack::default() };
    let mut parents = vec![255];
    for _ in 0..random.below(13) {
        let node = random_node(random, &parents);
        if refuse::node(&rack.nodes, &node).is_none() {
            if node.is_bridge() {
                parents.push(rack.nodes.len() as u8);
            }
            rack.nodes.push(node);
        }
    }
    let nodes = rack.nodes.len();
    for _ in 0..random.pick(&[0, 1, 5, 20]) * u64::from(nodes > 0) {
        let (seat, node) = (1 + random.below(15) as u8, random.below(nodes as u64) as u8);
        let mask = random.next() as u16;
        let mask = random.pick(&[0, 1, 0xFFFF, mask]);
        if rack.grants.mask(seat, node).is_none() {
            rack.grants.take(nodes, Grant { seat, node, mask });
        }
    }
    let (mut bridges, mut devices) = (Vec::new(), Vec::new());
    for node in &rack.nodes {
        let image = if node.is_bridge() { &mut bridges } else { &mut devices };
        image.extend(random_part(random, node));
    }
    let (bridges, devices) = agreed(&rack, (bridges, devices));
    Machine::with_images(rack, &bridges, &devices).expect("not refused")
}

/// The content, by means of the tests: the bytes of the decoded rack, in which what is no content
/// is EEh, its host without memory as 1 and 0, and both images.
pub fn content(machine: &Machine) -> (Vec<u8>, Vec<u8>, Vec<u8>) {
    let mut rack = machine.rack().clone();
    if rack.host_first > rack.host_last {
        (rack.host_first, rack.host_last) = (1, 0);
    }
    (decoded(&rack), machine.bridges().to_vec(), machine.devices().to_vec())
}

/// What a run of the file starts from.
fn machine_of(file: &[u8]) -> Machine {
    File(file.to_vec()).machine()
}

#[test]
fn a_file_by_hand() {
    // Bridge 0 off reset, older bridge 1 at reset, device 2 with a status bit; grants of seats 12
    // and 3, in another order.
    let bridge = "34121000 47010000 00000406 00000100 00000000 00000000 00010500 01010000 \
                  00000000 01000100 00000000 00000000 00000000 00000000 00000000 00000000";
    let device = "78562000 00000020 000000FF 00000000 01000000 00000000 00000000 00000000 \
                  04000000 00000000 00000000 00000000 00000000 00000000 00000000 00000000";
    let nodes = "02 FF 01 34 12 10 00  0D 00 02 34 12 10 00 \
                 03 FF 03 78 56 20 00 01 04 00 00 03 14";
    let seats = ["09 0C 00 02 00", "09 03 02 FF FF", "09 03 00 00 00"];
    let host = |first: &str, last: &str| ["01", first, last].concat();
    let registers = ["0B 00", bridge, "0B 02", device].concat();
    let none = host("0500000000000000", "0400000000000000");
    let given = hex(&[&none, nodes, &seats.concat(), &registers].concat());
    let written = [
        &host("0100000000000000", "0000000000000000"),
        nodes,
        seats[2],
        seats[1],
        seats[0],
        &registers,
    ];
    assert_eq!(file(&machine_of(&given)), hex(&written.concat()));
    // A host with one byte of memory, and one with all.
    for (first, last) in
        [("0500000000000000", "0500000000000000"), ("0000000000000000", "FFFFFFFFFFFFFFFF")]
    {
        let all = hex(&host(first, last));
        assert_eq!(file(&machine_of(&all)), all);
    }
}

#[test]
fn the_shortest_and_the_longest() {
    assert_eq!(LONGEST, 14_609);
    for (first, last) in [(1, 0), (0, 0), (u64::MAX, 0), (7, 6)] {
        let rack = File::host(first, last);
        let written = if first > last { File::new() } else { rack.clone() };
        assert_eq!(file(&rack.machine()), written.0);
    }
    for kinds in EDITIONS {
        let pairs = (1..=15).flat_map(|seat| (0..96).map(move |node| (seat, node, 1 << seat)));
        let pairs: Vec<_> = pairs.collect();
        let full = File::full(kinds, [(1, 4), (2, 12), (3, 20)]).seated(&pairs);
        let rack = full.rack();
        assert_eq!(file(&full.machine()), full.0);
        let longest = rack.numbered().fold(full, |file, (number, node)| {
            let part = off_reset(node);
            file.saved(number, &part)
        });
        assert_eq!(longest.0.len(), LONGEST);
        assert_eq!(file(&longest.machine()), longest.0);
        // A run of it, and the longest list of events behind it.
        let checks = longest.clone().raw(&vec![8; 65_536 - LONGEST]);
        assert_eq!(checks.contents().events.len(), 65_536 - LONGEST);
        crate::refusals::refused(checks.check(), 1, 65_536);
    }
    let machine = full_at_work();
    assert_eq!(file(&machine).len(), 17 + 32 * 7 + 64 * 13 + 96 * 66);
    assert_eq!(machine_of(&file(&machine)), machine);
}

/// "register records by node for exactly those nodes that differ from reset"
#[test]
fn exactly_those_that_differ() {
    let records = File::new()
        .device(255, 9, NO_REGIONS)
        .older(255, 1)
        .bridge(1, 0)
        .device(2, 3, [(1, 2), (0, 0), (3, 31)])
        .seat(4, 2, 9);
    let rack = records.rack();
    for set in 0..16u8 {
        let differ = |number: u8| set >> number & 1 == 1;
        let expected = rack.numbered().filter(|(number, _)| differ(*number));
        let expected = expected
            .fold(records.clone(), |file, (number, node)| file.saved(number, &off_reset(node)));
        let (mut bridges, mut devices) = registers::reset_images(&rack);
        for number in (0..4).filter(|number| differ(*number)) {
            registers::part_mut(&rack, &mut bridges, &mut devices, number)[0x0C] = 0x55;
        }
        let machine = Machine::with_images(rack.clone(), &bridges, &devices).unwrap();
        assert_eq!(file(&machine), expected.0);
        assert_eq!(machine_of(&expected.0), machine);
    }
}

/// Any one bit that is not fixed makes a record, status bits too.
#[test]
fn one_bit_off_reset() {
    for node in [bridge(255, 0), older(255, 0), device(255, 0, [(1, 8), (2, 4), (3, 31)])] {
        let rack = Rack { nodes: vec![node], ..Rack::default() };
        let masks = masks(&node);
        let reset = file(&Machine::at_reset(rack.clone()).unwrap());
        for bit in 0..512 {
            let mut part = masks.reset;
            part[bit / 8] ^= 1 << (bit % 8);
            let image = part.to_vec();
            let (b, d) = if node.is_bridge() { (image, Vec::new()) } else { (Vec::new(), image) };
            let machine = Machine::with_images(rack.clone(), &b, &d);
            match (masks.write[bit / 8] | masks.clear[bit / 8]) >> (bit % 8) & 1 {
                0 => assert_eq!(machine, Err(12)),
                _ => {
                    let saved = file(&machine.unwrap());
                    assert_eq!(saved, [&reset[..], &[11, 0], &part].concat());
                }
            }
        }
    }
    // What a run leaves there: a master abort marks the device alone.
    let run = File::new().device(255, 0, NO_REGIONS).device(255, 1, NO_REGIONS).put(0, 1, 4, 4);
    let saved = file(&run.memory(1, 0, 0).machine());
    let registers = File(saved).contents().registers;
    assert_eq!(registers.len(), 1);
    assert_eq!((registers[0].node, &registers[0].part[4..8]), (1, &[4, 0, 0, 0x20][..]));
}

/// "A rack read from the writer's file has the content of the rack it was given, and two racks
/// with equal content have the same file."
#[test]
fn round_trips_of_random_racks() {
    let mut random = Random(63);
    let (mut without_memory, mut lengths) = (0, Vec::new());
    for _ in 0..1_500 {
        let machine = random_content(&mut random);
        let saved = file(&machine);
        assert!(saved.len() <= LONGEST);
        let contents = rackcheck::file::read(&saved).expect("never refused");
        let read = Run::start(&contents).unwrap();
        assert_eq!(content(&read.machine), content(&machine));
        assert!(same_content(&read.machine, &machine));
        assert_eq!(file(&read.machine), saved);
        assert_eq!((read.seat, contents.events.len()), (0, 0));
        without_memory += u32::from(machine.rack().host_memory().is_none());
        lengths.push(saved.len());
        // The same content by other records: seats between the nodes and in another order, any
        // numbers of a host without memory.
        let other = machine_of(&shuffled(&mut random, &machine));
        assert_eq!(content(&other), content(&machine));
        assert!(same_content(&other, &machine));
        assert_eq!(file(&other), saved);
    }
    println!("without memory: {without_memory}, longest: {:?}", lengths.iter().max());
    assert!(without_memory >= 300 && lengths.iter().any(|length| *length > 800));
}

/// A file of the same content that the writer would not write, if there is another.
fn shuffled(random: &mut Random, machine: &Machine) -> Vec<u8> {
    let rack = machine.rack();
    let written = File(file(machine));
    let registers = written.0[written.contents().records..].to_vec();
    let (first, last) = rack.host_memory().unwrap_or_else(|| {
        let last = random.below(u64::MAX);
        (last + 1 + random.below(u64::MAX - last), last)
    });
    let mut shuffled = File::host(first, last);
    let mut left: Vec<Grant> = rack.grants.all().collect();
    for (number, node) in rack.numbered() {
        shuffled = shuffled.raw(&[node.kind(), node.parent, node.device]);
        shuffled = shuffled.raw(&node.vendor_id.to_le_bytes()).raw(&node.device_id.to_le_bytes());
        for Region { kind, exponent } in rack.regions(number).iter().flat_map(|all| all.iter()) {
            shuffled = shuffled.raw(&[*kind, *exponent]);
        }
        let is_last = usize::from(number) + 1 == rack.nodes.len();
        let mut now: Vec<Grant> = left.extract_if(.., |grant| grant.node <= number).collect();
        while !now.is_empty() && (is_last || !random.one_in(3)) {
            let Grant { seat, node, mask } =
                now.swap_remove(random.below(now.len() as u64) as usize);
            shuffled = shuffled.seat(seat, node, mask);
        }
        left.extend(now);
    }
    shuffled.raw(&registers).0
}

/// The racks that differ from this one in one bit of what a decoded rack and its images hold, or
/// in one grant more or less, as far as they are not refused.
fn neighbours(machine: &Machine) -> Vec<Machine> {
    let (rack, b, d) = (machine.rack(), machine.bridges(), machine.devices());
    let mut all = Vec::new();
    let mut racks = Vec::new();
    for bit in 0..64 {
        racks.push(Rack { host_first: rack.host_first ^ 1 << bit, ..rack.clone() });
        racks.push(Rack { host_last: rack.host_last ^ 1 << bit, ..rack.clone() });
    }
    for number in 0..rack.nodes.len() {
        let mut with = |change: &dyn Fn(&mut Node)| {
            let mut rack = rack.clone();
            change(&mut rack.nodes[number]);
            racks.push(rack);
        };
        for bit in 0..16 {
            with(&|node| node.vendor_id ^= 1 << bit);
            with(&|node| node.device_id ^= 1 << bit);
        }
        for bit in 0..8 {
            with(&|node| node.parent ^= 1 << bit);
            with(&|node| node.device ^= 1 << bit);
            for region in 0..3 {
                let change = |node: &mut Node, change: &dyn Fn(&mut Region)| {
                    if let Header::Device(regions) = &mut node.header {
                        change(&mut regions[region]);
                    }
                };
                with(&|node| change(node, &|region| region.kind ^= 1 << bit));
                with(&|node| change(node, &|region| region.exponent ^= 1 << bit));
            }
        }
        for header in [
            Header::Bridge(Options::ALL),
            Header::Bridge(Options::NONE),
            Header::Device([Region::default(); 3]),
        ] {
            with(&|node| node.header = header);
        }
    }
    for (seat, node) in (1..=15).flat_map(|seat| (0..rack.nodes.len()).map(move |n| (seat, n))) {
        let node = node as u8;
        let mut with = |mask: Option<u16>| {
            let mut grants = Grants::default();
            let others = rack.grants.all().filter(|grant| (grant.seat, grant.node) != (seat, node));
            others.for_each(|grant| grants.take(96, grant));
            mask.into_iter().for_each(|mask| grants.take(96, Grant { seat, node, mask }));
            racks.push(Rack { grants, ..rack.clone() });
        };
        match rack.grants.mask(seat, node) {
            None => with(Some(0)),
            Some(mask) => {
                with(None);
                (0..16).for_each(|bit| with(Some(mask ^ 1 << bit)));
            }
        }
    }
    // Another rack with the same registers where they fit it, else at reset.
    for rack in racks {
        all.extend(Machine::with_images(rack.clone(), b, d).or_else(|_| Machine::at_reset(rack)));
    }
    let flipped = |image: &[u8], bit: usize| {
        let mut image = image.to_vec();
        image[bit / 8] ^= 1 << (bit % 8);
        image
    };
    for bit in 0..8 * b.len() {
        all.extend(Machine::with_images(rack.clone(), &flipped(b, bit), d));
    }
    for bit in 0..8 * d.len() {
        all.extend(Machine::with_images(rack.clone(), b, &flipped(d, bit)));
    }
    all
}

#[test]
fn racks_that_differ_in_one_bit() {
    let mut random = Random(64);
    let (mut differ, mut same) = (0, 0);
    for _ in 0..40 {
        let machine = random_content(&mut random);
        let (saved, this) = (file(&machine), content(&machine));
        for other in neighbours(&machine) {
            let equal = content(&other) == this;
            assert_eq!(file(&other) == saved, equal);
            assert_eq!(same_content(&other, &machine), equal);
            *(if equal { &mut same } else { &mut differ }) += 1;
            if random.one_in(16) {
                assert_eq!(content(&machine_of(&file(&other))), content(&other));
            }
        }
    }
    println!("differ: {differ}, same: {same}");
    assert!(differ >= 10_000 && same >= 1_000);
}

/// By hand: what is content, one thing at a time.
#[test]
fn content_by_hand() {
    let records = || File::host(0x10, 0x1F).bridge(255, 0).device(0, 1, [(1, 4), (0, 0), (0, 0)]);
    let given = || records().seat(3, 0, 6).seat(2, 1, 0);
    let saved = |file: File| rackcheck::saved::file(&file.machine());
    let one = saved(given());
    assert_eq!(one, records().seat(2, 1, 0).seat(3, 0, 6).0);
    // The order of grants is none, and so are events and what reads change.
    assert_eq!(saved(records().seat(2, 1, 0).seat(3, 0, 6)), one);
    assert_eq!(saved(given().acts(3).check().get(0, 0, 0).acts(2)), one);
    assert_eq!(saved(given().put(0, 0, 4, 7).put(0, 0, 4, 0)), one);
    for other in [
        File::host(0x11, 0x1F).raw(&given().0[17..]),
        File::host(0x10, 0x1E).raw(&given().0[17..]),
        File::new().raw(&given().0[17..]),
        records().seat(3, 0, 6),
        records().seat(3, 0, 6).seat(2, 1, 1),
        records().seat(3, 0, 6).seat(2, 0, 0),
        records().seat(3, 0, 6).seat(1, 1, 0),
        given().seat(15, 1, 0),
        given().put(0, 0, 4, 1),
        given().get(1, 5, 0).put(0, 0, 0x18, 0x0001_0100).get(1, 5, 0).put(0, 0, 0x18, 0),
        File::host(0x10, 0x1F).older(255, 0).raw(&given().0[24..]),
    ] {
        assert_ne!(saved(other), one);
    }
    // Nodes have an order, which gives them their numbers.
    let two = File::new().device(255, 0, NO_REGIONS).device(255, 1, NO_REGIONS);
    let swapped = File::new().device(255, 1, NO_REGIONS).device(255, 0, NO_REGIONS);
    assert_ne!(saved(two), saved(swapped));
}

/// How many bytes stand before the events of a file, and those of each event.
fn events_of(file: &File) -> Vec<Vec<u8>> {
    let contents = file.contents();
    let mut rest = &file.0[contents.records + 66 * contents.registers.len()..];
    let mut all = Vec::new();
    for event in &contents.events {
        let (bytes, behind) = rest.split_at(event_length(event));
        all.push(bytes.to_vec());
        rest = behind;
    }
    all
}

/// "The run then starts from these registers instead of reset": saved between any two events, a
/// run goes on as if it had not been.
#[test]
fn a_run_goes_on_from_a_saved_file() {
    let mut random = Random(65);
    let mut from_registers = 0;
    for _ in 0..150 {
        let grants = [(1, 0, random.next() as u16), (9, 1, random.next() as u16)];
        let mut run = random_rack(&mut random).seated(&grants);
        for _ in 0..8 {
            let address = random.pick(&[0, 0x300, 0x3B0, 0x1000, 0x2400, 0x4_0000, 0x12_0000]);
            run = match random.below(6) {
                0 => run.memory(255, random.below(2) as u8, address),
                1 => run.io(255, random.below(2) as u8, address as u32),
                2 => run.put(0, random.below(16) as u8, 0x18, random.next() as u32),
                3 => run.get(1, random.below(16) as u8, 4),
                4 => run.acts(random.pick(&[0, 1, 9])),
                _ => run.check(),
            };
        }
        let (events, lines) = (events_of(&run), run.lines());
        let contents = run.contents();
        let cut = random.below(1 + events.len() as u64) as usize;
        let acting = contents.events[..cut].iter().rev().find_map(|event| match event {
            Event::Seat { seat } => Some(*seat),
            _ => None,
        });
        let before = File(run.0[..contents.records].to_vec()).raw(&events[..cut].concat());
        let saved = File(file(&before.machine()));
        from_registers += u32::from(!saved.contents().registers.is_empty());
        assert_eq!(saved.output(), "");
        // The acting seat is no content, so that it is said again.
        let on = saved.acts(acting.unwrap_or(0)).raw(&events[cut..].concat());
        assert_eq!(on.lines()[1..], lines[cut..]);
        assert_eq!(content(&on.machine()), content(&run.machine()));
        // Saved again at its end, by either way.
        assert_eq!(file(&on.machine()), file(&run.machine()));
    }
    println!("from registers: {from_registers}");
    assert!(from_registers >= 100);
}

/// Registers of a file are there whatever the grants say, and the run starts as seat 0.
#[test]
fn registers_know_no_seats() {
    let rack = File::new().bridge(255, 0).seat(1, 0, 0);
    let mut part = off_reset(&bridge(255, 0));
    part[4] = 7;
    let run = rack.saved(0, &part).get(0, 0, 4).put(0, 0, 4, 3).acts(1).put(0, 0, 4, 1);
    let lines = run.get(0, 0, 4).get(0, 0, 0x0C).lines();
    let expected = ["data 0 00000007", "stored 0", "seat 1", "denied 0", "data 0 00000003"];
    assert_eq!((&lines[..5], &lines[5][..]), (&expected.map(String::from)[..], "data 0 00010055"));
}

/// A check that faults at once, and an access that is owned at once, from saved registers.
#[test]
fn the_first_event_sees_the_registers() {
    let mut rack = File::new();
    for number in 0..2 {
        rack = rack.device(255, number, [(2, 12), (0, 0), (0, 0)]);
    }
    let mut part = masks(&device(255, 0, [(2, 12), (0, 0), (0, 0)])).reset;
    part[4] = 2;
    part[0x10..0x14].copy_from_slice(&0xABCD_E000u32.to_le_bytes());
    let one = rack.clone().saved(1, &part);
    let both = rack.clone().saved(0, &part).saved(1, &part);
    assert_eq!(rack.check().memory(255, 0, 0xABCD_E004).lines(), ["pass", "unclaimed 0 255 abort"]);
    let lines = one.check().memory(255, 0, 0xABCD_E004).lines();
    assert_eq!(lines, ["pass", "owner 0 1 0 0000000000000004"]);
    let lines = both.check().memory(255, 0, 0xABCD_E004).lines();
    assert_eq!(lines, ["fault 255 memory 00000000ABCDE000 255 0 1", "clash 0 255 0 1"]);
}

/// The writer in the library: refusals, and what it leaves of the buffer.
#[test]
fn the_writer_as_a_call() {
    let mut random = Random(66);
    for _ in 0..100 {
        let machine = random_content(&mut random);
        let (rack, b, d) = (machine.rack(), machine.bridges(), machine.devices());
        let saved = file(&machine);
        for length in [0, saved.len() - 1, saved.len(), saved.len() + 1, LONGEST] {
            let mut buffer = vec![0xA5; length];
            let result = calls::save(rack, b, d, &mut buffer);
            if length < saved.len() {
                assert_eq!((result, buffer), (Err(11), vec![0xA5; length]));
            } else {
                assert_eq!((result, &buffer[..saved.len()]), (Ok(saved.len()), &saved[..]));
                assert!(buffer[saved.len()..].iter().all(|byte| *byte == 0xA5));
            }
        }
        let records = &saved[..File(saved.clone()).records_length()];
        let mut buffer = vec![0; LONGEST];
        assert_eq!(calls::save_of_bytes(records, b, d, &mut buffer), Ok(saved.len()));
        assert_eq!(buffer[..saved.len()], saved);
        // Back from it.
        let (mut b2, mut d2) = (vec![0xEE; b.len()], vec![0xEE; d.len()]);
        let start = calls::start_of_file(&saved, &mut b2, &mut d2);
        assert_eq!((start.records, (&b2[..], &d2[..])), (Ok(records.len()), (b, d)));
        assert_eq!((start.bridges, start.devices), (b.len() / 64, d.len() / 64));
    }
    // 14 before the buffer's 11, and an event of a file behind its registers.
    let mut faulty = File::new().bridge(255, 0).rack();
    faulty.grants.take(1, Grant { seat: 1, node: 1, mask: 0 });
    let (b, d) = registers::reset_images(&faulty);
    assert_eq!(calls::save(&faulty, &b, &d, &mut []), Err(14));
    assert_eq!(output(&[&File::new().0[..], &[11]].concat()), "refused 3 at 17\n");
}
