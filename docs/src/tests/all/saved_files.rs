//! Register records in a file: where they stand, refusals 16 and 17, and saved files that are
//! damaged.

use crate::build::{off_reset, one_of_each_placed, only, File, Random, EDITIONS, NO_REGIONS};
use crate::refusals::{accepted, accepted_if, refused};
use crate::saved::{content, random_content};
use rackcheck::program::Run;
use rackcheck::rack::Node;
use rackcheck::saved;

/// Bridge 0 and device 1, in 37 bytes.
fn rack() -> File {
    File::new().bridge(255, 0).device(255, 1, NO_REGIONS)
}

/// Four nodes, one of each kind and a device more, in 57 bytes.
fn four() -> File {
    let file = File::new().older(255, 0).device(255, 1, [(1, 4), (2, 12), (3, 20)]);
    file.bridge(0, 2).device(255, 3, NO_REGIONS)
}

/// What a file's node has in [`off_reset`]; of a node that is missing just some bytes.
fn off(file: &File, node: u8) -> [u8; 64] {
    file.rack().node(node).map_or([0x5A; 64], off_reset)
}

#[test]
fn r16_a_missing_node() {
    for node in 0..=255 {
        accepted_if(node < 2, rack().saved(node, &off(&rack(), node)), 16, 37);
        // Whatever its bytes: before 17.
        for bytes in [[0; 64], [0xFF; 64]] {
            let number = if node < 2 { 17 } else { 16 };
            refused(rack().saved(node, &bytes), number, 37);
        }
        // Without nodes there is none that a record could name.
        refused(File::new().saved(node, &[0; 64]), 16, 17);
        refused(File::new().saved(node, &off(&rack(), 0)), 16, 17);
    }
    for kinds in EDITIONS {
        let full = || File::full(kinds, NO_REGIONS);
        for node in 0..=255 {
            let file = full().saved(node, &off(&full(), node));
            accepted_if(node < 96, file, 16, 17 + 32 * 7 + 64 * 13);
        }
    }
}

#[test]
fn r16_not_above_the_one_before() {
    for first in 0..4 {
        for second in 0..6 {
            let file = four().saved(first, &off(&four(), first));
            let good = first < second && second < 4;
            let at = file.0.len();
            accepted_if(good, file.clone().saved(second, &off(&four(), second)), 16, at);
            // Before 17.
            let reset = four().images();
            let number = if good { 17 } else { 16 };
            refused(file.saved(second, &reset.0[..64]).saved(0, &[0; 64]), number, at);
        }
    }
    // The one before counts, not the first or the greatest of all.
    let three = [1, 2, 3].iter().fold(four(), |file, n| file.saved(*n, &off(&four(), *n)));
    accepted(three.clone());
    for node in 0..4 {
        refused(three.clone().saved(node, &off(&four(), node)), 16, three.0.len());
    }
    let all = (0..96).fold(File::full([2, 13], NO_REGIONS), |file, n| {
        let part = off(&File::full([2, 13], NO_REGIONS), n);
        file.saved(n, &part)
    });
    accepted(all.clone().check());
    for node in 0..=255 {
        refused(all.clone().saved(node, &[0x55; 64]), 16, all.0.len());
    }
}

/// Bit by bit, alone and beside a change that is right.
#[test]
fn r17_reset_and_fixed_bits() {
    let file = four();
    let at = file.0.len();
    for (number, node) in file.rack().numbered() {
        let masks = rackcheck::registers::masks(node);
        refused(file.clone().saved(number, &masks.reset), 17, at);
        for bit in 0..64 * 8 {
            let changes = (masks.write[bit / 8] | masks.clear[bit / 8]) >> (bit % 8) & 1 == 1;
            for mut part in [masks.reset, off_reset(node)] {
                part[bit / 8] ^= 1 << (bit % 8);
                let good = changes && part != masks.reset;
                accepted_if(good, file.clone().saved(number, &part), 17, at);
            }
        }
        // The registers of a node of another kind or with other regions.
        for (other, node) in file.rack().numbered() {
            accepted_if(other == number, file.clone().saved(number, &off_reset(node)), 17, at);
        }
    }
}

/// By hand: the status bits that a record may set, those it may not, and what each kind takes.
#[test]
fn r17_by_hand() {
    let one = |kind: u8| match kind {
        3 => File::new().device(255, 0, [(1, 4), (2, 12), (3, 20)]),
        _ => File::new().bridge_of(kind, 255, 0),
    };
    let with = |kind: u8, at: usize, value: u8, good: bool| {
        let (bridges, devices) = one(kind).images();
        let mut part = if kind == 3 { devices } else { bridges };
        assert_ne!(part[at], value);
        part[at] = value;
        let length = one(kind).0.len();
        accepted_if(good, one(kind).saved(0, &part), 17, length);
        // The event behind it reads what the record holds.
        if good {
            let register = at as u8 & !3;
            let bytes: [u8; 4] = part[usize::from(register)..][..4].try_into().unwrap();
            let line = format!("data 0 {:08X}", u32::from_le_bytes(bytes));
            assert_eq!(one(kind).saved(0, &part).get(0, 0, register).last(), line);
        }
    };
    for kind in [2, 13, 3] {
        for (at, value, good) in [
            (0x00, 0x00, false),
            (0x04, 0x47, true),
            (0x04, 0x08, false),
            (0x05, 0x01, true),
            (0x05, 0x02, false),
            (0x06, 0x01, false),
            (0x07, 0xF9, true),
            (0x07, 0x20, true),
            (0x07, 0x02, false),
            (0x08, 0x01, false),
            (0x0C, 0xFF, true),
            (0x0D, 0xFF, true),
            (0x0F, 0x01, false),
            (0x3C, 0xFF, true),
            (0x3D, 0x01, false),
            (0x3F, 0x01, false),
        ] {
            with(kind, at, value, good);
        }
    }
    for (kind, other) in [(2, true), (13, false)] {
        with(kind, 0x1C, if other { 0xF1 } else { 0xF0 }, true);
        with(kind, 0x1C, if other { 0xF0 } else { 0xF1 }, false);
        with(kind, 0x1F, 0xF9, true);
        with(kind, 0x1F, 0x04, false);
        with(kind, 0x28, 1, other);
        with(kind, 0x33, 0x80, other);
        with(kind, 0x3E, 0x2F, true);
        with(kind, 0x3E, 0x10, other);
        with(kind, 0x3E, 0x40, true);
        with(kind, 0x3E, 0x80, false);
    }
    with(3, 0x10, 0xF1, true);
    with(3, 0x10, 0xF0, false);
    with(3, 0x14, 0x01, false);
    with(3, 0x19, 0x10, true);
    with(3, 0x19, 0x08, false);
    with(3, 0x20, 0x00, false);
    with(3, 0x22, 0x10, true);
    with(3, 0x24, 0x01, true);
    with(3, 0x28, 0x01, false);
}

#[test]
fn kind_11_is_known() {
    let record = [&[11, 0][..], &off(&rack(), 0)].concat();
    // 3, before 4, 5, 16 and 17.
    for have in 1..66 {
        refused(rack().raw(&record[..have]), 3, 37);
        refused(File::empty().raw(&record[..have]), 3, 0);
        refused(rack().check().raw(&record[..have]), 3, 38);
        refused(rack().raw(&record).raw(&record[..have]), 3, 103);
        refused(File::new().raw(&[[11, 99], [0, 0]].concat()), 3, 17);
    }
    // 4, before 16 and 17: in the host's place, and a host behind it.
    refused(File::empty().raw(&record), 4, 0);
    refused(File::empty().saved(99, &[0; 64]), 4, 0);
    refused(File::empty().raw(&record).raw(&rack().0), 4, 0);
    refused(rack().raw(&record).raw(&File::new().0), 4, 103);
    refused(rack().raw(&record).check().raw(&File::new().0), 4, 104);
    // 1, before all of them.
    refused(rack().raw(&record).raw(&[11; 65_536]), 1, 65_536);
    // A longer record is two.
    refused(rack().raw(&record).raw(&[0]), 2, 103);
    accepted(rack().raw(&record).raw(&[8]));
}

#[test]
fn r05_in_three_stages() {
    let saved = || rack().saved(0, &off(&rack(), 0));
    // Nodes and seats behind registers, before 6 to 10 and 14.
    for file in [
        saved().bridge(255, 2),
        saved().older(255, 2),
        saved().device(255, 2, NO_REGIONS),
        saved().bridge(9, 99),
        saved().bridge(255, 0),
        saved().device(255, 1, only(9, 9)),
        saved().seat(1, 0, 0),
        saved().seat(0, 99, 0),
    ] {
        refused(file, 5, 103);
    }
    let full = File::all_bridges([2, 13]);
    let at = full.0.len() + 66;
    refused(full.clone().saved(31, &off(&full, 31)).older(1, 0), 5, at);
    refused(rack().seat(1, 0, 0).saved(1, &off(&rack(), 1)).seat(1, 0, 0), 5, 108);
    // Registers behind an event of any kind, before 16 and 17.
    let none = File::empty;
    for event in [
        none().put(0, 0, 4, 7),
        none().get(0, 0, 0),
        none().memory(255, 0, 0),
        none().io(1, 1, 0),
        none().check(),
        none().acts(0),
        none().special(0),
    ] {
        for (node, part) in [(0, off(&rack(), 0)), (0, [0; 64]), (99, [0xFF; 64])] {
            refused(rack().raw(&event.0).saved(node, &part), 5, 37 + event.0.len());
        }
        // The other rack records behind registers and an event.
        refused(saved().raw(&event.0).saved(1, &off(&rack(), 1)), 5, 103 + event.0.len());
        refused(saved().raw(&event.0).bridge(255, 2), 5, 103 + event.0.len());
        refused(saved().raw(&event.0).seat(1, 0, 0), 5, 103 + event.0.len());
        accepted(saved().raw(&event.0).raw(&event.0));
    }
    // All stages, with seats among the nodes.
    let file = File::new().bridge(255, 0).seat(3, 0, 1).device(255, 1, NO_REGIONS).seat(2, 1, 0);
    let file = file.saved(0, &off(&rack(), 0)).saved(1, &off(&rack(), 1));
    assert_eq!(file.clone().acts(3).get(0, 1, 0x0C).lines(), ["seat 3", "data 0 00000055"]);
    assert_eq!(file.output(), "");
}

#[test]
fn the_first_faulty_record_decides() {
    let saved = || rack().saved(0, &off(&rack(), 0));
    // 16 and 17, with other faults behind them.
    for behind in [vec![0], vec![2], vec![11], File::new().0, vec![10, 9], vec![5, 0, 0, 1]] {
        refused(rack().saved(2, &[0; 64]).raw(&behind), 16, 37);
        refused(saved().saved(0, &[0; 64]).raw(&behind), 16, 103);
        refused(rack().saved(1, &[0; 64]).raw(&behind), 17, 37);
    }
    refused(rack().saved(1, &[0; 64]).saved(0, &[0; 64]), 17, 37);
    // A record that is refused is not the one before.
    refused(rack().saved(1, &rack().images().1).saved(0, &off(&rack(), 0)), 17, 37);
    // Other faults before them.
    refused(rack().bridge(9, 0).saved(2, &[0; 64]), 7, 37);
    refused(rack().seat(0, 0, 0).saved(2, &[0; 64]), 14, 37);
    refused(rack().get(0, 0, 1).saved(2, &[0; 64]), 13, 37);
    refused(rack().raw(&[12]).saved(2, &[0; 64]), 2, 37);
    // Events behind registers are refused as ever.
    refused(saved().get(0, 0, 1), 13, 103);
    refused(saved().memory(0, 0, 0), 13, 103);
    refused(saved().acts(1), 15, 103);
    refused(saved().check().raw(&[0]), 2, 104);
    // Nothing runs before all is checked.
    assert_eq!(saved().check().check().acts(7).output(), "refused 15 at 105\n");
}

#[test]
fn bodies_are_no_records() {
    // Registers that are full of kinds, of a node whose number is one.
    let file = File::full([2, 2], NO_REGIONS);
    let mut part = off(&file, 11);
    part[0x18..0x1C].fill(11);
    part[0x28..0x34].fill(8);
    let saved = file.clone().saved(8, &off(&file, 8)).saved(11, &part).get(0, 11, 0x18);
    assert_eq!(saved.output(), "1 data 0 0B0B0B0B\n");
}

/// Where the records of a file begin.
fn offsets(file: &[u8]) -> Vec<usize> {
    let lengths = [16, 6, 12, 8, 3, 10, 6, 0, 4, 1, 65, 0, 6];
    let (mut all, mut at) = (Vec::new(), 0);
    while at < file.len() {
        all.push(at);
        at += 1 + lengths[usize::from(file[at]) - 1];
    }
    assert_eq!(at, file.len());
    all
}

/// A saved file cut short anywhere: 3 at the record that is cut, or a saved file of less.
#[test]
fn a_saved_file_cut_short() {
    let mut random = Random(60);
    for _ in 0..20 {
        let file = saved::file(&random_content(&mut random));
        let offsets = offsets(&file);
        for length in 1..file.len() {
            let before = *offsets.iter().rev().find(|at| **at <= length).unwrap();
            let cut = File(file[..length].to_vec());
            match before == length {
                true => assert_eq!(saved::file(&cut.machine()), cut.0),
                false => refused(cut, 3, before),
            }
        }
    }
}

/// Records of a saved file in another order, twice, or left out: by the stage they are of.
#[test]
fn a_saved_file_out_of_order() {
    let mut random = Random(61);
    let mut seen = [0; 19];
    for _ in 0..60 {
        let file = saved::file(&random_content(&mut random));
        let offsets = offsets(&file);
        let ends = offsets.iter().skip(1).copied().chain([file.len()]);
        let records: Vec<&[u8]> = offsets.iter().zip(ends).map(|(a, b)| &file[*a..b]).collect();
        // A record twice: a host is 4, a node 9 (or 6), a seat 14, a register record 16.
        let stage = |record: &[u8]| match record[0] {
            1 => 0,
            9 => 2,
            11 => 3,
            _ => 1,
        };
        for (index, record) in records.iter().enumerate() {
            let mut twice = records.clone();
            twice.insert(index, record);
            let numbers: &[u8] = [&[4][..], &[6, 9], &[14], &[16]][stage(record)];
            let error = rackcheck::file::read(&twice.concat()).unwrap_err();
            assert!(numbers.contains(&error.number), "{error}");
            assert_eq!(error.offset, offsets[index] + record.len());
            seen[usize::from(error.number)] += 1;
        }
        // Two neighbours in the other order. Two nodes may be another rack, and so may a node and
        // a seat record.
        for index in 1..records.len() {
            let mut swapped = records.clone();
            swapped.swap(index - 1, index);
            let bytes = swapped.concat();
            let read = rackcheck::file::read(&bytes);
            let number = match (stage(records[index - 1]), stage(records[index])) {
                (0, _) => Some((4, 0)),
                // Seats may stand in any order, and have one when they are saved again.
                (2, 2) => {
                    assert_eq!(saved::file(&File(bytes.clone()).machine()), file);
                    None
                }
                (1 | 2, 3) => Some((5, offsets[index - 1] + records[index].len())),
                (3, 3) => Some((16, offsets[index - 1] + records[index].len())),
                _ => continue,
            };
            let refused = read.err().map(|refused| (refused.number, refused.offset));
            match (number, refused) {
                // The node that the register record names may be the one behind it.
                (Some((5, _)), Some((16, at))) => assert_eq!(at, offsets[index - 1]),
                _ => assert_eq!(refused, number),
            }
            seen[refused.map_or(0, |(number, _)| usize::from(number))] += 1;
        }
    }
    println!("refused: {seen:?}");
    for number in [0, 4, 5, 9, 14, 16] {
        assert!(seen[number] >= 10, "{number}: {seen:?}");
    }
}

/// Each bit of a saved file: changed, the file is refused or has another content, unless it is
/// one of a host without memory.
#[test]
fn every_bit_of_a_saved_file() {
    let mut random = Random(62);
    let mut seen = [0; 19];
    for turn in 0..24 {
        let machine = if turn == 0 {
            one_of_each_placed().seated(&[(3, 0, 0x42), (4, 1, 0)]).machine()
        } else {
            random_content(&mut random)
        };
        let file = saved::file(&machine);
        let memory = machine.rack().host_memory();
        for bit in (0..8 * file.len()).filter(|_| turn == 0 || random.one_in(8)) {
            let mut damaged = file.clone();
            damaged[bit / 8] ^= 1 << (bit % 8);
            let contents = match rackcheck::file::read(&damaged) {
                Ok(contents) => contents,
                Err(error) => {
                    seen[usize::from(error.number)] += 1;
                    continue;
                }
            };
            seen[0] += 1;
            let other = Run::start(&contents).unwrap().machine;
            let same = bit / 8 < 17 && memory.is_none() && other.rack().host_memory().is_none();
            assert_eq!(content(&other) == content(&machine), same, "bit {bit}");
            assert_eq!(saved::same_content(&other, &machine), same);
            assert_eq!(saved::file(&other) == file, same);
        }
    }
    println!("refused: {seen:?}");
    for number in [0, 2, 4, 5, 7, 8, 9, 10, 14, 16, 17] {
        assert!(seen[number] >= 4, "{number}: {seen:?}");
    }
}

/// The same node at reset and off it, in a file by hand.
#[test]
fn a_file_by_hand() {
    let bridge = "34121000 00000000 00000406 00000100 00000000 00000000 00010500 01010000 \
                  00000000 01000100 00000000 00000000 00000000 00000000 00000000 00000000";
    let head = "01 0100000000000000 0000000000000000 02 FF 01 34 12 10 00 0B 00";
    let run = |part: &str| {
        let bytes = [head, part, "05 00 08 18 05 05 00 00"].concat();
        File(crate::build::hex(&bytes)).output()
    };
    assert_eq!(run(bridge), "1 data 0 00050100\n2 unclaimed 1 0 done\n");
    assert_eq!(run(&bridge.replace("00010500", "00000000")), "refused 17 at 24\n");
    assert_eq!(run(&bridge.replace("34121000", "35121000")), "refused 17 at 24\n");
}

/// The records of a whole machine, through the library.
#[test]
fn refusals_of_the_library() {
    use rackcheck::machine::Machine;
    use rackcheck::refuse;
    use rackcheck::registers::Saved;
    let rack = four().rack();
    let record = |node: u8| Saved { node, part: off(&four(), node) };
    let (some, none): (Vec<Saved>, Vec<Saved>) = ([0, 2, 3].map(record).to_vec(), Vec::new());
    let machine = Machine::with_registers(rack.clone(), &some).unwrap();
    for (number, node) in rack.numbered() {
        match number {
            1 => assert!(rackcheck::registers::equals_reset(node, machine.part(1))),
            _ => assert_eq!(machine.part(number), off_reset(node)),
        }
    }
    let reset = Machine::at_reset(rack.clone());
    assert_eq!(Machine::with_registers(rack.clone(), &none), reset);
    let number = |records: &[u8]| {
        let records: Vec<Saved> = records.iter().map(|node| record(*node)).collect();
        Machine::with_registers(rack.clone(), &records).err()
    };
    assert_eq!(number(&[0, 0]), Some(16));
    assert_eq!(number(&[2, 1]), Some(16));
    assert_eq!(number(&[3, 4]), Some(16));
    let zero = Saved { node: 0, part: [0; 64] };
    assert_eq!(refuse::registers(&rack, &[], &zero), Some(17));
    assert_eq!(refuse::registers(&rack, &[record(0)], &zero), Some(16));
    let bad: Vec<Node> = vec![crate::build::bridge(9, 0)];
    let bad = rackcheck::rack::Rack { nodes: bad, ..rack };
    assert_eq!(Machine::with_registers(bad, &[zero]).err(), Some(7));
}
