//! Saved racks in scripts: operations 13, 14 and 15.

use crate::build::{
    binary, full_at_work, hex, off_reset, one_of_each_below, only, placed, File, Random, EDITIONS,
    NO_REGIONS,
};
use crate::saved::{content, random_content};
use crate::script::{decoded, every_operation, rest_0, script, Call, Gives};
use rackcheck::machine::Machine;
use rackcheck::program::Run;
use rackcheck::saved::{file, LONGEST};

/// Bridge 0 of that kind, device 1 below it, seats 3 and 4, and registers off reset.
fn seated(kind: u8) -> File {
    placed(one_of_each_below(kind)).seated(&[(4, 1, 0), (3, 0, 0x42)])
}

/// Operations 13 and 14 over the same rack and registers, with a buffer of that length full of
/// A5h.
fn writers(machine: &Machine, length: usize) -> [Call; 2] {
    let records = file(&Machine::at_reset(machine.rack().clone()).unwrap());
    let images = (machine.bridges().to_vec(), machine.devices().to_vec());
    let call = Call { images, enables: 0xA5, data: length as u32, ..Call::default() };
    [
        Call { operation: 13, rack: decoded(machine.rack()), ..call.clone() },
        Call { operation: 14, rack: records, ..call },
    ]
}

/// The call writes this file to its buffer and leaves what is past it, and both images.
fn gives_file(call: &Call, file: &[u8]) {
    let mut part = vec![call.enables; call.data as usize];
    part[..file.len()].copy_from_slice(file);
    let numbers = rest_0(&[file.len() as u64]);
    assert_eq!(call.gives(), Gives { number: 0, numbers, part, ..call.nothing() });
}

/// The call is refused and leaves its buffer, all of which it gives, and both images.
fn refused(call: &Call, number: u8) {
    let part = vec![call.enables; call.data as usize];
    assert_eq!(call.gives(), Gives { number, part, ..call.nothing() }, "{call:?}");
}

/// Operation 15 over a file, with images of that many bytes full of EEh.
fn start(file: &File, lengths: (usize, usize)) -> Call {
    let images = (vec![0xEE; lengths.0], vec![0xEE; lengths.1]);
    Call { operation: 15, rack: file.0.clone(), images, ..Call::default() }
}

/// Operation 15 gives the registers that the file's run starts from.
fn starts(file: &File) {
    let contents = file.contents();
    let machine = Run::start(&contents).unwrap().machine;
    let images = (machine.bridges().to_vec(), machine.devices().to_vec());
    let (bridges, devices) = (images.0.len() / 64, images.1.len() / 64);
    let numbers = rest_0(&[contents.records, bridges, devices].map(|number| number as u64));
    let call = start(file, (images.0.len(), images.1.len()));
    assert_eq!(call.gives(), Gives { images, numbers, ..call.nothing() });
}

#[test]
fn a_file_written_and_read_by_hand() {
    // Bridge 0 with bus numbers; seat 2 may write dword 6; a host without memory.
    let bridge = |numbers: &str| {
        let head = "34121000 00000000 00000406 00000100 00000000 00000000";
        [head, numbers, "01010000 00000000 01000100", &"00".repeat(24)].concat()
    };
    let records = "01 FFFFFFFFFFFFFFFF 0500000000000000 02 FF 01 34 12 10 00 09 02 00 40 00";
    let written = "01 0100000000000000 0000000000000000 02 FF 01 34 12 10 00 09 02 00 40 00";
    let over_rack = [
        "FFFFFFFFFFFFFFFF 0500000000000000 01",
        "02 FF 01 34 12 10 00 09 09 09 09 09 09",
        &"11".repeat(95 * 13),
        &"00 77 77".repeat(96),
        "01 40 00",
        &"00 66 66".repeat(14 * 96 - 1),
    ]
    .concat();
    let zeros = |count: usize| "00".repeat(count);
    for (head, rack) in [("0E 1D000000", records), ("0D D1150000", &over_rack)] {
        // 29 and 66 bytes into 100.
        let part = bridge("00010500");
        let call = [head, "0000 4000 0000 63 62 C3 64000000", rack, &part].concat();
        let file = [written, "0B 00", &part].concat();
        let gives = ["00 5F", &zeros(63), "6400", &file, "C3C3C3C3C3", &part].concat();
        assert_eq!(script(&hex(&call)), hex(&gives));
        // Into 94: refused, and the buffer stays.
        let call = [head, "0000 4000 0000 63 62 C3 5E000000", rack, &part].concat();
        let gives = ["0B", &zeros(64), "5E00", &"C3".repeat(94), &part].concat();
        assert_eq!(script(&hex(&call)), hex(&gives));
        // At reset: 29 bytes into 29.
        let part = bridge("00000000");
        let call = [head, "0000 4000 0000 63 62 C3 1D000000", rack, &part].concat();
        let gives = ["00 1D", &zeros(63), "1D00", written, &part].concat();
        assert_eq!(script(&hex(&call)), hex(&gives));
    }
    // The registers of the file, and of one with an event behind; 29 bytes stand before.
    for (count, behind) in [("5F", ""), ("60", "08")] {
        let part = bridge("00010500");
        let file = [written, "0B 00", &part, behind].concat();
        let any = "EE".repeat(64);
        let head = ["0F", count, "000000 0000 4000 0000 00 00 00 00000000"].concat();
        let gives = ["00 1D00000000000000 01", &zeros(7), &zeros(48), "0000", &part].concat();
        assert_eq!(script(&hex(&[&head[..], &file, &any].concat())), hex(&gives));
        // No bridges' image: 11, with the counts.
        let head = ["0F", count, "000000 0000 0000 0000 00 00 00 00000000"].concat();
        let gives = ["0B", &zeros(8), "01", &zeros(7), &zeros(48), "0000"].concat();
        assert_eq!(script(&hex(&[&head, &file[..]].concat())), hex(&gives));
    }
}

#[test]
fn writers_of_random_racks() {
    let mut random = Random(67);
    for _ in 0..300 {
        let machine = random_content(&mut random);
        let saved = file(&machine);
        let lengths = [saved.len(), saved.len() + random.below(70) as usize, LONGEST, 16_384];
        for call in writers(&machine, random.pick(&lengths)) {
            gives_file(&call, &saved);
        }
        for call in writers(&machine, random.below(saved.len() as u64) as usize) {
            refused(&call, 11);
        }
        starts(&File(saved));
    }
}

#[test]
fn every_length_of_the_buffer() {
    for kind in [2, 13] {
        let machine = seated(kind).machine();
        let saved = file(&machine);
        assert_eq!(saved.len(), 17 + 7 + 13 + 2 * 5 + 2 * 66);
        for length in (0..saved.len() + 70).chain([LONGEST, 16_383, 16_384]) {
            for call in writers(&machine, length) {
                for enables in [0, 0xA5, 0xFF] {
                    let call = Call { enables, ..call.clone() };
                    match length < saved.len() {
                        true => refused(&call, 11),
                        false => gives_file(&call, &saved),
                    }
                }
            }
        }
    }
    // The shortest file of all has 17 bytes, the longest 14,609.
    let machine = File::new().machine();
    for call in writers(&machine, 16) {
        refused(&call, 11);
    }
    for call in writers(&machine, 17) {
        gives_file(&call, &File::new().0);
    }
    let pairs: Vec<_> = (1..=15).flat_map(|s| (0..96).map(move |n| (s, n, 1 << s))).collect();
    let mut machine = full_at_work();
    let grants = File::full([2, 2], NO_REGIONS).seated(&pairs).rack().grants;
    let rack = rackcheck::rack::Rack { grants, ..machine.rack().clone() };
    machine = Machine::with_images(rack, machine.bridges(), machine.devices()).unwrap();
    for call in writers(&machine, LONGEST - 1) {
        refused(&call, 11);
    }
    for call in writers(&machine, LONGEST) {
        gives_file(&call, &file(&machine));
    }
    starts(&File(file(&machine)));
}

#[test]
fn a_buffer_that_is_too_long_ends_the_script() {
    let machine = seated(2).machine();
    for data in [16_385, 20_000, 65_535, 65_536, 65_536 + 200, u32::MAX] {
        for call in writers(&machine, 0) {
            Call { data, ..call.clone() }.ends();
            // Refused or not.
            Call { data, rack: call.rack.clone(), ..Call { operation: 14, ..Call::default() } }
                .ends();
        }
        // Data of the others is no length.
        let call = Call { data, ..start(&seated(2), (64, 64)) };
        assert_eq!(call.gives().number, 0);
    }
    // Decoded racks of another length or with another kind.
    let [call, _] = writers(&machine, 200);
    for length in [0, 1_265, 5_584] {
        Call { rack: call.rack[..length].to_vec(), ..call.clone() }.ends();
    }
    Call { rack: [&call.rack[..], &[0]].concat(), ..call.clone() }.ends();
    for (at, value) in [(17, 11), (17, 0), (17 + 13, 1), (17 + 96 * 13, 2), (5_582, 0xEE)] {
        let mut other = call.clone();
        other.rack[at] = value;
        other.ends();
    }
}

/// What is no content of a decoded rack, and what the calls do not use.
#[test]
fn what_is_no_content() {
    let mut random = Random(68);
    for kind in [2, 13] {
        let machine = seated(kind).machine();
        let saved = file(&machine);
        let [call, over_bytes] = writers(&machine, 300);
        for _ in 0..200 {
            let mut other = call.clone();
            // The regions of bridge 0, the nodes past the count, masks that are not named.
            other.rack[17 + 7..17 + 13].copy_from_slice(&random.bytes(6));
            other.rack[17 + 26..17 + 96 * 13].copy_from_slice(&random.bytes(94 * 13));
            for pair in other.rack[17 + 96 * 13..].chunks_mut(3).filter(|pair| pair[0] == 0) {
                pair[1..].copy_from_slice(&random.bytes(2));
            }
            for mut call in [other, over_bytes.clone()] {
                (call.node, call.named) = (random.byte(), random.byte());
                let count = random.below(60) as usize;
                call.event = random.bytes(count);
                gives_file(&call, &saved);
            }
        }
        // A host without memory, whatever its numbers.
        let mut files = Vec::new();
        for (first, last) in [(1u64, 0u64), (2, 1), (u64::MAX, 0), (5, 3)] {
            let host = [first.to_le_bytes(), last.to_le_bytes()].concat();
            let (mut call, mut over_bytes) = (call.clone(), over_bytes.clone());
            call.rack[..16].copy_from_slice(&host);
            over_bytes.rack[1..17].copy_from_slice(&host);
            files.extend([call.gives(), over_bytes.gives()]);
        }
        assert_eq!(files[0].part[1..17], File::new().0[1..]);
        assert!(files.iter().all(|gives| *gives == files[0]));
    }
}

/// Operation 13 is refused by 6 to 10, 11, 12, 14 and 11 once more, in this order.
#[test]
fn refusals_of_operation_13() {
    let good = || File::new().bridge(255, 0).device(0, 1, only(2, 12)).older(255, 2);
    let racks = [
        (17 + 26 + 1, 9, 7),
        (17 + 26 + 1, 1, 7),
        (17 + 26 + 2, 16, 8),
        (17 + 26 + 2, 0, 9),
        (17 + 13 + 8, 3, 10),
        (17 + 13 + 7, 9, 10),
    ];
    let pair = 17 + 96 * 13 + 3 * (96 * 14 + 3);
    let [call, _] = writers(&good().machine(), 10);
    for (at, value, number) in racks {
        // Images too short, a fixed bit, a missing node in seat 15's grant, the buffer too short.
        let mut bad = call.clone();
        bad.rack[at] = value;
        bad.rack[pair] = 1;
        bad.images.0[0] ^= 1;
        bad.images.1.pop();
        refused(&bad, number);
    }
    let mut bad = call.clone();
    bad.rack[pair] = 1;
    bad.images.0[0] ^= 1;
    for image in [0, 1] {
        let mut short = bad.clone();
        if image == 0 { &mut short.images.0 } else { &mut short.images.1 }.pop();
        refused(&short, 11);
    }
    refused(&bad, 12);
    bad.images.0[0] ^= 1;
    refused(&bad, 14);
    refused(&Call { data: 16_384, ..bad.clone() }, 14);
    bad.rack[pair] = 0;
    refused(&bad, 11);
    gives_file(&Call { data: 60, ..bad }, &good().0);
    // More than 96 nodes are 6 before all that.
    for kinds in EDITIONS {
        let machine = File::full(kinds, NO_REGIONS).machine();
        let [call, _] = writers(&machine, 2_000);
        gives_file(&call, &file(&machine));
        for count in [97, 98, 255] {
            let mut more = call.clone();
            more.rack[16] = count;
            refused(&more, 6);
            more.images = (Vec::new(), Vec::new());
            refused(&more, 6);
        }
        let mut fewer = call.clone();
        fewer.rack[16] = 95;
        refused(&fewer, 11);
    }
}

/// Operation 14 by 1 to 10 first; a faulty seat record does not stop the reading.
#[test]
fn refusals_of_operation_14() {
    let behind = [
        (vec![8], 2),
        (vec![10, 0], 2),
        (vec![11], 2),
        (vec![12], 2),
        ([&[11, 0][..], &off_reset(&crate::build::bridge(255, 0))].concat(), 2),
        (vec![9, 1], 3),
        (File::new().0, 4),
        (File::empty().bridge(9, 0).0, 7),
        (File::empty().older(255, 16).0, 8),
        (File::empty().bridge(255, 0).0, 9),
        (File::empty().device(255, 1, only(1, 9)).0, 10),
        (vec![0; 65_540], 1),
    ];
    let machine = File::new().bridge(255, 0).machine();
    let [_, good] = writers(&machine, 10);
    let faulty = [&good.rack[..], &[9, 0, 0, 0, 0]].concat();
    let mut spoilt = good.images.clone();
    spoilt.0[0] ^= 1;
    for (behind, number) in behind {
        let rack = [&faulty[..], &behind].concat();
        for images in [good.images.clone(), (Vec::new(), Vec::new())] {
            refused(&Call { rack: rack.clone(), images, ..good.clone() }, number);
        }
    }
    refused(&Call { rack: Vec::new(), ..good.clone() }, 4);
    let all = File::all_bridges([2, 13]).older(1, 0).0;
    refused(&Call { rack: all, ..good.clone() }, 6);
    let bad = Call { rack: faulty, ..good.clone() };
    refused(&Call { images: (vec![0; 63], Vec::new()), ..bad.clone() }, 11);
    refused(&Call { images: (vec![0; 64], vec![0]), ..bad.clone() }, 11);
    refused(&Call { images: spoilt, ..bad.clone() }, 12);
    refused(&bad, 14);
    refused(&good, 11);
    gives_file(&Call { data: 24, ..good }, &File::new().bridge(255, 0).0);
}

/// "In a C call's rack bytes kind 11 is 2": in every place, whole or cut short.
#[test]
fn kind_11_in_rack_bytes_is_2() {
    let machine = File::new().bridge(255, 0).machine();
    let [_, writer] = writers(&machine, 100);
    let calls = every_operation(&File::new().bridge(255, 0), 0, 0, &[8]);
    let record = [&[11, 0][..], &off_reset(&crate::build::bridge(255, 0))].concat();
    for call in calls.into_iter().skip(7).chain([writer]) {
        assert_eq!(call.gives().number, 0);
        for have in 1..=66 {
            let with = |rack: Vec<u8>| {
                let call = Call { rack, ..call.clone() };
                match call.operation {
                    14 => refused(&call, 2),
                    _ => call.refused(2),
                }
            };
            with(record[..have].to_vec());
            with([&call.rack[..], &record[..have]].concat());
            with([&File::new().0[..], &record[..have]].concat());
            with([&call.rack[..], &record, &record[..have]].concat());
            with([&call.rack[..], &[9, 0, 0, 0, 0], &record[..have]].concat());
        }
        // As an event it is 2 too, whatever its length.
        if call.operation == 8 {
            for have in 1..=66 {
                Call { event: record[..have].to_vec(), ..call.clone() }.refused(2);
            }
        }
    }
}

/// Operation 15 is refused as a file is, with no number, and then by 11 with the counts.
#[test]
fn refusals_of_operation_15() {
    let rack = || File::new().bridge(255, 0).device(255, 1, NO_REGIONS);
    let bridge = off_reset(&rack().rack().nodes[0]);
    let saved = || rack().saved(0, &bridge);
    let files = [
        (File::empty().raw(&[8; 65_537]), 1),
        (saved().raw(&[8; 65_537 - 103]), 1),
        (File::empty().raw(&[8; 65_600]), 1),
        (saved().raw(&[12]), 2),
        (saved().raw(&[11]), 3),
        (File::empty().raw(&[11]), 3),
        (File::empty(), 4),
        (File::empty().saved(0, &bridge), 4),
        (saved().raw(&File::new().0), 4),
        (saved().bridge(255, 2), 5),
        (saved().seat(1, 0, 0), 5),
        (rack().check().saved(0, &bridge), 5),
        (File::all_bridges([2, 13]).bridge(1, 0), 6),
        (rack().older(9, 2), 7),
        (rack().older(255, 16), 8),
        (rack().older(255, 1), 9),
        (rack().device(255, 2, only(1, 9)), 10),
        (saved().get(0, 0, 1), 13),
        (rack().seat(0, 0, 0), 14),
        (rack().seat(0, 0, 0).saved(0, &bridge), 14),
        (saved().acts(1), 15),
        (saved().saved(2, &bridge), 16),
        (saved().saved(0, &bridge), 16),
        (rack().saved(0, &[0; 64]), 17),
        (rack().saved(1, &rack().images().1), 17),
    ];
    for (file, number) in files {
        let error = rackcheck::file::read(&file.0).unwrap_err();
        assert_eq!(error.number, number);
        for lengths in [(64, 64), (0, 0), (4_160, 4_160)] {
            start(&file, lengths).refused(number);
        }
    }
    // 11, after all these.
    for file in [rack(), saved(), saved().check(), rack().seat(1, 0, 0).acts(1)] {
        starts(&file);
        for lengths in [(0, 0), (63, 64), (65, 64), (64, 0), (64, 63), (64, 128), (128, 64)] {
            let call = start(&file, lengths);
            let numbers = rest_0(&[0, 1, 1]);
            assert_eq!(call.gives(), Gives { number: 11, numbers, ..call.nothing() });
        }
    }
    for kinds in EDITIONS {
        let full = File::full(kinds, NO_REGIONS);
        starts(&full);
        let call = start(&full, (64 * 32, 64 * 63));
        let numbers = rest_0(&[0, 32, 64]);
        assert_eq!(call.gives(), Gives { number: 11, numbers, ..call.nothing() });
    }
    // Without nodes: both counts 0, refused or not.
    start(&File::new(), (0, 0)).gives_numbers(&[17]);
    start(&File::new().check(), (0, 0)).gives_numbers(&[17]);
    start(&File::new(), (64, 0)).refused(11);
    // Register records need not be there, and events do not run.
    starts(&rack().put(0, 0, 4, 7));
    starts(&placed(one_of_each_below(13)));
    let call = start(&rack().put(0, 0, 4, 7).check(), (64, 64));
    assert_eq!(call.gives().images, rack().images());
}

/// 12 refuses none, and nothing but the file and the lengths counts.
#[test]
fn operation_15_and_what_it_does_not_use() {
    let mut random = Random(69);
    for _ in 0..200 {
        let machine = random_content(&mut random);
        let file = File(file(&machine)).check();
        let (bridges, devices) = (machine.bridges().len(), machine.devices().len());
        let mut call = start(&file, (bridges, devices));
        let gives = call.gives();
        assert_eq!(gives.images, (machine.bridges().to_vec(), machine.devices().to_vec()));
        call.images = (random.bytes(bridges), random.bytes(devices));
        (call.node, call.named, call.enables) = (random.byte(), random.byte(), random.byte());
        (call.data, call.event) = (random.next() as u32, random.bytes(40));
        assert_eq!(call.gives(), gives);
        // What it gives goes through 12 and is written again.
        let again = Machine::with_images(file.rack(), &gives.images.0, &gives.images.1).unwrap();
        assert_eq!(content(&again), content(&machine));
    }
}

/// All three in one script with others, through the binary, and cut short.
#[test]
fn the_binary() {
    let path = env!("CARGO_BIN_EXE_callcheck");
    let mut random = Random(70);
    let (mut all, mut expected) = (Vec::new(), Vec::new());
    let mut last = 0;
    for _ in 0..40 {
        let machine = random_content(&mut random);
        let saved = File(file(&machine));
        let mut calls = writers(&machine, random.below(1_000) as usize).to_vec();
        calls.push(start(&saved, (machine.bridges().len(), machine.devices().len())));
        calls.push(start(&saved, (64, 64)));
        calls.push(Call { operation: 9, rack: saved.0, ..Call::default() });
        for call in calls {
            last = expected.len();
            all.extend(call.bytes());
            expected.extend(script(&call.bytes()));
        }
    }
    assert_eq!(script(&all), expected);
    assert!(binary(path, &all) == (expected.clone(), true));
    expected.truncate(last);
    assert!(binary(path, &all[..all.len() - 1]) == (expected, true));
    // The lines of a saved file through the other one.
    let machine = seated(2).machine();
    let run = File(file(&machine)).get(0, 0, 0x18).get(1, 1, 0x1C);
    let lines = "1 data 0 00010100\n2 data 1 FFFFFFFF\n";
    let (out, ended_well) = binary(env!("CARGO_BIN_EXE_rackcheck"), &run.0);
    assert_eq!((&out[..], ended_well), (lines.as_bytes(), true));
}
