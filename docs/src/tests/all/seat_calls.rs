//! Seats in calls: over a rack, over bytes, and in scripts of both.

use crate::build::{hex, one_of_each_below, placed, File, EDITIONS, NO_REGIONS};
use crate::routes::open;
use crate::script::{decoded, every_operation, rest_0, script, Call, Gives};
use rackcheck::answer::Answer;
use rackcheck::calls;
use rackcheck::rack::{Event, Rack};
use rackcheck::refuse::{self, Fields};
use rackcheck::seats::Grant;
use rackcheck::windows::Address;

/// Bridge 0 of that kind, device 1 below it, and seats 3 and 4: seat 3 may write dwords 1 and
/// 6 of bridge 0, seat 4 nothing.
fn seated(kind: u8) -> File {
    placed(one_of_each_below(kind)).seated(&[(3, 0, 0x42), (4, 1, 0)])
}

/// The two calls that run an event, with that seat.
fn runs(file: &File, seat: u8, event: &[u8]) -> [Call; 2] {
    let mut calls = every_operation(file, seat, 0, event);
    [calls.swap_remove(5), calls.swap_remove(7)]
}

/// Where the pair of a seat and node stands in a decoded rack.
fn pair(seat: u8, node: u8) -> usize {
    17 + 96 * 13 + 3 * (96 * (usize::from(seat) - 1) + usize::from(node))
}

/// The faults that 14 speaks of, in a rack that has two nodes.
const FAULTS: [[u8; 5]; 6] = [
    [9, 0, 0, 0, 0],
    [9, 16, 0, 0, 0],
    [9, 255, 255, 255, 255],
    [9, 5, 2, 1, 0],
    [9, 3, 0, 0x42, 0],
    [9, 4, 1, 1, 0],
];

#[test]
fn a_write_by_hand() {
    // Bridge 0; seat 2 may write dword 6.
    let rack = "01 0100000000000000 0000000000000000 02 FF 01 34 12 10 00 09 02 00 40 00";
    let bridge = |numbers: &str, command: &str| {
        let head = ["34121000", command, "00000406 00000100 00000000 00000000"].concat();
        [&head, numbers, "01010000 00000000 01000100", &"00".repeat(24)].concat()
    };
    let reset = bridge("00000000", "00000000");
    let run = |operation: &str, seat: &str, rack: &str, event: &str| {
        let length = rack.replace(' ', "").len() / 2;
        let count = format!("{:02X}{:02X}0000", length % 256, length / 256);
        let head = [operation, &count, "0900 4000 0000", seat, "00 00 00000000"].concat();
        script(&hex(&[&head, rack, event, &reset].concat()))
    };
    let (granted, outside) = ("04 00 08 18 0F 00010500", "04 00 08 04 0F 07000000");
    // What a decoded rack has for the same: 96 nodes, the pairs of seat 1, and seat 2's first.
    let over_rack = [
        "0100000000000000 0000000000000000 01",
        "02 FF 01 34 12 10 00 09 09 09 09 09 09",
        &"00".repeat(95 * 13 + 96 * 3),
        "01 40 00",
        &"00".repeat((14 * 96 - 1) * 3),
    ]
    .concat();
    let gives = |numbers: &str, image: &str| {
        let numbers = [numbers, &"00".repeat(64 - numbers.replace(' ', "").len() / 2)].concat();
        hex(&["00", &numbers, "0000", image].concat())
    };
    let refused = |number: &str| hex(&[number, &"00".repeat(66), &reset].concat());
    for (operation, rack) in [("08", rack), ("06", &over_rack)] {
        let written = bridge("00010500", "00000000");
        let stored = gives("0200000000000000 0000000000000000", &written);
        assert_eq!(run(operation, "02", rack, granted), stored);
        assert_eq!(run(operation, "00", rack, granted), stored);
        let denied = gives("0A00000000000000 0000000000000000", &reset);
        assert_eq!(run(operation, "02", rack, outside), denied);
        let written = bridge("00000000", "07000000");
        assert_eq!(run(operation, "00", rack, outside), gives("0200000000000000", &written));
        for seat in ["01", "03", "0F", "10", "FF"] {
            assert_eq!(run(operation, seat, rack, granted), refused("0F"));
        }
    }
}

#[test]
fn endings_by_seats() {
    for kind in [2, 13] {
        let run = |seat: u8, event: File, numbers: &[u64], changed: bool| {
            for call in runs(&seated(kind), seat, &event.0) {
                let gives = call.gives();
                let images = match changed {
                    true => seated(kind).raw(&event.0).images(),
                    false => call.images.clone(),
                };
                let (numbers, part) = (rest_0(numbers), Vec::new());
                assert_eq!(gives, Gives { number: 0, numbers, part, images }, "{seat} {event:?}");
            }
        };
        let none = File::empty;
        for (seat, below) in [(3, [10, 1]), (4, [10, 1]), (0, [2, 1])] {
            let granted: [u64; 2] = if seat == 4 { [10, 0] } else { [2, 0] };
            run(seat, none().put(0, 0, 4, 7), &granted, seat != 4);
            run(seat, none().put(0, 0, 0x18, 0x0009_0900), &granted, seat != 4);
            run(seat, none().put_bytes(0, 0, 0x18, 0, 0), &granted, false);
            run(seat, none().put(1, 1, 4, 7), &below, seat == 0);
            run(seat, none().put_bytes(1, 1, 4, 0, 7), &below, false);
            run(seat, none().put(1, 1, 0, 7), &below, false);
            run(seat, none().put(1, 1, 0x40, 7), &[2, 1], false);
            // What no seat is asked for.
            run(seat, none().get(1, 1, 0), &[1, 1, 0x0020_5678], false);
            run(seat, none().special(1), &[12, 1, 0], false);
            run(seat, none().put(0, 9, 4, 7), &[5, 0, 255, 0], false);
            run(seat, none().put(1, 9, 4, 7), &[5, 1, 0, 1], true);
            run(seat, none().memory(1, 0, 0), &[7], false);
            run(seat, none().memory(255, 1, 0x1234), &[5, 0, 255, 0], false);
            run(seat, none().check(), &[8], false);
            // Seat events change nothing, and name any seat that is known.
            for named in [0, 3, 4] {
                run(seat, none().acts(named), &[11, named.into()], false);
            }
        }
    }
}

#[test]
fn r15_for_every_event() {
    let none = File::empty;
    let events = [
        none().put(0, 0, 4, 7),
        none().put(0, 0, 0x40, 7),
        none().put(0, 9, 4, 7),
        none().get(0, 0, 0),
        none().memory(255, 0, 0),
        none().memory(1, 0, 0),
        none().io(255, 1, 0),
        none().check(),
        none().special(0),
        none().acts(0),
        none().acts(3),
    ];
    for event in events {
        for seat in 0..=255 {
            for call in runs(&seated(2), seat, &event.0) {
                match seat {
                    0 | 3 | 4 => assert_eq!(call.gives().number, 0),
                    _ => call.refused(15),
                }
            }
        }
    }
    // The seat that an event names, told by one that is known or not.
    for (told, named) in [0, 3, 9].into_iter().flat_map(|told| (0..=255).map(move |n| (told, n))) {
        for call in runs(&seated(13), told, &[10, named]) {
            match (told, named) {
                (0 | 3, 0 | 3 | 4) => call.gives_numbers(&[11, named.into()]),
                _ => call.refused(15),
            }
        }
    }
    // Only these two are told a seat: in other calls the byte is a node or nothing.
    for call in every_operation(&seated(2), 1, 0, &[]) {
        match call.operation {
            6 => {}
            8 => call.refused(2),
            _ => assert_eq!(call.gives().number, 0),
        }
        if matches!(call.operation, 7 | 9 | 10) {
            assert_eq!(Call { node: 99, ..call.clone() }.gives(), call.gives());
        }
    }
}

#[test]
fn direct_writes_and_sizing_know_no_seats() {
    let calls = every_operation(&seated(2), 1, 4, &[]);
    let write = Call { data: 7, ..calls[1].clone() };
    assert_eq!((write.gives().number, write.gives().images.1[4]), (0, 7));
    Call { named: 1, ..calls[3].clone() }.gives_numbers(&[1 << 20]);
    // All of it as in the same rack without seats.
    let without = every_operation(&placed(one_of_each_below(2)), 1, 0, &[]);
    for (call, without) in every_operation(&seated(2), 1, 0, &[]).iter().zip(without) {
        if !matches!(call.operation, 6 | 8) {
            assert_eq!(call.gives(), without.gives());
        }
    }
}

#[test]
fn r14_in_every_call() {
    for fault in FAULTS {
        // Register, region or window 5 and the event's initiator (bridge 0) are 13, the seat
        // told to the call is 15.
        let event = File::empty().memory(0, 0, 0).0;
        for call in every_operation(&seated(2), 1, 5, &event) {
            let mut call = call;
            match (call.operation, fault) {
                (1..=7, [_, 5, 2, mask @ ..]) => {
                    call.rack[pair(5, 2)] = 1;
                    call.rack[pair(5, 2) + 1..][..2].copy_from_slice(&mask);
                }
                (1..=7, _) => continue,
                _ => call.rack.extend(fault),
            }
            let right = Call { named: 0, event: vec![8], ..call.clone() };
            let mut spoilt = call.clone();
            spoilt.images.0[0x3F] = 1;
            let mut short = spoilt.clone();
            short.images.1.pop();
            short.refused(11);
            match call.operation {
                10 => spoilt.refused(14),
                _ => spoilt.refused(12),
            }
            match call.operation {
                3 | 7 | 9 | 10 => call.refused(14),
                _ => call.refused(13),
            }
            right.refused(14);
            Call { event: vec![10, 9], ..right }.refused(14);
        }
    }
}

#[test]
fn r14_behind_1_to_10_of_the_rack_bytes_and_2_and_3_of_the_event() {
    let more = [
        (vec![8], 2),
        (vec![10], 2),
        (vec![10, 0], 2),
        (vec![11], 2),
        (vec![9, 1, 0, 0], 3),
        (vec![3, 255], 3),
        (File::new().0, 4),
        (File::empty().bridge(9, 0).0, 7),
        (File::empty().older(255, 16).0, 8),
        (File::empty().bridge(255, 0).0, 9),
        (File::empty().device(255, 1, [(1, 9), (0, 0), (0, 0)]).0, 10),
        (vec![0; 65_600], 1),
    ];
    for fault in FAULTS {
        let rack = || one_of_each_below(2).seated(&[(3, 0, 0x42), (4, 1, 0)]).raw(&fault);
        for operation in 8..=11 {
            for (behind, number) in &more {
                let rack = [&rack().0[..], behind].concat();
                let rack = rack[..rack.len().min(65_600)].to_vec();
                Call { operation, rack, ..Call::default() }.refused(*number);
            }
        }
        for (event, number) in [
            (vec![], 2),
            (vec![3], 2),
            (fault.to_vec(), 2),
            (vec![9], 2),
            (vec![10], 3),
            (vec![10, 0, 0], 3),
            (vec![8], 11),
            (vec![10, 99], 11),
        ] {
            Call { operation: 8, rack: rack().0, event, node: 99, ..Call::default() }
                .refused(number);
        }
    }
    // A 33rd bridge, and a seat record before the host.
    let full = File::all_bridges([2, 13]).seat(0, 0, 0).bridge(1, 0).0;
    Call { operation: 9, rack: full, ..Call::default() }.refused(6);
    let first = File::empty().seat(0, 0, 0).raw(&File::new().0).0;
    Call { operation: 9, rack: first, ..Call::default() }.refused(4);
    // The node stands behind its record.
    let later = File::new().seat(1, 0, 0).bridge(255, 0);
    let images = File::new().bridge(255, 0).images();
    for operation in 9..=11 {
        Call { operation, rack: later.0.clone(), images: images.clone(), ..Call::default() }
            .refused(14);
    }
    // Between the nodes it is right.
    let between = File::new().bridge(255, 0).seat(1, 0, 2).device(255, 1, NO_REGIONS);
    for call in runs(&between, 1, &File::empty().put(0, 1, 4, 7).0) {
        call.gives_numbers(&[10, 0]);
    }
}

/// Each pair is named in its own three bytes, and the mask of no other counts.
#[test]
fn the_pairs_of_a_decoded_rack() {
    // Four nodes on the root bus.
    let file = (0..4).fold(File::new(), |file, n| file.bridge_of([2, 13][n % 2], 255, n as u8));
    let [call, _] = runs(&file, 0, &[8]);
    let event = |node: u8| File::empty().put(0, node, 0x18, 0).0;
    for (seat, node) in (1..=15).flat_map(|seat| (0..96).map(move |node| (seat, node))) {
        let mut call = Call { node: seat, event: event(node % 4), ..call.clone() };
        call.refused(15);
        call.rack[pair(seat, node)] = 1;
        call.rack[pair(seat, node) + 1..][..2].copy_from_slice(&[0x40, 0]);
        if node >= 4 {
            call.refused(14);
            continue;
        }
        call.gives_numbers(&[2, 0]);
        Call { event: event((node + 1) % 4), ..call.clone() }.gives_numbers(&[10, 0]);
        Call { node: seat % 15 + 1, ..call.clone() }.refused(15);
        for mask in [[0, 0], [0xBF, 0xFF], [0, 0x40]] {
            call.rack[pair(seat, node) + 1..][..2].copy_from_slice(&mask);
            call.gives_numbers(&[10, 0]);
        }
        // Another value ends the script, also where there is no node.
        for (named, node) in [(2, node), (255, node), (2, 95), (0xEE, 4)] {
            let mut none = call.clone();
            none.rack[pair(seat, node)] = named;
            none.ends();
        }
    }
}

/// A full rack has every pair; a 97th node is 6 whatever the pairs.
#[test]
fn all_pairs() {
    for kinds in EDITIONS {
        let pairs = (1..=15).flat_map(|seat| (0..96).map(move |node| (seat, node, 1 << seat)));
        let file = File::full(kinds, NO_REGIONS).seated(&pairs.collect::<Vec<_>>());
        for seat in 1..=15 {
            for call in runs(&file, seat, &File::empty().put(0, 0, 4 * seat, 0).0) {
                assert_eq!(call.gives().numbers, rest_0(&[2, 0]));
                let event = File::empty().put(0, 0, 4 * seat - 4, 0).0;
                Call { event, ..call }.gives_numbers(&[10, 0]);
            }
        }
        let [call, _] = runs(&file, 99, &[8]);
        for (count, number) in [(96, 15), (95, 11), (97, 6), (255, 6)] {
            let mut call = call.clone();
            call.rack[16] = count;
            call.refused(number);
        }
    }
}

/// The library's calls, those that no script makes too.
#[test]
fn r14_and_15_in_the_library() {
    let machine = seated(2).machine();
    let (b, d) = (machine.bridges(), machine.devices());
    let mut faulty: Rack = machine.rack().clone();
    faulty.grants.take(2, Grant { seat: 3, node: 2, mask: 0 });
    let none = Fields::default();
    let odd = Fields { register: Some(1), ..none };
    for (rack, number) in [(machine.rack(), None), (&faulty, Some(14))] {
        let is = |refused: Option<u8>| assert_eq!(refused, number);
        is(calls::view(rack, b, d, 0).err());
        is(calls::register_read(rack, b, d, 0, 0).err());
        is(calls::windows(rack, b, d, 0).err());
        is(calls::window(rack, b, d, 0, 0).err());
        is(calls::region(rack, b, d, 1, 0).err());
        is(calls::ends(rack, b, d, 1, 0).err());
        is(calls::claim(rack, b, d, (255, 0), Address::Io(0)).err());
        is(calls::check(rack, b, d).err());
        is(refuse::call(rack, b, d, &none));
        is(refuse::grants(rack));
        assert_eq!(refuse::call(rack, b, d, &odd), Some(13));
        assert_eq!(refuse::call(rack, &b[1..], d, &odd), Some(11));
        let (mut b2, mut d2) = (b.to_vec(), d.to_vec());
        is(calls::size(rack, &mut b2, &mut d2, 1, 0).err());
        is(calls::register_write(rack, &mut b2, &mut d2, 0, (0x40, 15, 0)).err());
        is(calls::event(rack, &mut b2, &mut d2, 3, &Event::Check).err());
        let unknown = calls::event(rack, &mut b2, &mut d2, 5, &Event::Check);
        assert_eq!(unknown, Err(number.unwrap_or(15)));
        assert_eq!((&b2[..], &d2[..]), (b, d));
    }
    assert_eq!(calls::view(&faulty, b, d, 2), Err(13));
    for seat in 0..=255 {
        let known = matches!(seat, 0 | 3 | 4);
        assert_eq!(refuse::seat(machine.rack(), seat), if known { None } else { Some(15) });
        let event = refuse::seat_of_event(machine.rack(), &Event::Seat { seat });
        assert_eq!(event, refuse::seat(machine.rack(), seat));
        assert_eq!(refuse::seat_of_event(machine.rack(), &Event::Check), None);
    }
}

/// Over a rack and over bytes the answers are those of the run in a file, and a call does not
/// remember who acted.
#[test]
fn one_by_one() {
    let file = open(0x20).seated(&[(6, 4, 2), (6, 0, 2), (7, 2, 0x40)]);
    let (rack, mut images) = (file.rack(), file.images());
    let records = file.0[..file.records_length()].to_vec();
    let event = |bytes: &[u8]| rackcheck::file::read_event(bytes).unwrap();
    let write = |bus: u8, device: u8, register: u8| File::empty().put(bus, device, register, 3).0;
    for (seat, bytes, answer) in [
        (6, write(2, 7, 4), Answer::Stored { crossings: 2 }),
        (7, write(2, 7, 4), Answer::Denied { crossings: 2 }),
        (7, vec![10, 6], Answer::Seat { seat: 6 }),
        (7, write(2, 7, 4), Answer::Denied { crossings: 2 }),
        (0, write(2, 7, 4), Answer::Stored { crossings: 2 }),
        (7, write(1, 0, 4), Answer::Denied { crossings: 1 }),
        (6, write(0, 0, 4), Answer::Stored { crossings: 0 }),
        (6, write(1, 0, 0x18), Answer::Denied { crossings: 1 }),
        (7, write(1, 0, 0x18), Answer::Stored { crossings: 1 }),
    ] {
        let (mut b, mut d) = images.clone();
        let over_bytes = calls::event_of_bytes(&records, &bytes, &mut b, &mut d, seat);
        let after = (b, d);
        let (mut b, mut d) = images.clone();
        let over_rack = calls::event(&rack, &mut b, &mut d, seat, &event(&bytes));
        assert_eq!((over_rack, over_bytes, &(b, d)), (Ok(answer), Ok(answer), &after));
        if !matches!(answer, Answer::Stored { .. }) {
            assert_eq!(after, images);
        }
        images = after;
        assert_eq!(decoded(&rack).len(), 5_585);
    }
}
