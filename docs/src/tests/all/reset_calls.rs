//! Secondary bus reset in calls: writes and answers over a rack, over bytes and in scripts, and
//! refusal 18 in every call.

use crate::build::{hex, one_of_each_below, placed, File, Random, EDITIONS, NO_REGIONS};
use crate::resets::{control, BIT_6};
use crate::routes::open;
use crate::saved::random_content;
use crate::script::{decoded, every_operation, rest_0, script, Call, Gives};
use rackcheck::answer::{Abort, Answer};
use rackcheck::calls;
use rackcheck::machine::Machine;
use rackcheck::rack::Event;
use rackcheck::refuse::{self, Fields};
use rackcheck::registers::{self, masks};
use rackcheck::saved;
use rackcheck::seats::Grant;
use rackcheck::windows::Address;

/// Bridge 0 of that kind, device 1 below it, both off reset, and seats 3 and 4.
fn seated(kind: u8) -> File {
    placed(one_of_each_below(kind)).seated(&[(3, 0, 0x8000), (4, 1, 0)])
}

/// The same with device 1 held.
fn held(kind: u8) -> File {
    control(seated(kind), (0, 0), 0x40)
}

/// The call with bit 6 set in the image of bridge 0, and nothing else changed.
fn broken(call: &Call) -> Call {
    let mut call = call.clone();
    call.images.0[0x3E] |= 0x40;
    call
}

/// All calls of [`every_operation`] and both writers, over the records of a file with images
/// after its events.
fn all_calls(file: &File, node: u8, named: u8, event: &[u8]) -> Vec<Call> {
    let mut calls = every_operation(file, node, named, event);
    for (operation, like) in [(13, 0), (14, 10)] {
        calls.push(Call { operation, data: 300, ..calls[like].clone() });
    }
    calls
}

/// The call is refused; a writer leaves its buffer.
fn refused(call: &Call, number: u8) {
    match call.operation {
        13 | 14 => {
            let part = vec![call.enables; call.data as usize];
            assert_eq!(call.gives(), Gives { number, part, ..call.nothing() }, "{call:?}");
        }
        _ => call.refused(number),
    }
}

#[test]
fn a_write_and_an_event_by_hand() {
    // Bridge 0 (device number 1) with bus numbers 1 to 1, device 1 (device number 2) below it.
    let over_rack = [
        "0100000000000000 0000000000000000 02",
        "02 FF 01 34 12 10 00 09 09 09 09 09 09",
        "03 00 02 78 56 20 00 02 0C 00 00 00 00",
        &"00".repeat(94 * 13 + 15 * 96 * 3),
    ]
    .concat();
    let bytes = "01 0100000000000000 0000000000000000 02 FF 01 34 12 10 00 \
                 03 00 02 78 56 20 00 02 0C 00 00 00 00";
    let bridge = |status: &str, bits: &str| {
        let head = "34121000 00000000 00000406 00000100 00000000 00000000 00010100";
        let rest = ["0101", status, "00000000 01000100", &"00".repeat(20), "0000"].concat();
        [head, &rest, bits, "00"].concat()
    };
    let device = |command: &str, region: &str| {
        ["78562000", command, "000000FF 00000000", region, &"00".repeat(44)].concat()
    };
    let (set_up, reset) = (device("07000000", "00E0CDAB"), device("00000000", "00000000"));
    let gives = |numbers: &str, bridge: &str, device: &str| {
        let numbers = [numbers, &"00".repeat(64 - numbers.replace(' ', "").len() / 2)].concat();
        hex(&["00", &numbers, "0000", bridge, device].concat())
    };
    // Directly: bit 6 with byte 2 enabled.
    let head = "02 D1150000 0000 4000 4000 00 3C 04 FFFF40FF";
    let call = [head, &over_rack, &bridge("0000", "00"), &set_up].concat();
    assert_eq!(script(&hex(&call)), gives("", &bridge("0000", "40"), &reset));
    // Without byte 2 nothing happens below.
    let head = "02 D1150000 0000 4000 4000 00 3C 08 FFFF40FF";
    let call = [head, &over_rack, &bridge("0000", "00"), &set_up].concat();
    assert_eq!(script(&hex(&call)), gives("", &bridge("0000", "00"), &set_up));
    // On the held device: no refusal, and nothing stored.
    let head = "02 D1150000 0000 4000 4000 01 10 0F FFFFFFFF";
    let call = [head, &over_rack, &bridge("0000", "40"), &reset].concat();
    assert_eq!(script(&hex(&call)), gives("", &bridge("0000", "40"), &reset));
    // Its size is 1000h.
    let head = "04 D1150000 0000 4000 4000 01 00 00 00000000";
    let call = [head, &over_rack, &bridge("0000", "40"), &reset].concat();
    assert_eq!(script(&hex(&call)), gives("0010", &bridge("0000", "40"), &reset));
    // Over bytes: the event that sets the bit, a read of bus 1, an access of the device.
    for (head, event, numbers, images) in [
        (
            "0900",
            "04 00 08 3C 04 00004000",
            "0200000000000000",
            [bridge("0000", "00"), set_up.clone(), bridge("0000", "40"), reset.clone()],
        ),
        (
            "0400",
            "05 01 10 00",
            "0500000000000000 0100000000000000 0000000000000000 0100000000000000",
            [bridge("0000", "40"), reset.clone(), bridge("0020", "40"), reset.clone()],
        ),
        (
            "0B00",
            "06 01 00 0000000000000000",
            "0700000000000000",
            [bridge("0000", "40"), reset.clone(), bridge("0000", "40"), reset.clone()],
        ),
    ] {
        let head = ["08 25000000", head, "4000 4000 00 00 00 00000000"].concat();
        let call = [&head, bytes, event, &images[0], &images[1]].concat();
        assert_eq!(script(&hex(&call)), gives(numbers, &images[2], &images[3]));
    }
    // 18: the bit is set and the device is not at reset.
    let head = "09 25000000 0000 4000 4000 00 00 00 00000000";
    let images = [bridge("0000", "40"), set_up].concat();
    let refused = ["12", &"00".repeat(66), &images].concat();
    assert_eq!(script(&hex(&[head, bytes, &images].concat())), hex(&refused));
}

#[test]
fn r18_in_every_call() {
    for kind in [2, 13] {
        for call in all_calls(&seated(kind), 1, 0, &[8]) {
            let broken = broken(&call);
            match call.operation {
                // A reset does not look at what stands in the images.
                10 => assert_eq!(broken.gives().images, one_of_each_below(kind).images()),
                _ => refused(&broken, 18),
            }
            // Which node a call names plays no part.
            if !matches!(call.operation, 6 | 8 | 10) {
                refused(&Call { node: 0, ..broken }, 18);
            }
        }
        // Held and at reset, nothing is refused.
        for call in all_calls(&held(kind), 1, 0, &[8]) {
            let call = match call.operation {
                6 | 8 => Call { node: 0, ..call },
                _ => call,
            };
            assert_eq!(call.gives().number, 0);
        }
    }
}

/// 11, 12, 18, then 13, 14, 15, and the buffer's 11 last.
#[test]
fn r18_straight_after_12() {
    let pair = 17 + 96 * 13 + 3 * (96 * 4 + 2);
    // Register, region or window 5 is wrong, the event's initiator is a bridge, seat 1 is not
    // known, a seat record is faulty, and the buffer is too short.
    let event = [7, 0, 0, 0, 0, 0, 0];
    for call in all_calls(&seated(2), 1, 5, &event) {
        let mut bad = Call { data: 20, ..broken(&call) };
        match call.operation {
            1..=7 | 13 => bad.rack[pair] = 1,
            _ => bad.rack.extend([9, 5, 2, 0, 0]),
        }
        // A fixed bit of the device below, of the bridge, and an image that is too short.
        for image in [0, 1] {
            let mut spoilt = bad.clone();
            let images = [&mut spoilt.images.0, &mut spoilt.images.1];
            images[image].as_mut_slice()[0x3F] |= 1;
            match call.operation {
                10 => refused(&spoilt, 14),
                _ => refused(&spoilt, 12),
            }
            spoilt.images.1.pop();
            refused(&spoilt, 11);
        }
        if call.operation == 10 {
            refused(&bad, 14);
            continue;
        }
        refused(&bad, 18);
        // Without it, the others in their order.
        bad.images.0[0x3E] &= !0x40;
        match call.operation {
            3 | 7 | 9 | 13 | 14 => refused(&bad, 14),
            _ => refused(&bad, 13),
        }
        let right = Call { named: 0, event: vec![8], ..bad.clone() };
        refused(&right, 14);
        let grants = Call { rack: call.rack.clone(), ..right };
        match call.operation {
            6 | 8 => refused(&grants, 15),
            13 | 14 => refused(&grants, 11),
            _ => assert_eq!(grants.gives().number, 0),
        }
    }
    // 12 of a node behind the one that breaks the agreement, and of a node that is not held.
    let file = File::new().bridge(255, 0).device(0, 0, NO_REGIONS).device(255, 1, NO_REGIONS);
    for call in all_calls(&file.bridge(255, 2).put(0, 0, 0x0C, 5), 0, 0, &[8]) {
        let mut bad = broken(&call);
        bad.images.1[0x0C] = 1;
        match call.operation {
            10 => continue,
            _ => refused(&bad, 18),
        }
        for (bridges, at) in [(false, 64), (false, 0), (true, 64), (true, 0)] {
            let mut spoilt = bad.clone();
            let image = if bridges { &mut spoilt.images.0 } else { &mut spoilt.images.1 };
            image[at] ^= 1;
            refused(&spoilt, 12);
        }
    }
}

/// 1 to 10 and the event's 2 and 3 come before 18 over bytes.
#[test]
fn r18_behind_the_records() {
    for call in all_calls(&seated(13), 0, 0, &[8]) {
        let broken = broken(&call);
        if !matches!(call.operation, 8 | 9 | 11 | 14) {
            continue;
        }
        for (behind, number) in [
            (vec![8], 2),
            (vec![11], 2),
            (vec![9, 1], 3),
            (File::new().0, 4),
            (File::empty().bridge(9, 0).0, 7),
            (File::empty().older(255, 16).0, 8),
            (File::empty().bridge(255, 0).0, 9),
            (vec![0; 65_540], 1),
        ] {
            let rack = [&call.rack[..], &behind].concat();
            refused(&Call { rack, ..broken.clone() }, number);
        }
        if call.operation == 8 {
            for (event, number) in [(vec![], 2), (vec![9], 2), (vec![8, 0], 3), (vec![8], 18)] {
                refused(&Call { event, ..broken.clone() }, number);
            }
        }
    }
}

/// Every bit of every node in a chain, below each bridge: 12 where it is fixed, 18 where it is not
/// and the node is held.
#[test]
fn r18_for_every_bit() {
    for [first, second] in EDITIONS {
        let file = File::new()
            .bridge_of(first, 255, 0)
            .bridge_of(second, 0, 0)
            .device(1, 0, [(1, 4), (2, 12), (3, 20)])
            .device(0, 1, NO_REGIONS)
            .device(255, 1, NO_REGIONS);
        let (rack, reset) = (file.rack(), file.images());
        for (resets, below) in [(0usize, &[1u8, 2, 3][..]), (1, &[2])] {
            let mut set = reset.clone();
            set.0[64 * resets + 0x3E] = 0x40;
            assert_eq!(refuse::images(&rack, &set.0, &set.1), None);
            for (number, node) in rack.numbered() {
                let masks = masks(node);
                for bit in 0..512 {
                    let (mut b, mut d) = set.clone();
                    registers::part_mut(&rack, &mut b, &mut d, number)[bit / 8] ^= 1 << (bit % 8);
                    let free = (masks.write[bit / 8] | masks.clear[bit / 8]) >> (bit % 8) & 1 == 1;
                    // Bit 6 of bridge 0 above the one of bridge 1.
                    let above = resets == 1 && number == 0 && bit == 8 * 0x3E + 6;
                    let expected = match (free, below.contains(&number) || above) {
                        (false, _) => Some(12),
                        (true, true) => Some(18),
                        (true, false) => None,
                    };
                    assert_eq!(refuse::images(&rack, &b, &d), expected, "{number} {bit}");
                    let machine = Machine::with_images(rack.clone(), &b, &d);
                    assert_eq!(machine.err(), expected);
                }
            }
        }
    }
}

/// Bits 6 above each other break the agreement, whoever else is at reset; deep below too.
#[test]
fn r18_nested() {
    let chain = (0..32u8).fold(File::new(), |file, n| file.bridge(n.wrapping_sub(1), 0));
    let (rack, (reset, none)) = (chain.rack(), chain.images());
    let is_refused = |set: &[usize]| {
        let mut image = reset.clone();
        set.iter().for_each(|bridge| image[64 * bridge + 0x3E] = 0x40);
        refuse::images(&rack, &image, &none)
    };
    for bridge in 0..32 {
        assert_eq!(is_refused(&[bridge]), None);
        for lower in bridge + 1..32 {
            assert_eq!(is_refused(&[bridge, lower]), Some(18));
        }
    }
    assert_eq!(is_refused(&[0, 15, 31]), Some(18));
}

/// The library's calls, those that no script makes too; refused, they leave both images.
#[test]
fn r18_in_the_library() {
    let machine = seated(2).machine();
    let (rack, b0, d0) = (machine.rack(), machine.bridges(), machine.devices());
    let mut b0 = b0.to_vec();
    b0[0x3E] = 0x40;
    let (mut b, mut d) = (b0.clone(), d0.to_vec());
    let mut faulty = rack.clone();
    faulty.grants.take(2, Grant { seat: 3, node: 2, mask: 0 });
    let odd = Fields { register: Some(1), ..Fields::default() };
    for rack in [rack, &faulty] {
        let is = |number: Option<u8>| assert_eq!(number, Some(18));
        is(calls::view(rack, &b, &d, 0).err());
        is(calls::view(rack, &b, &d, 9).err());
        is(calls::register_read(rack, &b, &d, 0, 1).err());
        is(calls::windows(rack, &b, &d, 1).err());
        is(calls::window(rack, &b, &d, 0, 9).err());
        is(calls::region(rack, &b, &d, 1, 9).err());
        is(calls::ends(rack, &b, &d, 9, 0).err());
        is(calls::claim(rack, &b, &d, (9, 9), Address::Io(0)).err());
        is(calls::check(rack, &b, &d).err());
        is(calls::save(rack, &b, &d, &mut []).err());
        is(refuse::call(rack, &b, &d, &odd));
        is(calls::size(rack, &mut b, &mut d, 0, 0).err());
        is(calls::register_write(rack, &mut b, &mut d, 0, (0x3C, 15, 0)).err());
        is(calls::event(rack, &mut b, &mut d, 99, &Event::Check).err());
        assert_eq!((&b[..], &d[..]), (&b0[..], d0));
    }
    // Clearing the bit in the image, not by a call, makes it right again.
    b[0x3E] = 0;
    assert_eq!(calls::check(rack, &b, &d), Ok(Answer::Pass));
}

/// A view shows nothing of an image that breaks the agreement; of a held node it shows reset.
#[test]
fn views() {
    for kind in [2, 13] {
        let call = |file: &File, node: u8| every_operation(file, node, 0, &[]).remove(2);
        for node in [0, 1] {
            let broken = broken(&call(&seated(kind), node));
            assert_eq!(broken.gives(), broken.nothing());
        }
        let view = call(&held(kind), 1);
        let part = one_of_each_below(kind).images().1;
        assert_eq!(view.gives(), Gives { part, ..view.nothing() });
    }
}

/// Direct writes and sizing in scripts, with what they do below and what they leave.
#[test]
fn direct_calls() {
    for kind in [2, 13] {
        let reset = one_of_each_below(kind).images().1;
        let write = |file: &File, node: u8, named: u8, enables: u8, data: u32| {
            let call = every_operation(file, node, named, &[]).remove(1);
            Call { enables, data, ..call }
        };
        for enables in 0..16 {
            let call = write(&seated(kind), 0, 0x3C, enables, BIT_6);
            let mut images = call.images.clone();
            if enables & 4 != 0 {
                images.0[0x3E] = 0x40;
                images.1.copy_from_slice(&reset);
            }
            assert_eq!(call.gives(), Gives { images, ..call.nothing() });
            // On the held device nothing changes, and nothing is refused but wrong fields.
            for named in (0..=252).step_by(4) {
                write(&held(kind), 1, named, enables, u32::MAX).gives_numbers(&[]);
            }
            write(&held(kind), 1, 5, enables, 0).refused(13);
            write(&held(kind), 1, 4, 16 + enables, 0).refused(13);
        }
        write(&held(kind), 2, 4, 15, 0).refused(13);
        // Clearing the bit changes the bridge's part alone.
        let call = write(&held(kind), 0, 0x3C, 4, 0);
        let mut images = call.images.clone();
        images.0[0x3E] = 0;
        assert_eq!(call.gives(), Gives { images, ..call.nothing() });
        let size = |named: u8| every_operation(&held(kind), 1, named, &[]).remove(3);
        size(0).gives_numbers(&[16]);
        size(1).gives_numbers(&[1 << 20]);
        size(2).gives_numbers(&[]);
        size(3).refused(13);
        // Both ends are those that the registers give: those of reset.
        for operation in [5, 11] {
            let ends =
                |named: u8| every_operation(&held(kind), 1, named, &[]).remove(operation - 1);
            ends(0).gives_numbers(&[1, 0, 15]);
            ends(1).gives_numbers(&[1, 0, 0xF_FFFF]);
            ends(2).gives_numbers(&[]);
        }
    }
}

/// The endings of events while a branch is held, over a rack and over bytes.
#[test]
fn endings() {
    let none = File::empty;
    for kind in [2, 13] {
        let run = |seat: u8, event: File, numbers: &[u64]| {
            for call in every_operation(&held(kind), seat, 0, &event.0) {
                if matches!(call.operation, 6 | 8) {
                    let gives = call.gives();
                    let expected = held(kind).raw(&event.0).images();
                    assert_eq!((gives.number, gives.numbers), (0, rest_0(numbers)), "{event:?}");
                    assert_eq!(gives.images, if numbers[0] == 10 { call.images } else { expected });
                }
            }
        };
        run(0, none().get(1, 1, 0), &[5, 1, 0, 1]);
        run(0, none().put(1, 1, 4, 7), &[5, 1, 0, 1]);
        run(4, none().put(1, 1, 4, 7), &[5, 1, 0, 1]);
        run(0, none().special(1), &[12, 1, 0]);
        run(0, none().memory(1, 0, 0), &[7]);
        run(4, none().io(1, 1, 0), &[7]);
        run(0, none().check(), &[8]);
        run(0, control(none(), (0, 0), 0), &[2, 0]);
        run(3, control(none(), (0, 0), 0), &[2, 0]);
        run(4, control(none(), (0, 0), 0), &[10, 0]);
    }
    // Bit 5 beside bit 6: a target abort.
    let file = control(seated(2), (0, 0), 0x60);
    for call in every_operation(&file, 0, 0, &none().get(1, 1, 0).0) {
        if matches!(call.operation, 6 | 8) {
            assert_eq!(call.gives().numbers, rest_0(&[5, 1, 0, 2]));
        }
    }
    let (rack, (mut b, mut d)) = (file.rack(), file.images());
    let read = Event::ConfigRead { bus: 1, device_function: 8, register: 0 };
    let target = Answer::Unclaimed { crossings: 1, holder: 0, how: Abort::Target };
    assert_eq!(calls::event(&rack, &mut b, &mut d, 0, &read), Ok(target));
}

/// A rack is saved while a branch is held, opened, and let go; a file that breaks the agreement is
/// not opened.
#[test]
fn saved_and_opened() {
    for (bridge, file) in [((0, 0), open(0)), ((1, 0), open(0x20)), ((0, 1), open(0))] {
        let machine = control(file, bridge, 0x40).machine();
        let images = (machine.bridges().to_vec(), machine.devices().to_vec());
        let saved = saved::file(&machine);
        let records = File(saved.clone()).contents().records;
        let call = Call { images: images.clone(), data: saved.len() as u32, ..Call::default() };
        let over_rack = Call { operation: 13, rack: decoded(machine.rack()), ..call.clone() };
        let over_bytes = Call { operation: 14, rack: saved[..records].to_vec(), ..call };
        for writer in [over_rack, over_bytes] {
            let numbers = rest_0(&[saved.len() as u64]);
            let part = saved.clone();
            assert_eq!(writer.gives(), Gives { numbers, part, ..writer.nothing() });
            refused(&Call { data: saved.len() as u32 - 1, ..writer }, 11);
        }
        // What stands in the images that are opened into plays no part, a broken agreement too.
        let any = (vec![0xFF; images.0.len()], vec![0xFF; images.1.len()]);
        let opened = Call { operation: 15, rack: saved.clone(), images: any, ..Call::default() };
        let numbers = rest_0(&[records as u64, 4, 3]);
        assert_eq!(opened.gives(), Gives { numbers, images, ..opened.nothing() });
        // A record of a held node in its place: 18, before 11 of the images.
        let held = (0..7).find(|node| machine.held(*node)).unwrap();
        let record = crate::build::off_reset(machine.rack().node(held).unwrap());
        let at = records + 66 * (0..held).filter(|node| !machine.held(*node)).count();
        let bad = [&saved[..at], &[11, held], &record, &saved[at..]].concat();
        crate::refusals::refused(File(bad.clone()), 18, at);
        let bad = Call { rack: bad, ..opened };
        bad.refused(18);
        Call { images: (Vec::new(), Vec::new()), ..bad.clone() }.refused(18);
        Call { rack: [&bad.rack[..], &[10, 9]].concat(), ..bad }.refused(18);
    }
}

/// Random racks whose images agree: with bits 6 thrown in, a call is refused by 18 just where a
/// node below a set bit 6 is off reset.
#[test]
fn random_images() {
    let mut random = Random(84);
    let (mut right, mut wrong) = (0, 0);
    for _ in 0..1_500 {
        let machine = random_content(&mut random);
        let (mut b, d) = (machine.bridges().to_vec(), machine.devices().to_vec());
        for part in b.chunks_mut(64).filter(|_| random.one_in(4)) {
            part[0x3E] ^= 0x40;
        }
        let agree = crate::build::agreed(machine.rack(), (b.clone(), d.clone()));
        let expected = if agree == (b.clone(), d.clone()) { None } else { Some(18) };
        assert_eq!(refuse::images(machine.rack(), &b, &d), expected);
        assert_eq!(calls::check(machine.rack(), &b, &d).err(), expected);
        match expected {
            None => right += 1,
            _ => wrong += 1,
        }
    }
    println!("right: {right}, wrong: {wrong}");
    assert!(right >= 300 && wrong >= 200, "{right} {wrong}");
}
