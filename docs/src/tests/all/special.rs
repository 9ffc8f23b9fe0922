//! Special cycles (E4): where they end, what is none, and that no register changes.

use crate::build::{agreed, one_of_each_below, status, File, Random, EDITIONS};
use crate::check::random_rack;
use crate::routes::{goes, mixes, open, rack, twice_carried, B11, B12, B13};
use rackcheck::answer::{Abort, Answer};
use rackcheck::calls;
use rackcheck::rack::{Event, Rack, HOST};

/// The file's last event is a special cycle with this line that changes no register, with
/// bridges of either kind.
fn ends(before: File, bus: u8, line: &str) {
    for file in mixes(&before) {
        assert_eq!(file.clone().special(bus).last(), line);
        assert_eq!(file.clone().special(bus).machine(), file.machine(), "{line}");
    }
}

#[test]
fn on_the_root_bus() {
    ends(rack(), 0, "special 0 255");
    ends(open(0x20), 0, "special 0 255");
    // Nobody has to be there.
    assert_eq!(File::new().special(0).output(), "1 special 0 255\n");
    // A bridge that has bus number 0, at reset or with others, takes it no more than Type 0.
    assert_eq!(File::new().bridge(255, 0).special(0).last(), "special 0 255");
    let file = File::new().older(255, 0).put(0, 0, 0x18, 0x00FF_0000);
    assert_eq!(file.special(0).last(), "special 0 255");
}

#[test]
fn one_bridge_down() {
    ends(rack(), 1, "special 1 0");
    ends(rack(), 3, "special 1 1");
    // Command bits play no part, nor does the master abort mode.
    for control in [0, 0x20] {
        ends(open(control), 1, "special 1 0");
        ends(open(control), 3, "special 1 1");
    }
    // A bus without nodes, and the greatest number.
    let file = || File::new().bridge(255, 9).put(0, 9, 0x18, 0x00FF_FF00);
    assert_eq!(file().special(255).last(), "special 1 0");
    assert_eq!(file().special(254).last(), "unclaimed 0 255 abort");
}

#[test]
fn two_bridges_down() {
    ends(rack(), 2, "special 2 2");
    ends(rack(), 4, "special 2 3");
    for control in [0, 0x20] {
        ends(open(control), 2, "special 2 2");
        ends(open(control), 4, "special 2 3");
    }
}

#[test]
fn many_bridges_down() {
    for kinds in EDITIONS {
        // A chain of 32 bridges: bridge n holds bus n + 1.
        let file = File::new().bridge_of(kinds[0], 255, 0);
        let kind = |parent: u8| kinds[usize::from((parent + 1) % 2)];
        let file = (0..31).fold(file, |file, above| file.bridge_of(kind(above), above, 0));
        let number = |file: File, bus: u8| file.put(bus, 0, 0x18, (0x2001 + u32::from(bus)) << 8);
        let file = (0..32).fold(file, number);
        let before = file.machine();
        for bus in 1..=32 {
            let file = file.clone().special(bus);
            assert_eq!(file.last(), format!("special {bus} {}", bus - 1));
            assert_eq!(file.machine(), before);
        }
        assert_eq!(file.special(33).last(), "unclaimed 0 255 abort");
    }
}

#[test]
fn the_same_bus_number_further_down() {
    // Bridge 1 below bridge 0 has the secondary number of bridge 0 too: it ends above it.
    let file = File::new().bridge(255, 0).bridge(0, 0);
    let file = file.put(0, 0, 0x18, 0x0005_0100).put(1, 0, 0x18, 0x0005_0100);
    assert_eq!(file.clone().special(1).last(), "special 1 0");
    assert_eq!(file.special(5).tail(2), ["stored 1", "unclaimed 2 1 done"]);
    // Two bridges there that claim it do not clash: there is no Type 1 on that bus any more.
    let file = File::new().bridge(255, 0).bridge(0, 0).bridge(0, 1);
    let file = file.put(0, 0, 0x18, 0x0005_0100).put(1, 0, 0x18, 0x0005_0100);
    let file = file.put(1, 1, 0x18, 0x0005_0100);
    assert_eq!(file.clone().check().last(), "fault 0 config 0000000000000001 0 1 2");
    assert_eq!(file.special(1).last(), "special 1 0");
}

#[test]
fn a_bus_number_that_nobody_claims() {
    goes(rack().special(9), "unclaimed 0 255 abort", &[]);
    goes(open(0x20).special(9), "unclaimed 0 255 abort", &[]);
    // Bridge 0 takes buses 1 to 9, bridge 2 only bus 2: bus 5 is unclaimed below bridge 0.
    let file = || rack().put(0, 1, 0x18, 0).put(0, 0, 0x18, 0x0009_0100);
    goes(file().special(5), "unclaimed 1 0 done", &[(0, 0, B13)]);
    let target = || file().put(0, 0, 0x3C, 0x20_0000);
    goes(target().special(5), "unclaimed 1 0 target", &[(0, B11, B13)]);
    ends(file(), 2, "special 2 2");
    ends(target(), 2, "special 2 2");
    // Two bridges down, where bridge 2 takes 2 to 9.
    let file = || file().put(1, 0, 0x18, 0x0009_0201);
    goes(file().special(5), "unclaimed 2 2 done", &[(2, 0, B13)]);
    let target = file().put(1, 0, 0x3C, 0x20_0000).special(5);
    goes(target, "unclaimed 2 2 target", &[(0, B11, B12), (2, B11, B13)]);
    // Secondary above subordinate claims nothing, the secondary number itself included.
    goes(rack().put(0, 0, 0x18, 0x0001_0200).special(2), "unclaimed 0 255 abort", &[]);
}

#[test]
fn secondary_0_stays_type_1() {
    let file = File::new().bridge(255, 0).put(0, 0, 0x18, 0x0005_0000);
    assert_eq!(file.clone().special(3).last(), "unclaimed 1 0 done");
    assert_eq!(status(&file.special(3).machine(), 0), (0, B13));
}

#[test]
fn a_bus_number_that_two_bridges_claim() {
    let file = || rack().put(0, 1, 0x18, 0x0004_0200);
    for control in [0, 0x20_0000] {
        let file = || file().put(0, 0, 0x3C, control).put(0, 1, 0x3C, control);
        goes(file().special(2), "clash 0 255 0 1", &[]);
        ends(file(), 0, "special 0 255");
        ends(file(), 1, "special 1 0");
    }
    // Below a bridge.
    let file = twice_carried();
    assert_eq!(file.clone().special(0xF0).last(), "clash 1 0 1 2");
    assert_eq!(file.clone().special(0xF0).machine(), file.machine());
    assert_eq!(file.clone().special(2).last(), "special 2 2");
    assert_eq!(file.special(0xF1).last(), "unclaimed 2 1 done");
}

/// A read of the same register ends as any read of devices 16 to 31.
#[test]
fn a_read_is_none() {
    let read = |file: File, bus: u8| file.raw(&[5, bus, 0xFF, 0]);
    goes(read(rack(), 0), "unclaimed 0 255 abort", &[]);
    goes(read(rack(), 1), "unclaimed 1 0 done", &[(0, 0, B13)]);
    goes(read(rack(), 2), "unclaimed 2 2 done", &[(2, 0, B13)]);
    goes(read(open(0x20), 2), "unclaimed 2 2 target", &[(0, B11, B12), (2, B11, B13)]);
    goes(read(rack(), 9), "unclaimed 0 255 abort", &[]);
}

#[test]
fn other_functions_devices_and_registers() {
    let write = |file: File, bus: u8, device: u8, function: u8, register: u8| {
        file.raw(&[4, bus, device << 3 | function, register, 15, 0, 0, 0, 0])
    };
    for (device, function, register) in
        [(31, 0, 0), (31, 6, 0), (31, 7, 4), (31, 7, 0xFC), (30, 7, 0)]
    {
        let file = |file: File, bus: u8| write(file, bus, device, function, register);
        goes(file(rack(), 0), "unclaimed 0 255 abort", &[]);
        goes(file(rack(), 1), "unclaimed 1 0 done", &[(0, 0, B13)]);
        goes(file(open(0x20), 2), "unclaimed 2 2 target", &[(0, B11, B12), (2, B11, B13)]);
    }
    // Of all writes and reads on a bus that is reached, just one is a special cycle.
    let (rack, (b, d)) = (one_of_each_below(2).rack(), one_of_each_below(2).images());
    let mut specials = Vec::new();
    for device_function in 0..=255 {
        for register in (0..=252).step_by(4) {
            for event in [
                Event::ConfigWrite { bus: 0, device_function, register, enables: 15, data: 0 },
                Event::ConfigRead { bus: 0, device_function, register },
            ] {
                let answer =
                    calls::event(&rack, &mut b.clone(), &mut d.clone(), 0, &event).unwrap();
                let unclaimed = Answer::Unclaimed { crossings: 0, holder: 255, how: Abort::Abort };
                match answer {
                    Answer::Special { .. } => specials.push((event, answer)),
                    Answer::Data { .. } | Answer::Stored { .. } => assert_eq!(device_function, 0),
                    _ => assert_eq!(answer, unclaimed),
                }
            }
        }
    }
    let answer = Answer::Special { crossings: 0, holder: 255 };
    assert_eq!(specials, [(special(0, 15, 0), answer)]);
}

/// The event of a special cycle.
fn special(bus: u8, enables: u8, data: u32) -> Event {
    Event::ConfigWrite { bus, device_function: 0xFF, register: 0, enables, data }
}

#[test]
fn enables_and_data_play_no_part() {
    let before = open(0x20);
    let (rack, images) = (before.rack(), before.images());
    for (bus, crossings, holder) in [(0, 0, 255), (1, 1, 0), (4, 2, 3)] {
        for enables in 0..=255 {
            for data in [0, 1, 0x8000_0000, u32::MAX] {
                let (mut b, mut d) = images.clone();
                let answer = calls::event(&rack, &mut b, &mut d, 0, &special(bus, enables, data));
                let expected = match enables {
                    0..=15 => Ok(Answer::Special { crossings, holder }),
                    _ => Err(13),
                };
                assert_eq!((answer, (b, d)), (expected, images.clone()), "{enables}");
            }
        }
    }
    // In a file: enables 0, then enables and registers that 13 refuses.
    let file = |register: u8, enables: u8| {
        File::new().check().raw(&[4, 0, 0xFF, register, enables, 0, 0, 0, 0])
    };
    assert_eq!(file(0, 0).output(), "1 pass\n2 special 0 255\n");
    for (register, enables) in [(0, 16), (0, 255), (1, 15), (2, 15), (3, 0)] {
        assert_eq!(file(register, enables).output(), "refused 13 at 18\n");
    }
}

/// 11 and 12 stand before it as before any event, over a rack and over bytes.
#[test]
fn refused_before() {
    for kind in [2, 13] {
        let file = one_of_each_below(kind);
        let (records, rack, (b, d)) = (file.clone().0, file.rack(), file.images());
        let run = |b: &[u8], enables: u8| {
            let (mut b2, mut d2) = (b.to_vec(), d.clone());
            let over_rack = calls::event(&rack, &mut b2, &mut d2, 0, &special(0, enables, 0));
            let event = [4, 0, 0xFF, 0, enables, 0, 0, 0, 0];
            let over_bytes = calls::event_of_bytes(&records, &event, &mut b2, &mut d2, 0);
            assert_eq!(over_rack, over_bytes);
            assert_eq!((&b2[..], &d2), (b, &d));
            over_bytes
        };
        let mut spoilt = b.clone();
        spoilt[0x3F] = 1;
        assert_eq!(run(&b[1..], 16), Err(11));
        assert_eq!(run(&spoilt, 16), Err(12));
        assert_eq!(run(&spoilt, 15), Err(12));
        assert_eq!(run(&b, 16), Err(13));
        assert_eq!(run(&b, 15), Ok(Answer::Special { crossings: 0, holder: 255 }));
        let event = [4, 0, 0xFF, 0, 15, 0, 0, 0];
        assert_eq!(calls::event_of_bytes(&records, &event, &mut [], &mut [], 0), Err(3));
    }
}

/// What stands in the status registers stays, set or not; bits that were left by an abort
/// are not cleared, and the next abort sets its own.
#[test]
fn status_registers_are_untouched() {
    let aborted = || open(0x20).get(2, 9, 0);
    let marks = [(0, B11, B12), (2, B11, B13)];
    for bus in 0..5 {
        goes(aborted().special(bus), &open(0).special(bus).last(), &marks);
        assert!(open(0).special(bus).last().starts_with("special"));
    }
    let file = open(0).special(2).special(1).special(0).get(2, 9, 0);
    goes(file, "unclaimed 2 2 done", &[(2, 0, B13)]);
    // All status bits that can stand.
    let before = open(0x20);
    let (rack, (mut b, mut d)) = (before.rack(), before.images());
    b.chunks_mut(64).for_each(|part| (part[0x07], part[0x1F]) = (0xF9, 0xF9));
    d.chunks_mut(64).for_each(|part| part[0x07] = 0xF9);
    let full = (b.clone(), d.clone());
    for bus in 0..5 {
        let answer = calls::event(&rack, &mut b, &mut d, 0, &special(bus, 15, u32::MAX));
        assert!(matches!(answer, Ok(Answer::Special { .. })));
        assert_eq!((&b, &d), (&full.0, &full.1));
    }
}

#[test]
fn a_check_is_as_before() {
    let file = rack().check().special(2).check().special(0).special(9).check();
    let expected =
        ["pass", "special 2 2", "pass", "special 0 255", "unclaimed 0 255 abort", "pass"];
    assert_eq!(file.tail(6), expected);
    let file = rack().put(0, 1, 0x18, 0x0004_0200).special(2).special(1).check();
    let fault = "fault 255 config 0000000000000002 255 0 1";
    assert_eq!(file.tail(3), ["clash 0 255 0 1", "special 1 0", fault]);
}

/// Both images with random bus numbers, master abort modes and status bits, which agree below a
/// bit 6.
pub fn random_images(random: &mut Random, file: &File) -> (Vec<u8>, Vec<u8>) {
    let (mut b, mut d) = file.images();
    for part in b.chunks_mut(64) {
        part[0x19] = random.below(6) as u8;
        part[0x1A] = random.pick(&[part[0x19], part[0x19], 255, 4, 5]);
        part[0x3E] = part[0x3E] & !0x20 | random.pick(&[0, 0x20]);
        part[0x07] = random.byte() & random.pick(&[0, 0xF9]);
        part[0x1F] = random.byte() & random.pick(&[0, 0xF9]);
    }
    d.chunks_mut(64).for_each(|part| part[0x07] = random.byte() & random.pick(&[0, 0xF9]));
    agreed(&file.rack(), (b, d))
}

/// Whether an access to that bus number that ended on the bus of `holder` has arrived: the
/// number is 0 on the root bus, and elsewhere the secondary number of the holder.
fn arrived(rack: &Rack, bridges: &[u8], bus: u8, holder: u8) -> bool {
    let before = rack.numbered().take(holder.into()).filter(|(_, node)| node.is_bridge());
    match holder {
        HOST => bus == 0,
        _ => bus != 0 && bridges[64 * before.count() + 0x19] == bus,
    }
}

/// A write to function 6 is a special cycle in everything but the function, and never has an
/// owner. Where it arrives and is unclaimed, the special cycle ends on the same bus after as
/// many crossings and changes nothing; else both end alike, with the same images.
#[test]
fn ends_where_the_unclaimed_write_does() {
    let mut random = Random(40);
    // Special cycles by crossings, unclaimed ones by how, clashes by crossings.
    let (mut specials, mut unclaimed, mut clashes) = ([0; 9], [0; 3], [0; 9]);
    for _ in 0..2_000 {
        let file = random_rack(&mut random);
        let (rack, images) = (file.rack(), random_images(&mut random, &file));
        for bus in (0..8).chain([255]) {
            let run = |event: &Event| {
                let (mut b, mut d) = images.clone();
                (calls::event(&rack, &mut b, &mut d, 0, event).unwrap(), (b, d))
            };
            let (enables, data) = (random.below(16) as u8, random.next() as u32);
            let event = special(bus, enables, data);
            let device_function = 0xFE;
            let other = Event::ConfigWrite { bus, device_function, register: 0, enables, data };
            let other = run(&other);
            let expected = match other.0 {
                Answer::Unclaimed { crossings, holder, .. }
                    if arrived(&rack, &images.0, bus, holder) =>
                {
                    specials[crossings] += 1;
                    (Answer::Special { crossings, holder }, images.clone())
                }
                Answer::Unclaimed { how, .. } => {
                    unclaimed[how as usize] += 1;
                    other
                }
                Answer::Clash { crossings, .. } => {
                    clashes[crossings] += 1;
                    other
                }
                answer => panic!("{answer}"),
            };
            assert_eq!(run(&event), expected);
        }
    }
    println!("special: {specials:?}, unclaimed: {unclaimed:?}, clashes: {clashes:?}");
    assert!(specials[..3].iter().chain(&unclaimed).chain(&clashes[..2]).all(|count| *count >= 20));
}
