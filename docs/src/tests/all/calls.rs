//! Calls over a rack and two lent images, and over bytes.

use crate::build::{
    bridge, device, one_of_each as rack, one_of_each_below, one_of_each_placed, placed, File,
    NO_REGIONS,
};
use rackcheck::answer::{Abort, Answer};
use rackcheck::calls;
use rackcheck::rack::{Event, Rack};
use rackcheck::windows::{Address, Ends};

#[test]
fn order_over_bytes() {
    let records = rack().0;
    let (b, d) = rack().images();
    let run = |records: &[u8], event: &[u8], b: &[u8], d: &[u8]| {
        calls::event_of_bytes(records, event, &mut b.to_vec(), &mut d.to_vec(), 0)
    };
    let read = [5, 0, 0, 0];
    assert_eq!(run(&records, &read, &b, &d), Ok(Answer::Data { crossings: 0, data: 0x0010_1234 }));
    assert_eq!(run(&records, &[8], &b, &d), Ok(Answer::Pass));
    assert_eq!(calls::check_of_bytes(&records, &b, &d), Ok(Answer::Pass));
    // Rack records first: 1, 2 (an event kind too), 3, 4, 10; all before the event's 2.
    assert_eq!(run(&[0; 65_537], &[], &[], &[]), Err(1));
    assert_eq!(run(&[8], &[], &[], &[]), Err(2));
    assert_eq!(run(&rack().check().0, &[], &[], &[]), Err(2));
    assert_eq!(run(&rack().raw(&[4]).0, &[], &[], &[]), Err(2));
    assert_eq!(run(&rack().raw(&[3]).0, &[], &[], &[]), Err(3));
    assert_eq!(run(&[], &[], &[], &[]), Err(4));
    assert_eq!(run(&rack().device(0, 2, [(1, 1); 3]).0, &[], &[], &[]), Err(10));
    assert_eq!(calls::check_of_bytes(&rack().check().0, &[], &[]), Err(2));
    // Then the event, before 11.
    for kind in (0..=255).filter(|kind| !matches!(kind, 4..=8 | 10)) {
        assert_eq!(run(&records, &[kind], &[], &[]), Err(2));
        assert_eq!(run(&records, &[kind, 0, 0, 0, 0, 0, 0], &[], &[]), Err(2));
    }
    assert_eq!(run(&records, &[], &[], &[]), Err(2));
    for (kind, length) in [(4u8, 8), (5, 3), (6, 10), (7, 6), (8, 0), (10, 1)] {
        for have in 0..20 {
            let mut event = vec![kind];
            event.resize(1 + have, 0);
            assert_eq!(run(&records, &event, &[], &[]), Err(if have == length { 11 } else { 3 }));
        }
    }
    // 11, 12, 13.
    let mut spoilt = b.clone();
    spoilt[0x3F] = 1;
    let odd = [5, 0, 0, 2];
    assert_eq!(run(&records, &odd, &spoilt[1..], &d), Err(11));
    assert_eq!(run(&records, &odd, &spoilt, &d), Err(12));
    assert_eq!(run(&records, &odd, &b, &d), Err(13));
    assert_eq!(run(&records, &[7, 0, 0, 0, 0, 0, 0], &b, &d), Err(13));
}

/// The records of a C call know an older bridge; its event does not.
#[test]
fn an_older_bridge_over_bytes() {
    let file = one_of_each_below(13);
    let (records, (b, d)) = (file.clone().0, file.images());
    let run = |event: &[u8], b: &[u8]| {
        calls::event_of_bytes(&records, event, &mut b.to_vec(), &mut d.clone(), 0)
    };
    let io_base = Answer::Data { crossings: 0, data: 0 };
    assert_eq!(run(&[5, 0, 0, 0x1C], &b), Ok(io_base));
    assert_eq!(run(&[4, 0, 0, 0x28, 15, 1, 1, 1, 1], &b), Ok(Answer::Stored { crossings: 0 }));
    assert_eq!(calls::check_of_bytes(&records, &b, &d), Ok(Answer::Pass));
    assert_eq!(run(&file.clone().older(255, 1).0[37..], &b), Err(2));
    // 3, 4 and 6 to 9 in the records; an event before it is 2.
    let check = |file: File| calls::check_of_bytes(&file.0, &b, &d);
    assert_eq!(check(file.clone().raw(&[13, 255, 1])), Err(3));
    assert_eq!(check(File::empty().older(255, 0)), Err(4));
    assert_eq!(check(file.clone().check().older(255, 1)), Err(2));
    assert_eq!(check(File::all_bridges([13, 2]).older(1, 0)), Err(6));
    assert_eq!(check(file.clone().older(1, 0)), Err(7));
    assert_eq!(check(file.clone().older(0, 16)), Err(8));
    assert_eq!(check(file.clone().older(0, 1)), Err(9));
    // 11, 12 and 13: of these bits only a newer bridge's image may hold any; a bridge is no
    // initiator.
    assert_eq!(run(&[7, 0, 0, 0, 0, 0, 0], &b[1..]), Err(11));
    assert_eq!(run(&[7, 0, 0, 0, 0, 0, 0], &rack().images().0), Err(12));
    assert_eq!(run(&[7, 0, 0, 0, 0, 0, 0], &b), Err(13));
    assert_eq!(run(&[6, 0, 0, 0, 0, 0, 0, 0, 0, 0, 0], &b), Err(13));
    // The reset.
    let (mut b2, mut d2) = (vec![0xEE; 64], vec![0x11; 64]);
    assert_eq!(calls::reset_of_bytes(&records, &mut b2, &mut d2), Ok(()));
    assert_eq!((b2, d2), (b, d));
}

#[test]
fn an_older_bridge_over_a_rack() {
    let machine = placed(one_of_each_below(13)).put(0, 0, 4, 7).machine();
    let (rack, b, d) = (machine.rack(), machine.bridges(), machine.devices());
    let windows = calls::windows(rack, b, d, 0).unwrap();
    assert_eq!(windows.io, Ends { first: 0x3000, last: 0x5FFF });
    assert_eq!(windows.memory, Ends { first: 0x3000_0000, last: 0x400F_FFFF });
    assert_eq!(windows.prefetchable, Ends { first: 0x6000_0000, last: 0x700F_FFFF });
    for (index, ends) in (0u8..).zip([windows.memory, windows.prefetchable, windows.io]) {
        assert_eq!(calls::window(rack, b, d, 0, index), Ok(Some(ends)));
        assert_eq!(calls::ends(rack, b, d, 0, index), Ok(Some(ends)));
    }
    assert_eq!(calls::ends(rack, b, d, 0, 3), Err(13));
    assert_eq!(calls::region(rack, b, d, 0, 0), Err(13));
    assert_eq!(calls::view(rack, b, d, 0), Ok(b));
    let (mut b2, mut d2) = (b.to_vec(), d.to_vec());
    assert_eq!(calls::size(rack, &mut b2, &mut d2, 0, 0), Err(13));
    let written = calls::register_write(rack, &mut b2, &mut d2, 0, (0x30, 15, u32::MAX));
    assert_eq!((written, &b2[..], &d2[..]), (Ok(()), b, d));
    let claim = |bus, address| calls::claim(rack, b, d, (bus, 0), address);
    assert_eq!(claim(255, Address::Io(0x3000)), Ok(true));
    assert_eq!(claim(0, Address::Io(0x3000)), Ok(false));
    for address in [Address::Io(0x1_3000), Address::Memory(0x1_6000_0000)] {
        assert_eq!(claim(255, address), Ok(false));
        assert_eq!(claim(0, address), Ok(true));
    }
}

#[test]
fn a_refused_call_leaves_the_images() {
    let (rack, (mut b, mut d)) = (rack().rack(), rack().images());
    let (b0, d0) = (b.clone(), d.clone());
    assert_eq!(calls::register_write(&rack, &mut b, &mut d, 0, (0x18, 16, 1)), Err(13));
    assert_eq!(calls::register_write(&rack, &mut b, &mut d, 0, (0x19, 15, 1)), Err(13));
    assert_eq!(calls::register_write(&rack, &mut b, &mut d, 2, (0x18, 15, 1)), Err(13));
    assert_eq!((&b, &d), (&b0, &d0));
    assert_eq!(calls::register_write(&rack, &mut b, &mut d, 0, (0x18, 15, 0x0002_0100)), Ok(()));
    let unclaimed = Event::ConfigRead { bus: 1, device_function: 0, register: 0 };
    let answer = calls::event(&rack, &mut b, &mut d, 0, &unclaimed);
    assert_eq!(answer, Ok(Answer::Unclaimed { crossings: 1, holder: 0, how: Abort::Done }));
    assert_eq!(b[0x1F], 0x20);
}

#[test]
fn view_read_and_size() {
    let (rack, (b, d)) = (rack().rack(), rack().images());
    assert_eq!(calls::view(&rack, &b, &d, 0), Ok(&b[..]));
    assert_eq!(calls::view(&rack, &b, &d, 1), Ok(&d[..]));
    assert_eq!(calls::view(&rack, &b, &d, 2), Err(13));
    assert_eq!(calls::view(&rack, &b[1..], &d, 0), Err(11));
    assert_eq!(calls::register_read(&rack, &b, &d, 1, 0x18), Ok(4));
    assert_eq!(calls::register_read(&rack, &b, &d, 1, 0x80), Ok(0));
    assert_eq!(calls::register_read(&rack, &b, &d, 9, 0), Err(13));
    let (mut b2, mut d2) = (b.clone(), d.clone());
    let sizes = [0, 1, 2, 3].map(|region| calls::size(&rack, &mut b2, &mut d2, 1, region));
    assert_eq!(sizes, [Ok(16), Ok(1 << 20), Ok(0), Err(13)]);
    assert_eq!(calls::size(&rack, &mut b2, &mut d2, 0, 0), Err(13));
    assert_eq!((b2, d2), (b, d));
}

#[test]
fn ends_and_claims() {
    let machine = one_of_each_placed().put(0, 0, 4, 2).put(1, 1, 4, 1).machine();
    let (rack, b, d) = (machine.rack(), machine.bridges(), machine.devices());
    let windows = calls::windows(rack, b, d, 0).unwrap();
    assert_eq!(windows.io, Ends { first: 0x1_3000, last: 0x2_5FFF });
    assert_eq!(windows.memory, Ends { first: 0x3000_0000, last: 0x400F_FFFF });
    assert_eq!(windows.prefetchable, Ends { first: 0x1_6000_0000, last: 0x2_700F_FFFF });
    assert_eq!(calls::windows(rack, b, d, 1), Err(13));
    for (index, ends) in (0u8..).zip([windows.memory, windows.prefetchable, windows.io]) {
        assert_eq!(calls::window(rack, b, d, 0, index), Ok(Some(ends)));
        assert_eq!(calls::ends(rack, b, d, 0, index), Ok(Some(ends)));
        assert_eq!(calls::window(rack, b, d, 1, index), Err(13));
        assert_eq!(calls::ends(rack, b, d, 1, index), calls::region(rack, b, d, 1, index));
        assert_eq!(calls::ends(rack, b, d, 2, index), Err(13));
    }
    assert_eq!(calls::window(rack, b, d, 0, 3), Err(13));
    assert_eq!(calls::ends(rack, b, d, 0, 3), Err(13));
    assert_eq!(calls::ends(rack, b, d, 1, 3), Err(13));
    assert_eq!(calls::region(rack, b, d, 1, 0), Ok(Some(Ends { first: 0x1230, last: 0x123F })));
    let top = Ends { first: u64::MAX - 0xF_FFFF, last: u64::MAX };
    assert_eq!(calls::region(rack, b, d, 1, 1), Ok(Some(top)));
    assert_eq!(calls::region(rack, b, d, 1, 2), Ok(None));
    assert_eq!(calls::region(rack, b, d, 0, 0), Err(13));
    let claim = |bus, agent, address| calls::claim(rack, b, d, (bus, agent), address);
    assert_eq!(claim(255, 0, Address::Memory(0x3000_0000)), Ok(true));
    assert_eq!(claim(255, 0, Address::Memory(0x4010_0000)), Ok(false));
    assert_eq!(claim(255, 0, Address::Io(0x1_3000)), Ok(false)); // bit 0 is clear
    assert_eq!(claim(0, 0, Address::Memory(0)), Ok(false)); // bit 2 is clear
    assert_eq!(claim(0, 1, Address::Io(0x123F)), Ok(true));
    assert_eq!(claim(0, 1, Address::Memory(u64::MAX)), Ok(false)); // bit 1 is clear
    assert_eq!(claim(255, 255, Address::Memory(0x1FFF)), Ok(true));
    assert_eq!(claim(0, 255, Address::Memory(0x1FFF)), Ok(false)); // no agent of that bus
    assert_eq!(claim(255, 1, Address::Io(0x123F)), Ok(false)); // nor this
    assert_eq!(claim(1, 1, Address::Io(0)), Err(13));
    assert_eq!(claim(255, 7, Address::Io(0)), Err(13));
}

#[test]
fn empty_windows_have_no_ends() {
    // Base one step above limit, in each kind; the ends are as decoded in the windows.
    let file = File::new()
        .bridge(255, 0)
        .put(0, 0, 0x1C, 0x1020)
        .put(0, 0, 0x20, 0x0010_0020)
        .put(0, 0, 0x24, 0xFFF0_0000)
        .put(0, 0, 0x28, 1);
    let (rack, (b, d)) = (file.rack(), file.images());
    let windows = calls::windows(&rack, &b, &d, 0).unwrap();
    assert_eq!(windows.io, Ends { first: 0x2000, last: 0x1FFF });
    assert_eq!(windows.memory, Ends { first: 0x20_0000, last: 0x1F_FFFF });
    assert_eq!(windows.prefetchable, Ends { first: 0x1_0000_0000, last: 0xFFFF_FFFF });
    for index in 0..3 {
        assert_eq!(calls::ends(&rack, &b, &d, 0, index), Ok(None));
        assert_eq!(calls::ends_of_bytes(&File::new().bridge(255, 0).0, &b, &d, 0, index), Ok(None));
    }
}

#[test]
fn reset_over_bytes() {
    let records = rack().0;
    // Whatever stands in the images, fixed bits too.
    let (mut b, mut d) = (vec![0xEE; 64], vec![0x11; 64]);
    assert_eq!(calls::reset_of_bytes(&records, &mut b, &mut d), Ok(()));
    assert_eq!((b, d), rack().images());
    // 10 before 11; refused, the images stay.
    let bad = rack().device(0, 2, [(1, 1); 3]).0;
    for (records, lengths, number) in [(&bad, (0, 0), 10), (&records, (0, 64), 11)] {
        let (mut b, mut d) = (vec![0xEE; lengths.0], vec![0x11; lengths.1]);
        let before = (b.clone(), d.clone());
        assert_eq!(calls::reset_of_bytes(records, &mut b, &mut d), Err(number));
        assert_eq!((b, d), before);
    }
}

#[test]
fn racks_that_are_refused_do_not_panic() {
    // A bridge that is its own parent, a region that shifts everything away.
    let nodes = [vec![bridge(0, 0)], vec![device(0, 0, [(3, 255); 3]); 400]].concat();
    let rack = Rack { nodes, ..Rack::default() };
    let (mut b, mut d) = rackcheck::registers::reset_images(&rack);
    assert_eq!(calls::event(&rack, &mut b, &mut d, 0, &Event::Check), Err(7));
    assert_eq!(calls::check(&rack, &b, &d), Err(7));
    assert_eq!(calls::view(&rack, &b, &d, 0), Err(7));
    assert_eq!(calls::size(&rack, &mut b, &mut d, 1, 0), Err(7));
    assert_eq!(rack.greatest_depth(), 0);
    assert_eq!(File::new().device(255, 0, NO_REGIONS).machine().rack().agents(255), [255, 0]);
}
