//! Seat records and seat events in a file: where they stand, refusals 14 and 15, and several
//! faults at once.

use crate::build::{File, EDITIONS, NO_REGIONS};
use crate::refusals::{accepted, accepted_if, refused};

/// Bridge 0 and device 1, in 37 bytes.
fn rack() -> File {
    File::new().bridge(255, 0).device(255, 1, NO_REGIONS)
}

#[test]
fn r14_a_seat_outside_1_to_15() {
    for seat in 0..=255 {
        for mask in [0, 1, 0xFFFF] {
            accepted_if((1..=15).contains(&seat), rack().seat(seat, 0, mask), 14, 37);
        }
    }
}

#[test]
fn r14_no_earlier_node() {
    for node in 0..=255 {
        accepted_if(node < 2, rack().seat(1, node, 0), 14, 37);
        refused(File::new().seat(1, node, 0), 14, 17);
    }
    // The node stands behind it.
    refused(File::new().bridge(255, 0).seat(1, 1, 0).device(255, 1, NO_REGIONS), 14, 24);
    refused(File::new().seat(1, 0, 0).bridge(255, 0), 14, 17);
    for kinds in EDITIONS {
        let full = || File::full(kinds, NO_REGIONS);
        for node in 0..=255 {
            accepted_if(node < 96, full().seat(15, node, 1), 14, 17 + 32 * 7 + 64 * 13);
        }
    }
}

#[test]
fn r14_named_together_before() {
    // Whatever the masks, and with others between.
    for (first, second) in [(0, 0), (1, 1), (1, 2), (0xFFFF, 0), (0, 0xFFFF)] {
        refused(rack().seat(1, 0, first).seat(1, 0, second), 14, 42);
        let file = rack().seat(9, 1, first).seat(9, 0, 1).seat(1, 1, 1).seat(9, 1, second);
        refused(file, 14, 52);
    }
    refused(File::new().bridge(255, 0).seat(1, 0, 0).bridge(255, 1).seat(1, 0, 0), 14, 36);
    accepted(rack().seat(1, 0, 1).seat(1, 1, 1).seat(2, 0, 1).seat(2, 1, 1));
    // Every pair of a full rack, and then each of them again.
    let pairs = (1..=15).flat_map(|seat| (0..96).map(move |node| (seat, node, 0)));
    let all = File::full([2, 13], NO_REGIONS).seated(&pairs.clone().collect::<Vec<_>>());
    accepted(all.clone());
    for (seat, node, mask) in pairs {
        refused(all.clone().seat(seat, node, mask), 14, all.0.len());
    }
}

#[test]
fn r15_a_seat_without_a_record() {
    for seat in 0..=255 {
        accepted_if(seat == 0, rack().acts(seat), 15, 37);
        accepted_if(seat == 0, File::new().acts(seat), 15, 17);
        // A mask of 0 is a record, of whichever node.
        let file = rack().seat(7, 0, 0).seat(9, 1, 0xFFFF).acts(seat);
        accepted_if(matches!(seat, 0 | 7 | 9), file.clone(), 15, 47);
        // In every place among events, which it counts with.
        let file = rack().seat(7, 1, 0).check().acts(7).acts(0).acts(seat).check();
        accepted_if(matches!(seat, 0 | 7), file, 15, 47);
    }
}

#[test]
fn kinds_9_and_10_are_known() {
    // 3, before 4 and 5.
    for have in 1..5 {
        refused(rack().raw(&[9, 1, 0, 0][..have]), 3, 37);
        refused(File::empty().raw(&[9, 1, 0, 0][..have]), 3, 0);
        refused(rack().check().raw(&[9, 99, 99, 0][..have]), 3, 38);
    }
    refused(rack().raw(&[10]), 3, 37);
    refused(File::empty().raw(&[10]), 3, 0);
    // 4, before 14 and 15.
    refused(File::empty().seat(1, 0, 0), 4, 0);
    refused(File::empty().seat(99, 99, 0).raw(&rack().0), 4, 0);
    refused(File::empty().acts(0), 4, 0);
    refused(File::empty().acts(99).raw(&rack().0), 4, 0);
    refused(rack().seat(1, 0, 0).raw(&File::new().0), 4, 42);
    refused(rack().acts(0).raw(&File::new().0), 4, 39);
    // 5, before 6 to 10 and 14.
    refused(rack().check().seat(1, 0, 0), 5, 38);
    refused(rack().check().seat(99, 99, 0), 5, 38);
    refused(rack().seat(1, 0, 0).check().seat(1, 0, 0), 5, 43);
    refused(rack().acts(0).seat(1, 0, 0), 5, 39);
    refused(rack().acts(0).bridge(9, 99), 5, 39);
    refused(rack().acts(0).device(255, 2, NO_REGIONS), 5, 39);
    // Kinds 12 and 14 stay unknown.
    for kind in [12, 14] {
        refused(rack().raw(&[kind, 1, 0, 0, 0]), 2, 37);
    }
    // Before all of them 1.
    refused(rack().raw(&[9; 65_536]), 1, 65_536);
}

#[test]
fn a_seat_record_stands_anywhere_after_its_node() {
    let node = |file: File, n: u8| file.bridge_of([2, 13][usize::from(n % 2)], 255, n);
    let (mut between, mut behind) = (File::new(), File::new());
    for n in 0..4 {
        between = node(between, n);
        between = (0..=n).fold(between, |file, earlier| file.seat(1 + n, earlier, 2));
        behind = node(behind, n);
    }
    // Nodes are numbered without them, and their order plays no part.
    for n in (0..4).rev() {
        behind = (0..=n).fold(behind, |file, earlier| file.seat(1 + n, earlier, 2));
    }
    assert_eq!(between.rack(), behind.rack());
    let run = |file: File| file.acts(2).put(0, 0, 4, 7).put(0, 1, 4, 7).put(0, 2, 4, 7);
    for file in [between, behind] {
        let lines = run(file).lines();
        assert_eq!(lines, ["seat 2", "stored 0", "stored 0", "denied 0"]);
    }
    // A file that ends with one has no lines.
    assert_eq!(rack().seat(1, 0, 0).output(), "");
}

#[test]
fn bodies_are_no_records() {
    // A mask of 0909h, a seat and node of kinds 9 and 8, and a seat event for seat 10.
    let file = File::full([2, 2], NO_REGIONS).seat(9, 8, 0x0909).seat(10, 10, 0x0A0A).acts(10);
    assert_eq!(file.acts(9).output(), "1 seat 10\n2 seat 9\n");
}

#[test]
fn the_first_faulty_record_decides() {
    // 14, with another fault behind it.
    refused(rack().seat(0, 0, 0).raw(&[0]), 14, 37);
    refused(rack().seat(0, 0, 0).raw(&[2]), 14, 37);
    refused(rack().seat(0, 0, 0).bridge(9, 99), 14, 37);
    refused(rack().seat(1, 2, 0).get(0, 0, 1), 14, 37);
    refused(rack().seat(1, 2, 0).acts(9), 14, 37);
    // Another before it.
    refused(rack().bridge(9, 0).seat(0, 0, 0), 7, 37);
    refused(rack().bridge(255, 1).seat(0, 0, 0), 9, 37);
    refused(rack().raw(&[12]).seat(0, 0, 0), 2, 37);
    // A node that is refused gives no number to a seat record.
    refused(rack().bridge(255, 16).seat(1, 2, 0), 8, 37);
    // 15 and other events.
    refused(rack().acts(1).get(0, 0, 1), 15, 37);
    refused(rack().get(0, 0, 1).acts(1), 13, 37);
    refused(rack().acts(1).raw(&[0]), 15, 37);
    refused(rack().check().acts(1).raw(&[10]), 15, 38);
    refused(rack().acts(1).seat(1, 0, 0), 15, 37);
    refused(rack().acts(1).bridge(255, 2), 15, 37);
    // Several in one seat record: the number is one.
    refused(rack().seat(0, 99, 0), 14, 37);
    refused(rack().seat(16, 0, 0).seat(16, 0, 0), 14, 37);
    // Nothing runs before all is checked.
    let file = rack().seat(1, 0, 0).acts(1).put(0, 0, 4, 7).acts(2);
    assert_eq!(file.output(), "refused 15 at 53\n");
}
