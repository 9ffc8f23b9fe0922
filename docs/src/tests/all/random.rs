//! Random byte strings never panic, and their outputs have the right form.

use crate::build::{output, Random};
use crate::saved::random_part;
use rackcheck::program::Run;
use rackcheck::rack::Event;

fn well_formed(bytes: &[u8]) -> bool {
    let out = output(bytes);
    let refused = out.starts_with("refused ");
    assert!(out.is_empty() || out.ends_with('\n'));
    assert!(!refused || out.lines().count() == 1);
    // All calls over the same bytes, too.
    let _ = rackcheck::calls::check_of_bytes(bytes, bytes, bytes);
    let _ = rackcheck::calls::event_of_bytes(bytes, bytes, &mut [], &mut [], 0);
    let _ = rackcheck::calls::save_of_bytes(bytes, &[], &[], &mut [0; 20]);
    let start = rackcheck::calls::start_of_file(bytes, &mut [], &mut []);
    assert_eq!(matches!(start.records, Ok(_) | Err(11)), !refused);
    !refused
}

#[test]
fn any_bytes() {
    let mut random = Random(10);
    for _ in 0..20_000 {
        let length = random.below(200) as usize;
        well_formed(&random.bytes(length));
    }
    for length in [0, 1, 65_535, 65_536, 65_537, 100_000] {
        well_formed(&random.bytes(length));
    }
}

#[test]
fn every_short_string() {
    well_formed(&[]);
    for first in 0..=255u8 {
        well_formed(&[first]);
        for second in 0..=255u8 {
            well_formed(&[first, second]);
        }
    }
}

/// Records with small random fields, so that many files are not refused.
pub fn records(random: &mut Random) -> Vec<u8> {
    let mut bytes = vec![1];
    bytes.extend((0..16).map(|_| random.pick(&[0, 0, 1, 0xFF])));
    let nodes = random.below(8) as u8;
    let seated = random.one_in(2);
    for node in 0..nodes {
        let parent = if node == 0 { 255 } else { random.pick(&[255, 255, node - 1, 0]) };
        bytes.extend([random.pick(&[2, 13, 3]), parent, node, 1, 2, 3, 4]);
        if bytes[bytes.len() - 7] == 3 {
            let regions = [[0, 0], [1, 2], [1, 8], [2, 4], [2, 31], [3, 4], [3, 31]];
            bytes.extend((0..3).flat_map(|_| random.pick(&regions)));
        }
        if seated {
            bytes.extend([9, random.pick(&[1, 2]), node, random.byte(), random.byte()]);
        }
    }
    if random.one_in(2) {
        if let Ok(contents) = rackcheck::file::read(&bytes) {
            for (number, node) in contents.rack.numbered() {
                if random.one_in(3) {
                    bytes.extend([11, number]);
                    bytes.extend(random_part(random, node));
                }
            }
        }
    }
    for _ in 0..random.below(60) {
        let device = (random.below(8) as u8) << 3 | u8::from(random.one_in(20));
        let bus = random.pick(&[0, 0, 0, 1, 2, 3]);
        let register =
            random.pick(&[4, 4, 0x10, 0x18, 0x18, 0x1C, 0x20, 0x24, 0x28, 0x2C, 0x30, 0x3C, 0x40]);
        let kind = random.pick(&[4, 4, 4, 5, 6, 7, 8, 10]);
        bytes.push(kind);
        match kind {
            4 if random.one_in(10) => {
                // A special cycle.
                bytes.extend([bus, 0xFF, 0, random.below(16) as u8]);
                bytes.extend(random.bytes(4));
            }
            4 => {
                bytes.extend([bus, device, register, random.pick(&[15, 15, 15, 1, 6])]);
                bytes.extend(match random.below(3) {
                    0 => random.bytes(4),
                    1 => vec![0xFF; 4],
                    _ => vec![7, random.below(3) as u8, 3, 0],
                });
            }
            5 => bytes.extend([bus, device, register]),
            10 => bytes.push(if seated { random.pick(&[0, 1, 2]) } else { 0 }),
            6 | 7 => {
                let initiator = if random.one_in(2) { 255 } else { random.below(8) as u8 };
                bytes.extend([initiator, random.below(2) as u8]);
                let length = if kind == 6 { 8 } else { 4 };
                bytes.extend(if random.one_in(3) {
                    vec![0xFF; length]
                } else {
                    random.bytes(length)
                });
            }
            _ => {}
        }
    }
    bytes
}

#[test]
fn nearly_right_files() {
    let mut random = Random(11);
    let mut run = 0;
    for _ in 0..6_000 {
        let mut bytes = records(&mut random);
        run += u32::from(well_formed(&bytes));
        // The same with one byte changed, and cut short.
        let at = random.below(bytes.len() as u64) as usize;
        bytes[at] = random.byte();
        well_formed(&bytes);
        bytes.truncate(at);
        well_formed(&bytes);
    }
    println!("not refused: {run}");
    assert!(run >= 300, "{run}");
}

/// Event by event over lent images gives the same lines as the whole file.
#[test]
fn events_one_by_one() {
    let mut random = Random(12);
    for _ in 0..1_500 {
        let bytes = records(&mut random);
        let Ok(contents) = rackcheck::file::read(&bytes) else { continue };
        let machine = Run::start(&contents).expect("not refused").machine;
        let (mut bridges, mut devices) = (machine.bridges().to_vec(), machine.devices().to_vec());
        let rack = &contents.rack;
        let (mut lines, mut acting) = (String::new(), 0);
        for (number, event) in (1..).zip(&contents.events) {
            let answer = rackcheck::calls::event(rack, &mut bridges, &mut devices, acting, event);
            lines += &format!("{number} {}\n", answer.expect("not refused"));
            if let Event::Seat { seat } = event {
                acting = *seat;
            }
        }
        assert_eq!(lines, output(&bytes));
    }
}
