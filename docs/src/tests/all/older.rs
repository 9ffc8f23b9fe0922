//! Older bridges (E11): their windows, and claims, routes and checks of racks that have both
//! kinds.

use crate::build::{all_options, only, File, Random, NO_REGIONS};
use crate::check::random_rack;
use crate::items::{io, memory, ISA, VGA, VGA_16};
use rackcheck::answer::Answer;
use rackcheck::calls;
use rackcheck::check::check;
use rackcheck::claims::claims;
use rackcheck::machine::Machine;
use rackcheck::rack::{Event, Header, Options, Rack};
use rackcheck::registers::PART;
use rackcheck::windows::{Address, Ends, Windows};

/// The windows of an older root bridge (device number 0) after these writes.
fn windows(writes: &[(u8, u32)]) -> Windows {
    let file = File::new().older(255, 0);
    let file = writes.iter().fold(file, |file, (register, data)| file.put(0, 0, *register, *data));
    Windows::of(file.machine().part(0), Options::NONE)
}

const EVERYWHERE: [(u8, u32); 3] = [(0x28, 1), (0x2C, u32::MAX), (0x30, 0xFFFF_0001)];

#[test]
fn io_window() {
    let w = windows(&[(0x1C, 0x2121)]);
    io(&w, &[0x2000, 0x2FFF], &[0x1FFF, 0x3000, 0x1_2000]);
    let w = windows(&[(0x1C, 0x2121), (0x3C, ISA)]);
    io(&w, &[0x20FF, 0x2400], &[0x2100, 0x23FF, 0x3000]);
    // Upper registers are written in vain.
    let w = windows(&[(0x1C, 0xF020), EVERYWHERE[2]]);
    io(&w, &[0x2000, 0xFFFF], &[0x1FFF, 0x1_0000, 0x1_2000, 0xFFFF_FFFF]);
    assert_eq!(w.io, Ends { first: 0x2000, last: 0xFFFF });
    // All of 16-bit I/O, and nothing: base above limit stays empty.
    io(&windows(&[(0x1C, 0xF000)]), &[0, 0xFFFF], &[0x1_0000, u32::MAX]);
    io(&windows(&[(0x1C, 0x1020), EVERYWHERE[2]]), &[], &[0, 0x1000, 0x2000, 0x1_2000]);
}

#[test]
fn vga_by_ten_bits() {
    for control in [VGA, VGA | VGA_16, VGA | VGA_16 | ISA] {
        let w = windows(&[(0x1C, 0x01F1), (0x3C, control)]);
        io(&w, &[0x3B0, 0x3BB, 0x3C0, 0x3DF, 0x7B0, 0xFFDF], &[0x3BC, 0x3E0, 0x1_03B0]);
        memory(&w, &[0xA_0000, 0xB_FFFF], &[0x10_0000]);
    }
    io(&windows(&[(0x1C, 0x01F1), (0x3C, VGA_16)]), &[], &[0x3BB, 0x3C0, 0x3DF, 0x7B0]);
}

#[test]
fn memory_windows() {
    let w = windows(&[(0x20, 0x8000_8000), (0x24, 0x9010_9000), EVERYWHERE[0], EVERYWHERE[1]]);
    let inside = [0x8000_0000, 0x800F_FFFF, 0x9000_0000, 0x901F_FFFF];
    let above = inside.map(|address| address + 0x1_0000_0000);
    memory(&w, &inside, &[0x7FFF_FFFF, 0x8010_0000, 0x8FFF_FFFF, 0x9020_0000]);
    memory(&w, &[], &above);
    // The top of 32 bits, and an empty window that the upper registers do not open.
    let w = windows(&[(0x20, 0x0000_0010), (0x24, 0xFFF0_FFF0), EVERYWHERE[1]]);
    memory(&w, &[0xFFF0_0000, 0xFFFF_FFFF], &[0xFFEF_FFFF, 0x1_0000_0000, u64::MAX]);
    let w = windows(&[(0x20, 0x0000_0010), (0x24, 0x0000_0010), EVERYWHERE[1]]);
    memory(&w, &[], &[0, 0xF_FFFF, 0x10_0000, 0x1_0000_0000]);
}

#[test]
fn windows_at_reset() {
    let w = windows(&[]);
    assert_eq!(w.memory, Ends { first: 0, last: 0xF_FFFF });
    assert_eq!(w.prefetchable, Ends { first: 0, last: 0xF_FFFF });
    assert_eq!(w.io, Ends { first: 0, last: 0xFFF });
    assert!(!(w.isa || w.vga || w.vga_all_bits));
    // A bridge with all options has the same.
    assert_eq!(w, Windows::of(File::new().bridge(255, 0).machine().part(0), Options::ALL));
}

/// Whatever the bytes hold, those of a missing option count as 0, and no others do.
#[test]
fn missing_options_ignore_their_bytes() {
    let mut random = Random(30);
    for _ in 0..500 {
        let part = random.bytes(PART);
        for options in all_options() {
            let mut cleared = part.clone();
            if !options.io_32 {
                cleared[0x30..0x34].fill(0);
            }
            if !options.prefetchable_64 {
                cleared[0x28..0x30].fill(0);
            }
            if !options.vga_16 {
                cleared[0x3E] &= !0x10;
            }
            let windows = Windows::of(&part, options);
            assert_eq!(windows, Windows::of(&cleared, Options::ALL), "{options:?}");
            assert!(options.io_32 || windows.io.last <= 0xFFFF);
            assert!(options.prefetchable_64 || windows.prefetchable.last <= 0xFFFF_FFFF);
        }
    }
}

/// The rule for I/O over the whole address, as the document words it.
fn io_by_the_words(w: &Windows, address: u64) -> bool {
    let bits = |low: u32, count: u32| address >> low & ((1 << count) - 1);
    let cut = w.isa && address < 0x1_0000 && bits(8, 2) != 0;
    let vga = (0x3B0..=0x3BB).contains(&bits(0, 10)) || (0x3C0..=0x3DF).contains(&bits(0, 10));
    let window = w.io.first <= address && address <= w.io.last;
    window && !cut || w.vga && address < 0x1_0000 && vga && (!w.vga_all_bits || bits(10, 6) == 0)
}

/// The windows hold what the document's words say, whatever the options.
#[test]
fn io_by_the_words_for_all_options() {
    let mut random = Random(31);
    for options in all_options() {
        for flags in 0..8u8 {
            let mut part = random.bytes(PART);
            part[0x3E] = flags << 2;
            // Often a window across 64 KiB.
            part[0x30..0x34].copy_from_slice(&[0, 0, random.pick(&[0, 1, 0xFF]), 0]);
            let w = Windows::of(&part, options);
            let above = (0..500).map(|_| random.next() as u32);
            for address in (0..0x2_0000).chain(above) {
                assert_eq!(w.hold_io(address), io_by_the_words(&w, address.into()), "{address:X}");
            }
        }
    }
}

/// Bridge 0 of that kind with VGA, VGA 16-bit decode, ISA and command 7 on the root bus, and
/// its windows: I/O 2000h to 5FFFh, prefetchable 80000000h to 800FFFFFh, with upper
/// registers 1. Device 1 below it and device 2 beside it have I/O and 64-bit memory.
fn around(kind: u8) -> File {
    let regions = [(1, 4), (3, 12), (0, 0)];
    File::host(0x1000_0000, 0x1_1FFF_FFFF)
        .bridge_of(kind, 255, 0)
        .device(0, 0, regions)
        .device(255, 1, regions)
        .put(0, 0, 0x18, 0x0001_0100)
        .put(0, 0, 0x1C, 0x5020)
        .put(0, 0, 0x20, 0x0000_FFF0)
        .put(0, 0, 0x24, 0x8000_8000)
        .put(0, 0, 0x28, 1)
        .put(0, 0, 0x2C, 1)
        .put(0, 0, 0x30, 0x0001_0001)
        .put(0, 0, 0x3C, VGA | VGA_16 | ISA)
        .put(0, 0, 4, 7)
        .put(1, 0, 4, 7)
        .put(0, 1, 4, 7)
}

/// The line of the last event, with each kind of bridge.
fn lines(event: impl Fn(File) -> File, newer: &str, older: &str) {
    assert_eq!(event(around(2)).last(), newer);
    assert_eq!(event(around(13)).last(), older);
}

#[test]
fn io_above_64_kib() {
    // Device 1 at 12340h: reached from above through a newer bridge only.
    let below = |file: File| file.put(1, 0, 0x10, 0x1_2340);
    let reached = "owner 1 1 0 0000000000000005";
    lines(|file| below(file).io(255, 0, 0x1_2345), reached, "unclaimed 0 255 abort");
    // Device 2 at 12340h: an older bridge takes the access up, over all 32 bits.
    let beside = |file: File, io: u32| file.put(0, 1, 0x10, io);
    let reached = "owner 1 2 0 0000000000000005";
    lines(|file| beside(file, 0x1_2340).io(1, 0, 0x1_2345), "unclaimed 0 0 abort", reached);
    lines(|file| beside(file, 0x8001_2340).io(1, 0, 0x8001_2345), reached, reached);
    lines(|file| beside(file, u32::MAX).io(1, 1, u32::MAX - 10), reached, reached);
    // Without bit 2 nobody does.
    lines(
        |file| beside(file, 0x1_2340).put(0, 0, 4, 3).io(1, 0, 0x1_2345),
        "unclaimed 0 0 abort",
        "unclaimed 0 0 abort",
    );
    // Below 64 KiB, in the window of the older one.
    let below = |file: File| file.put(1, 0, 0x10, 0x2400);
    let reached = "owner 1 1 0 0000000000000005";
    lines(|file| below(file).io(255, 0, 0x2405), "unclaimed 0 255 abort", reached);
}

#[test]
fn prefetchable_below_4_gib() {
    let below = |file: File, upper: u32| file.put(1, 0, 0x18, 0x8000_0000).put(1, 0, 0x1C, upper);
    let reached = "owner 1 1 1 0000000000000123";
    let nobody = "unclaimed 0 255 abort";
    lines(|file| below(file, 1).memory(255, 0, 0x1_8000_0123), reached, nobody);
    lines(|file| below(file, 0).memory(255, 0, 0x8000_0123), nobody, reached);
    // From below the window is what does not go up. Host memory ends at 11FFFFFFFh.
    let unclaimed = "unclaimed 1 255 done";
    lines(|file| file.memory(1, 0, 0x1_8000_0123), "unclaimed 0 0 abort", unclaimed);
    lines(|file| file.memory(1, 0, 0x8000_0123), "host 1 0000000070000123", "unclaimed 0 0 abort");
    lines(|file| file.memory(1, 0, u64::MAX), unclaimed, unclaimed);
}

#[test]
fn vga_aliases() {
    // 7B0h to 7BFh, of which 7B0h to 7BBh are aliases.
    let beside = |file: File| file.put(0, 1, 0x10, 0x7B0);
    let reached = "owner 0 2 0 000000000000000B";
    lines(|file| beside(file).io(255, 0, 0x7BB), reached, "clash 0 255 0 2");
    let reached = "owner 0 2 0 000000000000000C";
    lines(|file| beside(file).io(255, 0, 0x7BC), reached, reached);
    let reached = "owner 1 2 0 0000000000000003";
    lines(|file| beside(file).io(1, 0, 0x7B3), reached, "unclaimed 0 0 abort");
    // The check sees the same once the window is off that lies in host memory.
    let fault = "fault 255 io 00000000000007B0 255 0 2";
    lines(|file| beside(file).put(0, 0, 4, 5).check(), "pass", fault);
    // Without the alias there are as many claimants in both: 3C0h.
    let beside = |file: File| file.put(0, 1, 0x10, 0x3C0).io(255, 0, 0x3C1);
    lines(beside, "clash 0 255 0 2", "clash 0 255 0 2");
}

/// Both kinds in one chain: bridge 0 above bridge 1, device 2 below both, device 3 between.
/// Each bridge opens I/O 2000h and 12000h, as far as it can.
fn chain(kinds: [u8; 2]) -> File {
    let open = |file: File, bus: u8| {
        let file = file.put(bus, 0, 0x1C, 0xF020).put(bus, 0, 0x30, 0x0001_0000);
        file.put(bus, 0, 4, 7)
    };
    let file = File::new()
        .bridge_of(kinds[0], 255, 0)
        .bridge_of(kinds[1], 0, 0)
        .device(1, 0, only(1, 4))
        .device(0, 1, NO_REGIONS)
        .put(0, 0, 0x18, 0x0002_0100)
        .put(1, 0, 0x18, 0x0002_0201);
    let file = open(open(file, 0), 1);
    file.put(2, 0, 0x10, 0x1_2000).put(2, 0, 4, 7).put(1, 1, 4, 4)
}

#[test]
fn a_chain_of_both_kinds() {
    let run = |kinds, initiator| chain(kinds).io(initiator, 0, 0x1_2001).last();
    let reached = |crossings: u8| format!("owner {crossings} 2 0 0000000000000001");
    // From the host: every bridge on the way has to open it.
    assert_eq!(run([2, 2], 255), reached(2));
    assert_eq!(run([2, 13], 255), "unclaimed 1 0 done");
    assert_eq!(run([13, 2], 255), "unclaimed 0 255 abort");
    assert_eq!(run([13, 13], 255), "unclaimed 0 255 abort");
    // From device 3: bridge 1 below, or bridge 0 above, or both.
    assert_eq!(run([2, 2], 3), reached(1));
    assert_eq!(run([2, 13], 3), "unclaimed 0 0 abort");
    assert_eq!(run([13, 2], 3), "clash 0 0 0 1");
    assert_eq!(run([13, 13], 3), "unclaimed 1 255 done");
    // The check: device 2 clashes with an older bridge above it only if a third agent can
    // drive, and a newer bridge below an older one clashes with it. At 10000h the newer
    // bridge's window goes on where the older one's ends.
    assert_eq!(chain([2, 2]).check().last(), "pass");
    assert_eq!(chain([2, 13]).check().last(), "pass");
    assert_eq!(chain([13, 2]).check().last(), "fault 0 io 0000000000010000 3 0 1");
    assert_eq!(chain([13, 13]).check().last(), "pass");
}

/// Item 11 in I/O above 64 KiB: only the newer bridge can hold the region in its window.
#[test]
fn a_fault_below_an_older_bridge() {
    let file = |kind: u8| {
        File::new()
            .bridge_of(kind, 255, 0)
            .device(0, 0, only(1, 4))
            .device(0, 1, NO_REGIONS)
            .put(0, 0, 0x18, 0x0001_0100)
            .put(0, 0, 0x1C, 0x2020)
            .put(0, 0, 0x30, 0x0001_0001)
            .put(0, 0, 0x04, 4)
            .put(1, 0, 0x10, 0x1_2340)
            .put(1, 0, 0x04, 1)
            .check()
    };
    assert_eq!(file(2).last(), "pass");
    assert_eq!(file(13).last(), "fault 0 io 0000000000012340 2 0 1");
}

/// A machine with a bridge of all options in place of each older one. Its registers say the
/// same: the upper ones are 0 and bridge control bit 4 is clear, as an older bridge has them.
fn all_newer(machine: &Machine) -> Machine {
    let mut rack: Rack = machine.rack().clone();
    let mut bridges = Vec::new();
    for (number, node) in (0u8..).zip(&mut rack.nodes) {
        let mut part = machine.part(number).to_vec();
        match node.header {
            Header::Device(_) => continue,
            Header::Bridge(Options::ALL) => {}
            Header::Bridge(_) => {
                node.header = Header::Bridge(Options::ALL);
                [0x1C, 0x1D, 0x24, 0x26].into_iter().for_each(|at| part[at] |= 1);
            }
        }
        bridges.extend(part);
    }
    Machine::with_images(rack, &bridges, machine.devices()).expect("no fixed bit differs")
}

/// One event over a machine's rack and images: its answer and what is then in the images.
fn run(machine: &Machine, event: &Event) -> (Answer, Machine) {
    let (mut b, mut d) = (machine.bridges().to_vec(), machine.devices().to_vec());
    let answer = calls::event(machine.rack(), &mut b, &mut d, 0, event).expect("not refused");
    (answer, Machine::with_images(machine.rack().clone(), &b, &d).expect("not refused"))
}

fn random_access(random: &mut Random, initiators: &[u8]) -> Event {
    let (initiator, direction) = (random.pick(initiators), random.below(2) as u8);
    let bits = random.below(36);
    let address = random.next() & ((1 << bits) - 1);
    match random.one_in(2) {
        true => Event::Io { initiator, direction, address: address as u32 },
        false => Event::Memory { initiator, direction, address },
    }
}

/// "an older bridge is in all else a node and bridge as kind 2 is": checks and routes of a
/// rack with older bridges are those of the same rack with newer ones.
#[test]
fn as_newer_bridges_with_upper_registers_0() {
    let mut random = Random(32);
    let (mut mixed, mut crossed) = (0, 0);
    for _ in 0..300 {
        let mut machine = random_rack(&mut random).machine();
        let rack = machine.rack().clone();
        let mut newer = all_newer(&machine);
        let options = |wanted| rack.nodes.iter().any(|node| node.options() == Some(wanted));
        mixed += u32::from(options(Options::ALL) && options(Options::NONE));
        assert_eq!(check(&machine), check(&newer));
        let devices = rack.numbered().filter(|(_, node)| !node.is_bridge());
        let initiators: Vec<u8> = devices.map(|(number, _)| number).chain([255]).collect();
        for _ in 0..40 {
            let event = random_access(&mut random, &initiators);
            let (answer, after) = run(&machine, &event);
            let (expected, newer_after) = run(&newer, &event);
            assert_eq!(answer, expected, "{event:?}");
            assert_eq!(all_newer(&after), newer_after, "{event:?}");
            crossed += u32::from(after != machine);
            (machine, newer) = (after, newer_after);
        }
    }
    println!("both kinds: {mixed}, status bits changed: {crossed}");
    assert!(mixed >= 60 && crossed >= 100, "{mixed} {crossed}");
}

/// Claims of an older bridge on both sides, for every command and at random addresses, by
/// the words of the documents.
#[test]
fn claims_on_both_sides() {
    let mut random = Random(33);
    for _ in 0..100 {
        let mut machine = File::new().older(255, 0).machine();
        for register in (4..64).step_by(4) {
            machine.write(0, register, 15, random.next() as u32);
        }
        let w = Windows::of(machine.part(0), Options::NONE);
        for command in 0..8u32 {
            machine.write(0, 4, 15, command);
            for _ in 0..100 {
                let bits = random.below(65);
                let wide =
                    random.next() & 1u64.checked_shl(bits as u32).unwrap_or(0).wrapping_sub(1);
                let (address, inside, on) = match random.one_in(2) {
                    true => {
                        let low = wide as u32;
                        (Address::Io(low), io_by_the_words(&w, low.into()), command & 1 != 0)
                    }
                    false => (Address::Memory(wide), w.hold_memory(wide), command & 2 != 0),
                };
                assert_eq!(claims(&machine, 255, 0, address), inside && on);
                assert_eq!(claims(&machine, 0, 0, address), !inside && command & 4 != 0);
            }
        }
    }
}
