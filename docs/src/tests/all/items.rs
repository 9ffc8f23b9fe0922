//! The twelve items of "Windows and racks to prove".

use std::fmt::UpperHex;

use crate::build::{only, File, NO_REGIONS};
use rackcheck::claims::claims;
use rackcheck::rack::Options;
use rackcheck::windows::{Address, Windows};

/// The windows of a root bridge (device number 0) after these writes of whole registers.
fn windows(writes: &[(u8, u32)]) -> Windows {
    let file = File::new().bridge(255, 0);
    let file = writes.iter().fold(file, |file, (register, data)| file.put(0, 0, *register, *data));
    Windows::of(file.machine().part(0), Options::ALL)
}

fn in_and_out<A: Copy + UpperHex>(hold: impl Fn(A) -> bool, inside: &[A], outside: &[A]) {
    for address in inside {
        assert!(hold(*address), "{address:X} should be in");
    }
    for address in outside {
        assert!(!hold(*address), "{address:X} should be out");
    }
}

pub fn io(windows: &Windows, inside: &[u32], outside: &[u32]) {
    in_and_out(|address| windows.hold_io(address), inside, outside);
}

pub fn memory(windows: &Windows, inside: &[u64], outside: &[u64]) {
    in_and_out(|address| windows.hold_memory(address), inside, outside);
}

pub const ISA: u32 = 0x0004_0000;
pub const VGA: u32 = 0x0008_0000;
pub const VGA_16: u32 = 0x0010_0000;

#[test]
fn item_01_io_window() {
    let w = windows(&[(0x1C, 0x2121)]);
    io(&w, &[0x2000, 0x2FFF], &[0x3000, 0x1FFF, 0x12000]);
    assert_eq!((w.io.first, w.io.last), (0x2000, 0x2FFF));
}

#[test]
fn item_02_isa() {
    let w = windows(&[(0x1C, 0x2121), (0x3C, ISA)]);
    io(&w, &[0x20FF, 0x2400], &[0x2100, 0x2200, 0x23FF, 0x3000]);
}

#[test]
fn item_03_upper_io() {
    let w = windows(&[(0x1C, 0x2121), (0x3C, ISA), (0x30, 0x0001_0001)]);
    io(&w, &[0x12100, 0x12000, 0x12FFF], &[0x2000, 0x20FF, 0x13000]);
}

#[test]
fn item_04_vga() {
    let writes = [(0x1C, 0x01F1), (0x3C, VGA)];
    let w = windows(&writes);
    io(&w, &[0x3BB, 0x3C0, 0x3DF, 0x7B0, 0x3B0, 0xFFDF], &[0x3BC, 0x3E0, 0x3AF, 0x3BF, 0x103B0]);
    memory(&w, &[0xA0000, 0xBFFFF], &[]);
    let w = windows(&[writes[0], (0x3C, VGA | VGA_16)]);
    io(&w, &[0x3BB, 0x3C0, 0x3DF], &[0x7B0, 0x3BC, 0x3E0]);
    // "ISA cuts nothing here."
    let w = windows(&[writes[0], (0x3C, VGA | ISA)]);
    io(&w, &[0x3BB, 0x3C0, 0x3DF, 0x7B0], &[0x3BC, 0x3E0]);
    // Bit 4 alone adds nothing.
    io(&windows(&[writes[0], (0x3C, VGA_16)]), &[], &[0x3BB, 0x3C0, 0x3DF, 0x7B0]);
}

#[test]
fn item_05_memory_window() {
    let w = windows(&[(0x20, 0x8000_8000), (0x24, 0x0000_FFF0)]);
    memory(&w, &[0x8000_0000, 0x800F_FFFF], &[0x7FFF_FFFF, 0x8010_0000, 0x1_8000_0000]);
    assert_eq!((w.memory.first, w.memory.last), (0x8000_0000, 0x800F_FFFF));
}

#[test]
fn item_06_base_above_limit() {
    // The prefetchable window is empty too.
    let w = windows(&[(0x20, 0x8000_8010), (0x24, 0x0000_FFF0)]);
    let outside =
        [0, 0x7FFF_FFFF, 0x8000_0000, 0x800F_FFFF, 0x8010_0000, 0x801F_FFFF, 0xFFFF_FFFF, u64::MAX];
    memory(&w, &[], &outside);
}

#[test]
fn item_07_prefetchable() {
    let w = windows(&[(0x20, 0x0000_0010), (0x28, 1), (0x2C, 1)]);
    memory(&w, &[0x1_0000_0000, 0x1_000F_FFFF], &[0x1_0010_0000, 0, 0xFFFF_FFFF]);
    // The same bits below 2 to the 32 are another address: "compared over 64 bits".
    let w = windows(&[(0x20, 0x0000_0010), (0x24, 0x0000_FFF0), (0x2C, 1)]);
    memory(&w, &[0xFFF0_0000, 0x1_000F_FFFF], &[0xFFEF_FFFF, 0x1_0010_0000]);
    // The last address of all.
    let w = windows(&[(0x24, 0xFFF0_FFF0), (0x28, u32::MAX), (0x2C, u32::MAX)]);
    memory(&w, &[u64::MAX, u64::MAX - 0xF_FFFF], &[u64::MAX - 0x10_0000]);
}

#[test]
fn item_08_sizing() {
    let file = File::new().device(255, 0, only(2, 12));
    let mut machine = file.machine();
    assert_eq!(machine.size(0, 0), 0x1000);
    assert_eq!(machine, file.machine());
    assert_eq!(file.put(0, 0, 0x10, u32::MAX).get(0, 0, 0x10).last(), "data 0 FFFFF000");
}

#[test]
fn item_09_write_1_to_clear() {
    let file = File::new().device(255, 0, NO_REGIONS);
    let (rack, (_, mut image)) = (file.rack(), file.images());
    image[7] = 0xA0;
    let written = (0x04, 15, 0x2000_0000);
    rackcheck::calls::register_write(&rack, &mut [], &mut image, 0, written).unwrap();
    assert_eq!(rackcheck::calls::register_read(&rack, &[], &image, 0, 4), Ok(0x8000_0000));
}

#[test]
fn item_10_secondary_0() {
    // Bridge 1 on the bus of bridge 0 and device number 5 there: bus 3 reaches neither as Type 0.
    let file = File::new().bridge(255, 0).device(0, 5, NO_REGIONS).put(0, 0, 0x18, 0x0005_0000);
    assert_eq!(file.clone().get(3, 5, 0).last(), "unclaimed 1 0 done");
    assert_eq!(file.get(6, 5, 0).last(), "unclaimed 0 255 abort");
    // A bridge there with secondary 3 takes the Type 1 access on.
    let file = File::new().bridge(255, 0).bridge(0, 4).device(1, 5, NO_REGIONS);
    let file = file.put(0, 0, 0x18, 0x0005_0400).put(4, 4, 0x18, 0x0003_0300);
    let file = file.put(0, 0, 0x18, 0x0005_0000);
    assert_eq!(file.get(3, 5, 0).tail(4), ["stored 0", "stored 1", "stored 0", "data 2 00205678"]);
}

fn item_11_rack() -> File {
    File::new().bridge(255, 0).device(0, 0, only(2, 12))
}

/// Bridge 0: command 4; device 1: command 2 and 90000000h.
fn item_11_writes(file: File) -> File {
    file.put(0, 0, 0x18, 0x0001_0100)
        .put(0, 0, 0x04, 4)
        .put(1, 0, 0x10, 0x9000_0000)
        .put(1, 0, 0x04, 2)
}

#[test]
fn item_11_fault() {
    let file = item_11_writes(item_11_rack().device(0, 1, NO_REGIONS)).check();
    assert_eq!(file.last(), "fault 0 memory 0000000090000000 2 0 1");
    let machine = file.machine();
    assert!(claims(&machine, 0, 0, Address::Memory(0x9000_0000)));
    assert!(claims(&machine, 0, 1, Address::Memory(0x9000_0000)));
}

#[test]
fn item_12_pass() {
    assert_eq!(item_11_writes(item_11_rack()).check().last(), "pass");
}
