//! The worked example of "The program", and the binary itself.

use crate::build::{hex, only, File, NO_REGIONS};

fn example() -> Vec<u8> {
    hex("01 0100000000000000 0000000000000000 02 FF 01 34 12 10 00 05 00 08 00 \
         06 FF 00 0000000000000000 08")
}

fn binary(input: &[u8]) -> (String, bool) {
    let (out, ended_well) = crate::build::binary(env!("CARGO_BIN_EXE_rackcheck"), input);
    (String::from_utf8(out).unwrap(), ended_well)
}

#[test]
fn worked_example() {
    let expected = "1 data 0 00101234\n2 unclaimed 0 255 abort\n3 pass\n";
    assert_eq!(crate::build::output(&example()), expected);
    assert_eq!(binary(&example()), (expected.to_string(), true));
}

#[test]
fn binary_refuses() {
    assert_eq!(binary(&[]), ("refused 4 at 0\n".to_string(), true));
    assert_eq!(binary(&[12]).0, "refused 2 at 0\n");
    assert_eq!(binary(&[11]).0, "refused 3 at 0\n");
    assert_eq!(binary(&[8; 65_537]).0, "refused 1 at 65536\n");
    assert_eq!(binary(&[8; 1_000_000]).0, "refused 1 at 65536\n");
    assert_eq!(binary(&[8; 65_536]).0, "refused 4 at 0\n");
}

#[test]
fn no_events_print_nothing() {
    assert_eq!(File::new().output(), "");
    assert_eq!(File::new().bridge(255, 0).output(), "");
    assert_eq!(binary(&File::new().0), (String::new(), true));
}

#[test]
fn refused_prints_only_that() {
    // A later fault stops the whole input: nothing is run before all of it is checked.
    let file = File::new().check().check().raw(&[0]);
    assert_eq!(file.output(), "refused 2 at 19\n");
}

#[test]
fn every_ending_once() {
    let file = File::host(0x1000, 0x1FFF)
        .bridge(255, 1)
        .device(255, 2, [(2, 12), (1, 4), (0, 0)])
        .device(255, 3, only(2, 12))
        .get(0, 2, 0x00)
        .put(0, 2, 0x10, 0xABCD_E000)
        .put(0, 2, 0x18, 0x0000_FFF0)
        .put(0, 2, 0x04, 0x0000_0007)
        .memory(255, 0, 0xABCD_E123)
        .io(255, 1, 0xFFFB)
        .memory(1, 0, 0x1FFF)
        .memory(2, 0, 0x1FFF)
        .memory(255, 1, 0)
        .check()
        .put(0, 3, 0x10, 0xABCD_E000)
        .put(0, 3, 0x04, 0x0000_0002)
        .memory(255, 1, 0xABCD_EFFF)
        .check()
        .special(0);
    let expected = [
        "1 data 0 00205678",
        "2 stored 0",
        "3 stored 0",
        "4 stored 0",
        "5 owner 0 1 0 0000000000000123",
        "6 owner 0 1 1 000000000000000B",
        "7 host 0 0000000000000FFF",
        "8 silent",
        "9 unclaimed 0 255 abort",
        "10 pass",
        "11 stored 0",
        "12 stored 0",
        "13 clash 0 255 1 2",
        "14 fault 255 memory 00000000ABCDE000 255 1 2",
        "15 special 0 255",
    ];
    assert_eq!(file.output(), expected.join("\n") + "\n");
}

#[test]
fn depth_counts_buses_without_nodes() {
    let depth = |file: File| file.machine().rack().greatest_depth();
    assert_eq!(depth(File::new()), 0);
    assert_eq!(depth(File::new().device(255, 0, NO_REGIONS)), 0);
    assert_eq!(depth(File::new().bridge(255, 0)), 1);
    assert_eq!(depth(File::new().bridge(255, 0).bridge(0, 0).bridge(255, 1)), 2);
}

#[test]
fn enables_0_are_stored_and_a_fault_does_not_stop() {
    let file = File::new()
        .device(255, 0, only(1, 2))
        .device(255, 1, only(1, 2))
        .put_bytes(0, 0, 4, 0, 7)
        .get(0, 0, 4)
        .put(0, 0, 4, 1)
        .put(0, 1, 4, 1)
        .check()
        .get(0, 1, 4)
        .put(0, 1, 4, 0)
        .check();
    let expected = [
        "stored 0",
        "data 0 00000000",
        "stored 0",
        "stored 0",
        "fault 255 io 0000000000000000 255 0 1",
        "data 0 00000001",
        "stored 0",
        "pass",
    ];
    assert_eq!(file.lines(), expected);
}
