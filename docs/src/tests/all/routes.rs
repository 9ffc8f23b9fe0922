//! Routes: up, down, peer to peer, aborts and the status bits that they leave.

use crate::build::{only, status, File, EDITIONS, NO_REGIONS};

pub const B13: u16 = 1 << 13;
pub const B12: u16 = 1 << 12;
pub const B11: u16 = 1 << 11;

/// Host memory 10000000h to 1FFFFFFFh. Two branches of two bridges each:
/// root: 0 (dev 0), 1 (dev 1); 2 below 0; 3 below 1;
/// devices: 4 below 2, 5 below 3, 6 on the root bus. Each has 4 KiB of memory and 16 bytes of I/O.
/// Bus numbers: 0: 1 to 2, 2: 2, 1: 3 to 4, 3: 4.
pub fn rack() -> File {
    let regions = [(0, 0), (2, 12), (1, 4)];
    File::host(0x1000_0000, 0x1FFF_FFFF)
        .bridge(255, 0)
        .bridge(255, 1)
        .bridge(0, 0)
        .bridge(1, 0)
        .device(2, 7, regions)
        .device(3, 7, regions)
        .device(255, 7, regions)
        .put(0, 0, 0x18, 0x0002_0100)
        .put(1, 0, 0x18, 0x0002_0201)
        .put(0, 1, 0x18, 0x0004_0300)
        .put(3, 0, 0x18, 0x0004_0403)
}

/// (bus, device number) of each node.
const PLACES: [(u8, u8); 7] = [(0, 0), (0, 1), (1, 0), (3, 0), (2, 7), (4, 7), (0, 7)];

/// Opens windows: branch 0 has 80000000h to 800FFFFFh and I/O 8000h to 8FFFh, branch 1
/// has 90000000h and 9000h; device 4 at 80001000h and 8010h, 5 at 90001000h and 9010h,
/// 6 at A0000000h and A000h. All commands are 7.
pub fn open(control: u32) -> File {
    let mut file = rack();
    for (bridge, memory, io) in [
        (0, 0x8000_8000, 0x8080),
        (2, 0x8000_8000, 0x8080),
        (1, 0x9000_9000, 0x9090),
        (3, 0x9000_9000, 0x9090),
    ] {
        let (bus, device) = PLACES[bridge];
        file = file
            .put(bus, device, 0x20, memory)
            .put(bus, device, 0x24, 0x0000_FFF0)
            .put(bus, device, 0x1C, io)
            .put(bus, device, 0x3C, control << 16)
            .put(bus, device, 0x04, 7);
    }
    for (node, memory, io) in
        [(4, 0x8000_1000, 0x8010), (5, 0x9000_1000, 0x9010), (6, 0xA000_0000, 0xA000)]
    {
        let (bus, device) = PLACES[node];
        file =
            file.put(bus, device, 0x18, memory).put(bus, device, 0x20, io).put(bus, device, 4, 7);
    }
    assert!(file.lines().iter().all(|line| line.starts_with("stored")));
    file
}

/// All nodes whose status registers are not 0, as (node, status, secondary status).
fn marks(file: &File) -> Vec<(u8, u16, u16)> {
    let machine = file.machine();
    let all = (0..7).map(|node| (node, status(&machine, node)));
    all.filter(|(_, both)| *both != (0, 0)).map(|(node, both)| (node, both.0, both.1)).collect()
}

/// The file with each of its bridges (nodes 0 to 3) of either kind. What the tests below
/// write and reach is the same in both.
pub fn mixes(file: &File) -> Vec<File> {
    let mix = |set: u8| {
        let mut file = file.clone();
        for bridge in (0..4).filter(|bridge| set >> bridge & 1 == 1) {
            file.0[17 + 7 * bridge] = 13;
        }
        file
    };
    (0..16).map(mix).collect()
}

/// An event's line, and the marks after it.
pub fn goes(file: File, line: &str, expected: &[(u8, u16, u16)]) {
    for file in mixes(&file) {
        assert_eq!(file.last(), line);
        assert_eq!(marks(&file), expected, "marks of {line}");
    }
}

#[test]
fn down() {
    goes(open(0).memory(255, 0, 0x8000_1234), "owner 2 4 1 0000000000000234", &[]);
    goes(open(0).memory(255, 1, 0x9000_1FFF), "owner 2 5 1 0000000000000FFF", &[]);
    goes(open(0).io(255, 0, 0x801F), "owner 2 4 2 000000000000000F", &[]);
    goes(open(0).memory(6, 0, 0x8000_1000), "owner 2 4 1 0000000000000000", &[]);
    goes(open(0).memory(255, 0, 0xA000_0001), "owner 0 6 1 0000000000000001", &[]);
}

#[test]
fn up() {
    goes(open(0).memory(4, 0, 0x1000_0010), "host 2 0000000000000010", &[]);
    goes(open(0).memory(5, 1, 0x1FFF_FFFF), "host 2 000000000FFFFFFF", &[]);
    goes(open(0).memory(6, 1, 0x1000_0000), "host 0 0000000000000000", &[]);
    goes(open(0).memory(4, 0, 0xA000_0FFF), "owner 2 6 1 0000000000000FFF", &[]);
    goes(open(0).io(5, 1, 0xA00F), "owner 2 6 2 000000000000000F", &[]);
}

#[test]
fn peer_to_peer() {
    goes(open(0).memory(4, 0, 0x9000_1008), "owner 4 5 1 0000000000000008", &[]);
    goes(open(0).io(5, 0, 0x8013), "owner 4 4 2 0000000000000003", &[]);
}

#[test]
fn secondary_claims_need_bit_2_only() {
    // Bridges 0 and 2 with command 4: nothing goes down, everything outside goes up.
    let file = || open(0).put(1, 0, 4, 4).put(0, 0, 4, 4);
    goes(file().memory(4, 0, 0x1000_0010), "host 2 0000000000000010", &[]);
    goes(file().io(4, 0, 0xA000), "owner 2 6 2 0000000000000000", &[]);
    goes(file().memory(255, 0, 0x8000_1000), "unclaimed 0 255 abort", &[]);
    // Bridge 2 with command 3: nothing goes up.
    let file = || open(0).put(1, 0, 4, 3);
    goes(file().memory(4, 0, 0x1000_0010), "unclaimed 0 2 abort", &[(4, B13, 0)]);
    goes(file().memory(255, 0, 0x8000_1000), "owner 2 4 1 0000000000000000", &[]);
    // Bridge 0 with command 3: up through bridge 2 only.
    let file = || open(0).put(0, 0, 4, 3);
    goes(file().memory(4, 0, 0x1000_0010), "unclaimed 1 0 done", &[(2, B13, 0)]);
}

#[test]
fn bits_0_and_1_apart() {
    goes(open(0).put(0, 0, 4, 1).memory(255, 0, 0x8000_1000), "unclaimed 0 255 abort", &[]);
    goes(open(0).put(0, 0, 4, 1).io(255, 0, 0x8010), "owner 2 4 2 0000000000000000", &[]);
    goes(open(0).put(0, 0, 4, 2).io(255, 0, 0x8010), "unclaimed 0 255 abort", &[]);
    goes(open(0).put(0, 7, 4, 1).memory(255, 0, 0xA000_0000), "unclaimed 0 255 abort", &[]);
    goes(open(0).put(0, 7, 4, 2).io(255, 0, 0xA000), "unclaimed 0 255 abort", &[]);
}

#[test]
fn silent_initiators() {
    for node in 4..7u8 {
        let (bus, device) = PLACES[usize::from(node)];
        let file = || open(0x20).put(bus, device, 4, 3);
        goes(file().memory(node, 0, 0x1000_0000), "silent", &[]);
        goes(file().io(node, 1, 0), "silent", &[]);
    }
    // The host is never silent, and bits 0 and 1 do not matter for driving.
    let file = open(0).put(0, 7, 4, 4).memory(6, 1, 0x1000_0000);
    goes(file, "host 0 0000000000000000", &[]);
}

#[test]
fn an_agent_never_claims_what_it_drives() {
    // The host's own memory, driven by the host.
    goes(open(0).memory(255, 0, 0x1000_0000), "unclaimed 0 255 abort", &[]);
    // Its own region, driven by device 6 (root) and device 4 (inside its bridge's window).
    goes(open(0).memory(6, 0, 0xA000_0000), "unclaimed 0 255 abort", &[(6, B13, 0)]);
    goes(open(0).memory(4, 0, 0x8000_1000), "unclaimed 0 2 abort", &[(4, B13, 0)]);
}

#[test]
fn master_abort_without_crossing() {
    goes(open(0x20).memory(255, 0, 0xC000_0000), "unclaimed 0 255 abort", &[]);
    goes(open(0x20).io(255, 1, 0xC000), "unclaimed 0 255 abort", &[]);
    goes(open(0x20).memory(6, 1, 0xC000_0000), "unclaimed 0 255 abort", &[(6, B13, 0)]);
    goes(open(0x20).io(6, 0, 0xC000), "unclaimed 0 255 abort", &[(6, B13, 0)]);
}

#[test]
fn master_abort_after_crossing_down() {
    let mark = [(2, 0, B13)];
    goes(open(0).memory(255, 0, 0x8000_0000), "unclaimed 2 2 done", &mark);
    goes(open(0).memory(255, 1, 0x8000_0000), "unclaimed 2 2 done", &mark);
    goes(open(0).io(255, 1, 0x8000), "unclaimed 2 2 done", &mark);
    // Bridge 2 closed: it stops on the bus below bridge 0.
    let file = open(0).put(1, 0, 4, 4).memory(255, 0, 0x8000_0000);
    goes(file, "unclaimed 1 0 done", &[(0, 0, B13)]);
}

#[test]
fn master_abort_after_crossing_up() {
    let mark = [(0, B13, 0)];
    goes(open(0).memory(4, 0, 0xC000_0000), "unclaimed 2 255 done", &mark);
    goes(open(0).memory(4, 1, 0xC000_0000), "unclaimed 2 255 done", &mark);
    goes(open(0).io(4, 0, 0xC000), "unclaimed 2 255 done", &mark);
    goes(open(0).memory(4, 0, 0x9000_0000), "unclaimed 4 3 done", &[(3, 0, B13)]);
}

#[test]
fn target_abort_down() {
    let marks = [(0, B11, B12), (2, B11, B13)];
    goes(open(0x20).memory(255, 0, 0x8000_0000), "unclaimed 2 2 target", &marks);
    goes(open(0x20).io(255, 0, 0x8000), "unclaimed 2 2 target", &marks);
    goes(open(0x20).io(255, 1, 0x8000), "unclaimed 2 2 target", &marks);
    // "A memory write that crossed a bridge is done."
    goes(open(0x20).memory(255, 1, 0x8000_0000), "unclaimed 2 2 done", &[(2, 0, B13)]);
    // From device 6: it receives the target abort.
    let marks = [(0, B11, B12), (2, B11, B13), (6, B12, 0)];
    goes(open(0x20).memory(6, 0, 0x8000_0000), "unclaimed 2 2 target", &marks);
}

#[test]
fn target_abort_up() {
    let marks = [(0, B13, B11), (2, B12, B11), (4, B12, 0)];
    goes(open(0x20).memory(4, 0, 0xC000_0000), "unclaimed 2 255 target", &marks);
    goes(open(0x20).io(4, 1, 0xC000), "unclaimed 2 255 target", &marks);
    goes(open(0x20).memory(4, 1, 0xC000_0000), "unclaimed 2 255 done", &[(0, B13, 0)]);
}

#[test]
fn target_abort_peer_to_peer() {
    let marks = [(0, B12, B11), (1, B11, B12), (2, B12, B11), (3, B11, B13), (4, B12, 0)];
    goes(open(0x20).memory(4, 0, 0x9000_0000), "unclaimed 4 3 target", &marks);
}

#[test]
fn only_the_last_bridge_decides() {
    // Bit 5 in bridge 0 alone: the last bridge (2) says done.
    let file = open(0).put(0, 0, 0x3C, 0x20_0000).memory(255, 0, 0x8000_0000);
    goes(file, "unclaimed 2 2 done", &[(2, 0, B13)]);
    // Bit 5 in bridge 2 alone: target abort, through bridge 0.
    let file = open(0).put(1, 0, 0x3C, 0x20_0000).memory(255, 0, 0x8000_0000);
    goes(file, "unclaimed 2 2 target", &[(0, B11, B12), (2, B11, B13)]);
}

#[test]
fn clash_sets_nothing() {
    // Device 6 at the window of branch 1: bridge 1 and device 6 claim.
    let file = || open(0x20).put(0, 7, 0x18, 0x9000_0000);
    goes(file().memory(255, 0, 0x9000_0000), "clash 0 255 1 6", &[]);
    goes(file().memory(4, 1, 0x9000_0FFF), "clash 2 255 1 6", &[]);
    goes(file().memory(6, 1, 0x9000_1000), "owner 2 5 1 0000000000000000", &[]);
    // Host memory and device 6, from below: the holder comes first.
    let file = open(0x20).put(0, 7, 0x18, 0x1000_0000).memory(4, 0, 0x1000_0000);
    goes(file, "clash 2 255 255 6", &[]);
    // Three claimants: the first two in agent order.
    let file = open(0).put(0, 7, 0x18, 0x1000_0000).put(0, 1, 0x20, 0x1000_1000);
    goes(file.memory(4, 0, 0x1000_0000), "clash 2 255 255 1", &[]);
}

#[test]
fn lower_region_is_reached() {
    let file = File::new()
        .device(255, 0, [(3, 8), (2, 12), (2, 4)])
        .put(0, 0, 0x10, 0x5000_0000)
        .put(0, 0, 0x18, 0x5000_0000)
        .put(0, 0, 0x20, 0x5000_0100)
        .put(0, 0, 0x04, 2);
    assert_eq!(file.clone().memory(255, 0, 0x5000_00FF).last(), "owner 0 0 0 00000000000000FF");
    assert_eq!(file.clone().memory(255, 0, 0x5000_0100).last(), "owner 0 0 1 0000000000000100");
    assert_eq!(file.clone().check().last(), "pass");
    // The 64-bit region moved away; then 32-bit regions know no address above.
    let file = file.put(0, 0, 0x14, 0xFFFF_FFFF);
    assert_eq!(file.clone().memory(255, 0, 0x5000_0000).last(), "owner 0 0 1 0000000000000000");
    assert_eq!(
        file.clone().memory(255, 0, 0xFFFF_FFFF_5000_00FF).last(),
        "owner 0 0 0 00000000000000FF"
    );
    assert_eq!(file.memory(255, 0, 0xFFFF_FFFE_5000_00FF).last(), "unclaimed 0 255 abort");
}

#[test]
fn ends_of_the_address_space() {
    let file = File::host(0, u64::MAX).device(255, 0, [(3, 4), (1, 2), (0, 0)]).put(0, 0, 4, 5);
    assert_eq!(file.clone().memory(0, 0, u64::MAX).last(), "host 0 FFFFFFFFFFFFFFFF");
    assert_eq!(file.clone().memory(0, 0, 0).last(), "host 0 0000000000000000");
    let file = file
        .put(0, 0, 0x10, u32::MAX)
        .put(0, 0, 0x14, u32::MAX)
        .put(0, 0, 0x18, u32::MAX)
        .put(0, 0, 4, 3);
    assert_eq!(file.clone().memory(255, 0, u64::MAX).last(), "owner 0 0 0 000000000000000F");
    assert_eq!(file.clone().io(255, 0, u32::MAX).last(), "owner 0 0 1 0000000000000003");
    assert_eq!(file.io(255, 0, u32::MAX - 4).last(), "unclaimed 0 255 abort");
}

#[test]
fn region_at_reset_is_at_address_0() {
    let file = File::new().device(255, 0, [(2, 4), (1, 2), (0, 0)]).put(0, 0, 4, 3);
    assert_eq!(file.clone().memory(255, 0, 15).last(), "owner 0 0 0 000000000000000F");
    assert_eq!(file.io(255, 0, 3).last(), "owner 0 0 1 0000000000000003");
}

#[test]
fn configuration() {
    // Type 0 on the root bus, and Type 1 turned to Type 0 one and two bridges down.
    goes(rack().get(0, 7, 0), "data 0 00205678", &[]);
    goes(rack().get(1, 0, 0), "data 1 00101234", &[]);
    goes(rack().get(2, 7, 0), "data 2 00205678", &[]);
    goes(rack().get(4, 7, 0), "data 2 00205678", &[]);
    goes(rack().put(4, 7, 4, 7), "stored 2", &[]);
    // No such device on the root bus, or bus number.
    goes(rack().get(0, 9, 0), "unclaimed 0 255 abort", &[]);
    goes(rack().get(9, 0, 0), "unclaimed 0 255 abort", &[]);
    // Below a bridge: bit 13 of the last bridge's secondary status.
    goes(rack().get(1, 9, 0), "unclaimed 1 0 done", &[(0, 0, B13)]);
    goes(rack().put(2, 9, 0, 0), "unclaimed 2 2 done", &[(2, 0, B13)]);
    // Function 1 of a node, and devices 16 to 31.
    goes(rack().raw(&[5, 2, 7 << 3 | 1, 0]), "unclaimed 2 2 done", &[(2, 0, B13)]);
    goes(rack().raw(&[5, 0, 7 << 3 | 7, 0]), "unclaimed 0 255 abort", &[]);
    for device in 16..32 {
        goes(rack().get(0, device, 0), "unclaimed 0 255 abort", &[]);
        goes(rack().get(2, device, 0), "unclaimed 2 2 done", &[(2, 0, B13)]);
    }
}

#[test]
fn configuration_target_abort() {
    let file = || rack().put(1, 0, 0x3C, 0x20_0000);
    goes(file().get(2, 9, 0), "unclaimed 2 2 target", &[(0, B11, B12), (2, B11, B13)]);
    goes(file().put(2, 9, 0, 0), "unclaimed 2 2 target", &[(0, B11, B12), (2, B11, B13)]);
    goes(file().get(1, 9, 0), "unclaimed 1 0 done", &[(0, 0, B13)]);
}

#[test]
fn configuration_type_1_ends_inside() {
    // Bridge 0 takes buses 1 to 9, bridge 2 only bus 2: bus 5 is unclaimed below bridge 0.
    let file = || rack().put(0, 1, 0x18, 0).put(0, 0, 0x18, 0x0009_0100);
    goes(file().get(5, 7, 0), "unclaimed 1 0 done", &[(0, 0, B13)]);
    goes(file().get(2, 7, 0), "data 2 00205678", &[]);
    // Secondary above subordinate claims nothing.
    let file = rack().put(0, 0, 0x18, 0x0001_0200);
    goes(file.get(2, 7, 0), "unclaimed 0 255 abort", &[]);
}

/// Bridge 0, and below it two bridges that both carry bus F0h.
pub fn twice_carried() -> File {
    File::new()
        .bridge(255, 0)
        .bridge(0, 3)
        .bridge(0, 1)
        .put(0, 0, 0x18, 0x00FF_0100)
        .put(1, 3, 0x18, 0x00FF_F000)
        .put(1, 1, 0x18, 0x00F0_0200)
}

#[test]
fn configuration_clash() {
    let file = || rack().put(0, 1, 0x18, 0x0004_0200);
    goes(file().get(2, 7, 0), "clash 0 255 0 1", &[]);
    goes(file().put(2, 7, 4, 7), "clash 0 255 0 1", &[]);
    assert_eq!(file().check().last(), "fault 255 config 0000000000000002 255 0 1");
    // Below a bridge.
    let file = twice_carried();
    assert_eq!(file.clone().get(0xF0, 0, 0).last(), "clash 1 0 1 2");
    assert_eq!(file.check().last(), "fault 0 config 00000000000000F0 0 1 2");
}

#[test]
fn isa_and_vga_on_both_sides() {
    for kind in [2, 13] {
        isa_and_vga_around_a_bridge(kind);
    }
}

fn isa_and_vga_around_a_bridge(kind: u8) {
    // Bridge 0 with I/O 0 to 3FFFh, ISA and VGA, command 7; device 1 below it, device 2 beside it.
    let regions = [(1, 4), (2, 4), (0, 0)];
    let file = || {
        File::new()
            .bridge_of(kind, 255, 0)
            .device(0, 0, regions)
            .device(255, 1, regions)
            .put(0, 0, 0x18, 0x0001_0100)
            .put(0, 0, 0x20, 0x0000_FFF0)
            .put(0, 0, 0x24, 0x0000_FFF0)
            .put(0, 0, 0x1C, 0x3000)
            .put(0, 0, 0x3C, 0x000C_0000)
            .put(0, 0, 4, 7)
            .put(1, 0, 4, 7)
            .put(0, 1, 4, 7)
    };
    // 1100h lies in a hole: from the host unclaimed, from device 1 up to device 2.
    let hole = || file().put(0, 1, 0x10, 0x1100);
    assert_eq!(hole().io(255, 0, 0x1104).last(), "owner 0 2 0 0000000000000004");
    assert_eq!(hole().io(1, 0, 0x1104).last(), "owner 1 2 0 0000000000000004");
    // 13C0h is a VGA address in a hole: down.
    let vga = || file().put(1, 0, 0x10, 0x13C0);
    assert_eq!(vga().io(255, 0, 0x13C1).last(), "owner 1 1 0 0000000000000001");
    assert_eq!(vga().io(2, 0, 0x13CF).last(), "owner 1 1 0 000000000000000F");
    // VGA memory: down from above, not up from below.
    let vga = || file().put(1, 0, 0x18, 0xB_8000);
    assert_eq!(vga().memory(255, 0, 0xB_8001).last(), "owner 1 1 1 0000000000000001");
    assert_eq!(vga().memory(1, 0, 0xA_0000).last(), "unclaimed 0 0 abort");
    assert_eq!(vga().memory(1, 0, 0x9_FFFF).last(), "unclaimed 1 255 done");
}

#[test]
fn longest_way() {
    EDITIONS.into_iter().for_each(longest_way_through);
}

/// Two chains of 16 bridges with a device at each end: 32 crossings. The kinds take turns.
fn longest_way_through(kinds: [u8; 2]) {
    let chain = |file: File, root: u8, first: u8| {
        let file = file.bridge_of(kinds[0], 255, root);
        let kind = |parent: u8| kinds[usize::from((parent + 1) % 2)];
        (first..first + 15).fold(file, |file, parent| file.bridge_of(kind(parent), parent, 0))
    };
    let file = chain(chain(File::new(), 0, 0), 1, 16);
    let file = file.device(15, 1, only(2, 4)).device(31, 1, NO_REGIONS);
    // Buses 1 to 16 and 17 to 32.
    let numbered = |file: File, root: u8, first: u8| {
        let file = file.put(0, root, 0x18, u32::from(first) << 8 | u32::from(first + 15) << 16);
        (first..first + 15).fold(file, |file, bus| {
            file.put(bus, 0, 0x18, u32::from(bus + 1) << 8 | u32::from(first + 15) << 16)
        })
    };
    let file = numbered(numbered(file, 0, 1), 1, 17);
    // Bridges 0 to 15 open 40000000h; bridges 16 to 31 pass up.
    let mut file = file;
    for (bus, device) in std::iter::once((0, 0)).chain((1..16).map(|bus| (bus, 0))) {
        file = file.put(bus, device, 0x20, 0x4000_4000).put(bus, device, 4, 2);
    }
    for (bus, device) in std::iter::once((0, 1)).chain((17..32).map(|bus| (bus, 0))) {
        file = file.put(bus, device, 4, 4);
    }
    let file = file.put(16, 1, 0x10, 0x4000_0000).put(16, 1, 4, 2).put(32, 1, 4, 4);
    assert_eq!(file.last(), "stored 16");
    assert_eq!(file.clone().memory(33, 0, 0x4000_000F).last(), "owner 32 32 0 000000000000000F");
    assert_eq!(file.clone().memory(33, 0, 0x4000_0010).last(), "unclaimed 32 15 done");
    assert_eq!(file.check().last(), "pass");
}
