//! Scripts of calls: CALLS.md.

use crate::build::{
    binary, event_length, full_at_work, hex, one_of_each_below, only, output, placed, File, Random,
    EDITIONS, NO_REGIONS,
};
use crate::check::random_rack;
use crate::random::records;
use rackcheck::bytes::{u16_at, u64_at};
use rackcheck::file::read;
use rackcheck::rack::{Event, Header, Options, Rack};

/// What a script gives.
pub fn script(bytes: &[u8]) -> Vec<u8> {
    let mut out = Vec::new();
    rackcheck::script::run(&mut &bytes[..], &mut out).expect("a vector takes all");
    out
}

/// A call of a script under construction.
#[derive(Clone, Debug, Default)]
pub struct Call {
    pub operation: u8,
    pub rack: Vec<u8>,
    pub event: Vec<u8>,
    pub images: (Vec<u8>, Vec<u8>),
    pub node: u8,
    pub named: u8,
    pub enables: u8,
    pub data: u32,
}

/// What a call gives.
#[derive(Clone, Debug, PartialEq, Eq)]
pub struct Gives {
    pub number: u8,
    pub numbers: Vec<u64>,
    pub part: Vec<u8>,
    pub images: (Vec<u8>, Vec<u8>),
}

impl Call {
    pub fn bytes(&self) -> Vec<u8> {
        let mut bytes = vec![self.operation];
        bytes.extend((self.rack.len() as u32).to_le_bytes());
        for count in [self.event.len(), self.images.0.len(), self.images.1.len()] {
            bytes.extend((count as u16).to_le_bytes());
        }
        bytes.extend([self.node, self.named, self.enables]);
        bytes.extend(self.data.to_le_bytes());
        [&bytes[..], &self.rack, &self.event, &self.images.0, &self.images.1].concat()
    }

    pub fn gives(&self) -> Gives {
        let out = script(&self.bytes());
        let count = usize::from(u16_at(&out, 65));
        let (part, images) = out[67..].split_at(count);
        let (bridges, devices) = images.split_at(self.images.0.len());
        assert_eq!(devices.len(), self.images.1.len());
        Gives {
            number: out[0],
            numbers: (0..8).map(|index| u64_at(&out, 1 + 8 * index)).collect(),
            part: part.to_vec(),
            images: (bridges.to_vec(), devices.to_vec()),
        }
    }

    /// The call gives these numbers, the rest 0, and leaves both images.
    pub fn gives_numbers(&self, numbers: &[u64]) {
        let gives = Gives { number: 0, numbers: rest_0(numbers), ..self.nothing() };
        assert_eq!(self.gives(), gives, "{self:?}");
    }

    /// The call is refused, and leaves both images; a view tells no number.
    pub fn refused(&self, number: u8) {
        let number = if self.operation == 3 { 0 } else { number };
        assert_eq!(self.gives(), Gives { number, ..self.nothing() }, "{self:?}");
    }

    /// All 0, and the images as they are.
    pub fn nothing(&self) -> Gives {
        let images = self.images.clone();
        Gives { number: 0, numbers: rest_0(&[]), part: Vec::new(), images }
    }

    /// The script ends here: it gives nothing for this call, nor for the one behind it.
    pub fn ends(&self) {
        let good = Call { operation: 10, rack: File::new().0, ..Call::default() };
        assert_eq!(good.gives(), good.nothing());
        let all = [good.bytes(), self.bytes(), good.bytes()].concat();
        assert_eq!(script(&all), script(&good.bytes()), "{self:?}");
    }
}

pub fn rest_0(numbers: &[u64]) -> Vec<u64> {
    let mut all = numbers.to_vec();
    all.resize(8, 0);
    all
}

/// The 5,585 bytes of a decoded rack. What CALLS.md lets nobody look at is EEh: the regions
/// of a bridge, the nodes behind the last one and the masks of pairs that are not named.
pub fn decoded(rack: &Rack) -> Vec<u8> {
    let mut bytes = [rack.host_first.to_le_bytes(), rack.host_last.to_le_bytes()].concat();
    bytes.push(rack.nodes.len() as u8);
    for node in rack.nodes.iter().take(96) {
        let (kind, regions) = match &node.header {
            Header::Bridge(Options::ALL) => (2, [0xEE; 6]),
            Header::Bridge(Options::NONE) => (13, [0xEE; 6]),
            Header::Bridge(options) => panic!("no kind has {options:?}"),
            Header::Device([a, b, c]) => {
                (3, [a.kind, a.exponent, b.kind, b.exponent, c.kind, c.exponent])
            }
        };
        bytes.extend([kind, node.parent, node.device]);
        bytes.extend(node.vendor_id.to_le_bytes());
        bytes.extend(node.device_id.to_le_bytes());
        bytes.extend(regions);
    }
    bytes.resize(1_265, 0xEE);
    for (seat, node) in (1..=15).flat_map(|seat| (0..96).map(move |node| (seat, node))) {
        match rack.grants.mask(seat, node) {
            None => bytes.extend([0, 0xEE, 0xEE]),
            Some(mask) => bytes.extend([&[1][..], &mask.to_le_bytes()].concat()),
        }
    }
    assert_eq!(bytes.len(), 5_585);
    bytes
}

/// The same call of every operation from 1 to 11, on the records of a file with images after
/// its events.
pub fn every_operation(file: &File, node: u8, named: u8, event: &[u8]) -> Vec<Call> {
    let records = file.0[..file.records_length()].to_vec();
    let call = Call { images: file.images(), node, named, ..Call::default() };
    let call = Call { event: event.to_vec(), enables: 15, ..call };
    let over = |operation: u8| match operation {
        1..=7 => Call { operation, rack: decoded(&file.rack()), ..call.clone() },
        _ => Call { operation, rack: records.clone(), ..call.clone() },
    };
    (1..=11).map(over).collect()
}

/// A bridge at reset, of vendor 1234h and device 0010h.
const BRIDGE: &str = "34121000 00000000 00000406 00000100 00000000 00000000 00000000 01010000 \
                      00000000 01000100 00000000 00000000 00000000 00000000 00000000 00000000";

#[test]
fn a_run_by_hand() {
    // The worked example's rack and its read of register 0 of device number 1.
    let rack = "01 0100000000000000 0000000000000000 02 FF 01 34 12 10 00";
    let head = "08 18000000 0400 4000 0000 00 00 00 00000000";
    let call = hex(&[head, rack, "05 00 08 00", BRIDGE].concat());
    let numbers = "0100000000000000 0000000000000000 3412100000000000 0000000000000000 \
                   0000000000000000 0000000000000000 0000000000000000 0000000000000000";
    assert_eq!(script(&call), hex(&["00", numbers, "0000", BRIDGE].concat()));
    // Refused by 13: register 2.
    let refused = hex(&[head, rack, "05 00 08 02", BRIDGE].concat());
    let zeros = "00".repeat(64);
    assert_eq!(script(&refused), hex(&["0D", &zeros, "0000", BRIDGE].concat()));
    // Both in one script, and the check between them.
    let check = hex(&["09 18000000 0000 4000 0000 00 00 00 00000000", rack, BRIDGE].concat());
    let pass = ["0800000000000000", &"00".repeat(56)].concat();
    let all = [hex(&["00", numbers, "0000", BRIDGE].concat())]
        .into_iter()
        .chain([hex(&["00", &pass, "0000", BRIDGE].concat())])
        .chain([hex(&["0D", &zeros, "0000", BRIDGE].concat())]);
    assert_eq!(script(&[call, check, refused].concat()), all.collect::<Vec<_>>().concat());
}

#[test]
fn a_write_and_a_view_by_hand() {
    // No host memory; device 0 (32-bit region, e = 12) with the bridge above, in this order.
    let rack = [
        "0100000000000000 0000000000000000 02",
        "03 FF 02 78 56 20 00 02 0C 00 00 00 00",
        "02 FF 01 34 12 10 00 09 09 09 09 09 09",
        &"00".repeat(94 * 13),
        &"00".repeat(15 * 96 * 3),
    ];
    let device =
        |region: &str| ["78562000 00000000 000000FF 00000000", region, &"00".repeat(44)].concat();
    // Node 0, register 10h, enables 0110b, data 12345678h: bits 12 to 23 are written.
    let head = "02 D1150000 0000 4000 4000 00 10 06 78563412";
    let call = hex(&[head, &rack.concat(), BRIDGE, &device("00000000")].concat());
    let zeros = "00".repeat(64);
    let expected = hex(&["00", &zeros, "0000", BRIDGE, &device("00503400")].concat());
    assert_eq!(script(&call), expected);
    // The view of node 0, then of node 1, then of node 2.
    let view = |node: &str| {
        let head = ["03 D1150000 0000 4000 4000", node, "00 00 00000000"].concat();
        script(&hex(&[&head, &rack.concat(), BRIDGE, &device("00503400")].concat()))
    };
    let part =
        |count: &str, part: &str| hex(&[&zeros, count, part, BRIDGE, &device("00503400")].concat());
    assert_eq!(view("00"), [vec![0], part("4000", &device("00503400"))].concat());
    assert_eq!(view("01"), [vec![0], part("4000", BRIDGE)].concat());
    assert_eq!(view("02"), [vec![0], part("0000", "")].concat());
    assert_eq!(view("FF"), [vec![0], part("0000", "")].concat());
}

/// Bridge 0 with windows, ISA and VGA, and device 1 with regions below it.
fn small() -> File {
    small_below(2)
}

/// The same with a bridge of that kind.
fn small_below(kind: u8) -> File {
    placed(one_of_each_below(kind)).put(0, 0, 0x3C, 0x001C_0000)
}

/// An older bridge at reset, of the same IDs as [`BRIDGE`].
const OLDER: &str = "34121000 00000000 00000406 00000100 00000000 00000000 00000000 00000000 \
                     00000000 00000000 00000000 00000000 00000000 00000000 00000000 00000000";

#[test]
fn an_older_bridge_by_hand() {
    // Over bytes: the rack of an older bridge, reset, then a write of all of register 30h.
    let rack = "01 0100000000000000 0000000000000000 0D FF 01 34 12 10 00";
    let any = "EE".repeat(64);
    let reset = hex(&["0A 18000000 0000 4000 0000 00 00 00 00000000", rack, &any].concat());
    let zeros = "00".repeat(64);
    assert_eq!(script(&reset), hex(&["00", &zeros, "0000", OLDER].concat()));
    let head = "08 18000000 0900 4000 0000 00 00 00 00000000";
    let write = hex(&[head, rack, "04 00 08 30 0F FFFFFFFF", OLDER].concat());
    let stored = ["0200000000000000", &"00".repeat(56)].concat();
    assert_eq!(script(&write), hex(&["00", &stored, "0000", OLDER].concat()));
    // The image of the newer one is 12, an event of kind 13 is 2.
    let newer = hex(&[head, rack, "04 00 08 30 0F FFFFFFFF", BRIDGE].concat());
    assert_eq!(script(&newer), hex(&["0C", &zeros, "0000", BRIDGE].concat()));
    let head = "08 18000000 0700 4000 0000 00 00 00 00000000";
    let event = hex(&[head, rack, "0D FF 02 34 12 10 00", OLDER].concat());
    assert_eq!(script(&event), hex(&["02", &zeros, "0000", OLDER].concat()));
    // Over a decoded rack: the prefetchable window at reset is 0 to FFFFFh.
    let rack = [
        "0100000000000000 0000000000000000 01 0D FF 01 34 12 10 00 09 09 09 09 09 09",
        &"00".repeat(95 * 13),
        &"00".repeat(15 * 96 * 3),
    ];
    let head = "05 D1150000 0000 4000 0000 00 01 00 00000000";
    let ends = hex(&[head, &rack.concat(), OLDER].concat());
    let numbers = ["0100000000000000 0000000000000000 FFFF0F0000000000", &"00".repeat(40)].concat();
    assert_eq!(script(&ends), hex(&["00", &numbers, "0000", OLDER].concat()));
}

#[test]
fn registers_sizes_and_ends_of_an_older_bridge() {
    let call = |operation: u8, named: u8| {
        every_operation(&small_below(13), 0, named, &[]).remove(usize::from(operation) - 1)
    };
    for (register, dword) in
        [(0x1C, 0x5030), (0x24, 0x7000_6000), (0x28, 0), (0x2C, 0), (0x30, 0), (0x3C, 0x000C_0000)]
    {
        call(1, register).gives_numbers(&[dword]);
        let write = Call { data: u32::MAX, ..call(2, register) };
        let written = write.gives().images.0;
        assert_eq!(written == write.images.0, (0x28..0x34).contains(&register), "{register:X}");
        assert_eq!(written[0x3E] & 0x10, 0);
    }
    let part = small_below(13).images().0;
    assert_eq!(call(3, 0).gives(), Gives { part, ..call(3, 0).nothing() });
    call(4, 0).refused(13);
    for operation in [5, 11] {
        call(operation, 0).gives_numbers(&[1, 0x3000_0000, 0x400F_FFFF]);
        call(operation, 1).gives_numbers(&[1, 0x6000_0000, 0x700F_FFFF]);
        call(operation, 2).gives_numbers(&[1, 0x3000, 0x5FFF]);
        call(operation, 3).refused(13);
    }
}

#[test]
fn registers_sizes_and_ends() {
    let call = |operation: u8, node: u8, named: u8| {
        every_operation(&small(), node, named, &[]).remove(usize::from(operation) - 1)
    };
    call(1, 0, 0x18).gives_numbers(&[0x0001_0100]);
    call(1, 1, 0x1C).gives_numbers(&[0xFFFF_FFFF]);
    call(1, 1, 0xFC).gives_numbers(&[]);
    call(4, 1, 0).gives_numbers(&[16]);
    call(4, 1, 1).gives_numbers(&[1 << 20]);
    call(4, 1, 2).gives_numbers(&[]);
    for operation in [5, 11] {
        // ISA and VGA are on, all commands 0.
        call(operation, 0, 0).gives_numbers(&[1, 0x3000_0000, 0x400F_FFFF]);
        call(operation, 0, 1).gives_numbers(&[1, 0x1_6000_0000, 0x2_700F_FFFF]);
        call(operation, 0, 2).gives_numbers(&[1, 0x1_3000, 0x2_5FFF]);
        call(operation, 1, 0).gives_numbers(&[1, 0x1230, 0x123F]);
        call(operation, 1, 1).gives_numbers(&[1, u64::MAX - 0xF_FFFF, u64::MAX]);
        call(operation, 1, 2).gives_numbers(&[]);
        call(operation, 0, 3).refused(13);
        call(operation, 1, 3).refused(13);
        call(operation, 2, 0).refused(13);
        call(operation, 255, 0).refused(13);
    }
    call(4, 0, 0).refused(13);
    call(4, 1, 3).refused(13);
    // A window from address 0 on is not empty; with base above limit it is.
    let memory =
        |data: u32| every_operation(&File::new().bridge(255, 0).put(0, 0, 0x20, data), 0, 0, &[]);
    for (data, numbers) in [(0, &[1, 0, 0xF_FFFF][..]), (0x4000_4010, &[])] {
        memory(data)[4].gives_numbers(numbers);
        memory(data)[10].gives_numbers(numbers);
    }
    // Writes: every enable; a write of register 40h and above changes nothing.
    let write = |named: u8, enables: u8| Call { enables, data: 0xAABB_CCDD, ..call(2, 0, named) };
    for enables in 0..16u8 {
        let mut images = small().images();
        for byte in (0..4).filter(|byte| enables >> byte & 1 == 1) {
            images.0[0x28 + byte] = [0xDD, 0xCC, 0xBB, 0xAA][byte];
        }
        let call = write(0x28, enables);
        assert_eq!(call.gives(), Gives { images, ..call.nothing() });
    }
    write(0x40, 15).gives_numbers(&[]);
    write(0x28, 16).refused(13);
    write(0x29, 15).refused(13);
    Call { node: 2, ..write(0x28, 15) }.refused(13);
}

#[test]
fn refusals_11_12_13_in_their_order() {
    for kind in [2, 13] {
        refused_in_order_below(kind);
    }
}

fn refused_in_order_below(kind: u8) {
    // Register, region or window 5 is wrong in every call, and so is the event's initiator
    // (bridge 0); checks and the reset know no 13, the view has no such field.
    let event = [7, 0, 0, 0, 0, 0, 0];
    for call in every_operation(&small_below(kind), 1, 5, &event) {
        let reset = call.operation == 10;
        let mut spoilt = call.clone();
        spoilt.images.0[0x3F] = 1;
        let mut short = spoilt.clone();
        short.images.1.pop();
        let mut swapped = spoilt.clone();
        swapped.images = (spoilt.images.1.clone(), [&spoilt.images.0[..], &[0; 64]].concat());
        short.refused(11);
        swapped.refused(11);
        match reset {
            true => {
                let gives = Gives { images: one_of_each_below(kind).images(), ..call.nothing() };
                assert_eq!((spoilt.gives(), call.gives()), (gives.clone(), gives));
            }
            false => spoilt.refused(12),
        }
        match call.operation {
            3 => assert_eq!(call.gives(), Gives { part: call.images.1.clone(), ..call.nothing() }),
            7 | 9 => call.gives_numbers(&[8]),
            10 => {}
            _ => call.refused(13),
        }
        // The view's only field is its node.
        let missing = Call { node: 2, ..call };
        match missing.operation {
            7 | 9 | 10 => assert_eq!(missing.gives().number, 0),
            _ => missing.refused(13),
        }
    }
}

#[test]
fn refusals_1_to_10_come_first() {
    let racks = [
        (File::empty().raw(&[8; 65_537]), 1),
        (File::empty().raw(&[8; 65_600]), 1),
        (File::new().check(), 2),
        (File::new().raw(&[2]), 3),
        (File::empty(), 4),
        (File::new().raw(&[13, 255, 0, 0, 0, 0]), 3),
        (File::empty().older(255, 0), 4),
        (File::all_bridges([2, 2]).bridge(1, 0), 6),
        (File::all_bridges([2, 2]).older(1, 0), 6),
        (File::all_bridges([13, 2]).bridge(1, 0), 6),
        (File::new().bridge(9, 0), 7),
        (File::new().older(9, 0), 7),
        (File::new().bridge(255, 16), 8),
        (File::new().older(255, 16), 8),
        (File::new().bridge(255, 0).bridge(255, 0), 9),
        (File::new().bridge(255, 0).older(255, 0), 9),
        (File::new().device(255, 0, only(1, 9)), 10),
    ];
    for (file, number) in racks {
        for operation in 8..=11 {
            // The images are too long for any rack, and there is no event.
            let images = (vec![0; 4_160], vec![0; 4_160]);
            let call = Call { operation, rack: file.0.clone(), images, ..Call::default() };
            call.refused(number);
        }
    }
    let racks = [
        (File::new().bridge(255, 0).bridge(255, 1), 14, 9, 7),
        (File::new().bridge(255, 0).bridge(255, 1), 15, 16, 8),
        (File::new().bridge(255, 0).bridge(255, 1), 15, 0, 9),
        (File::new().bridge(255, 0).older(255, 1), 14, 9, 7),
        (File::new().bridge(255, 0).older(255, 1), 15, 16, 8),
        (File::new().older(255, 0).bridge(255, 1), 15, 0, 9),
        (File::new().bridge(255, 0).device(255, 1, only(1, 2)), 21, 9, 10),
    ];
    for (file, offset, value, number) in racks {
        for mut call in every_operation(&file, 0, 0, &[8]).into_iter().take(7) {
            call.rack[17 + offset] = value;
            call.images.0.pop();
            call.refused(number);
        }
    }
    // The event of bytes is read between 10 and 11.
    let older = vec![13, 255, 1, 0, 0, 0, 0];
    for (event, number) in
        [(vec![], 2), (vec![3], 2), (vec![13], 2), (older, 2), (vec![8, 0], 3), (vec![8], 11)]
    {
        let rack = File::new().bridge(255, 0).0;
        Call { operation: 8, rack, event, ..Call::default() }.refused(number);
    }
}

#[test]
fn a_count_of_97() {
    EDITIONS.into_iter().for_each(a_count_of_97_with);
}

fn a_count_of_97_with(kinds: [u8; 2]) {
    let full = File::full(kinds, NO_REGIONS);
    for call in every_operation(&full, 0, 0, &[8]).into_iter().take(7) {
        assert_eq!(call.rack[16], 96);
        assert_eq!(call.gives().number, if call.operation == 4 { 13 } else { 0 });
        for count in [97, 98, 128, 255] {
            let mut more = call.clone();
            more.rack[16] = count;
            more.refused(6);
            // Before 11, whatever the images; after what the 96 nodes are refused by.
            more.images = (Vec::new(), Vec::new());
            more.refused(6);
            more.rack[17 + 95 * 13 + 2] = 16;
            more.refused(8);
            // A 65th device before the 97th node.
            more.rack[17 + 31 * 13] = 3;
            more.rack[17 + 31 * 13 + 7..17 + 32 * 13].fill(0);
            more.refused(6);
        }
        // 95 nodes: the images are too long for them.
        let mut fewer = call.clone();
        fewer.rack[16] = 95;
        fewer.refused(11);
    }
}

#[test]
fn a_script_cut_short() {
    let calls = every_operation(&small(), 0, 0, &[8]);
    let calls = [&calls[2], &calls[8], &calls[9]];
    let [a, b, c] = calls.map(Call::bytes);
    let [x, y, z] = calls.map(|call| script(&call.bytes()));
    let all = [&a[..], &b, &c].concat();
    for length in 0..=all.len() {
        let expected = if length < a.len() {
            Vec::new()
        } else if length < a.len() + b.len() {
            x.clone()
        } else if length < all.len() {
            [&x[..], &y].concat()
        } else {
            [&x[..], &y, &z].concat()
        };
        assert_eq!(script(&all[..length]), expected, "{length}");
    }
}

#[test]
fn what_is_no_call_ends_the_script() {
    let empty = || Call { operation: 10, rack: File::new().0, ..Call::default() };
    // Counts: the greatest ones, and one more.
    Call { rack: vec![0; 65_600], ..empty() }.refused(1);
    Call { rack: vec![0; 65_601], ..empty() }.ends();
    Call { images: (vec![0; 4_160], vec![0; 4_160]), ..empty() }.refused(11);
    Call { images: (vec![0; 4_161], Vec::new()), ..empty() }.ends();
    Call { images: (Vec::new(), vec![0; 4_161]), ..empty() }.ends();
    Call { operation: 8, event: vec![8; 65_535], ..empty() }.refused(3);
    let mut head = empty().bytes();
    head[1..5].fill(0xFF);
    assert_eq!(script(&head), []);
    // Operations.
    for operation in (0..=255).filter(|operation| !(1..=15).contains(operation)) {
        Call { operation, ..empty() }.ends();
    }
    // Decoded racks of another length or with another kind, and events that are none.
    for call in every_operation(&small(), 0, 0, &[8]).into_iter().take(7) {
        let with = |at: usize, value: u8| {
            let mut rack = call.rack.clone();
            rack[at] = value;
            Call { rack, ..call.clone() }
        };
        for length in [0, 1_264, 1_265, 1_266, 5_584] {
            Call { rack: call.rack[..length].to_vec(), ..call.clone() }.ends();
        }
        Call { rack: [&call.rack[..], &[0]].concat(), ..call.clone() }.ends();
        Call { rack: small().0, ..call.clone() }.ends();
        for kind in (0..=255).filter(|kind| !matches!(kind, 2 | 3 | 13)) {
            with(17, kind).ends();
            with(17 + 13, kind).ends();
            assert_eq!(with(17 + 26, kind).gives(), call.gives());
        }
        for event in [vec![], vec![3], vec![9], vec![8, 0], vec![5, 0, 0], vec![10]] {
            let call = Call { event, ..call.clone() };
            match call.operation {
                6 => call.ends(),
                _ => assert_ne!(script(&call.bytes()), []),
            }
        }
    }
}

/// The numbers of every ending, by hand.
#[test]
fn every_ending() {
    let run = |file: File, event: File, numbers: &[u64]| {
        for call in every_operation(&file, 0, 0, &event.0) {
            if matches!(call.operation, 6 | 8) {
                let gives = call.gives();
                assert_eq!((gives.number, gives.numbers), (0, rest_0(numbers)), "{event:?}");
                assert_eq!(gives.images, file.clone().raw(&event.0).images());
                assert!(gives.part.is_empty());
            }
        }
    };
    let none = File::empty;
    // Root: bridge 0 (device number 0), device 1 (1) and 2 (2); device 3 (3) below the bridge.
    let file = || {
        File::host(0x1000, 0x1FFF)
            .bridge(255, 0)
            .device(255, 1, [(0, 0), (2, 12), (0, 0)])
            .device(255, 2, only(2, 12))
            .device(0, 3, only(1, 4))
            .put(0, 0, 0x18, 0x0007_0600)
            .put(0, 0, 0x1C, 0xF010)
            .put(0, 0, 0x20, 0x0010_0020)
            .put(0, 0, 0x24, 0x0010_0020)
            .put(0, 0, 4, 7)
            .put(0, 1, 0x18, 0xABCD_E000)
            .put(0, 1, 4, 7)
            .put(6, 3, 0x10, 0x9870)
            .put(6, 3, 4, 5)
    };
    run(file(), none().get(6, 3, 0), &[1, 1, 0x0020_5678]);
    run(file(), none().put(6, 3, 4, 7), &[2, 1]);
    run(file(), none().memory(3, 1, 0xABCD_E123), &[3, 1, 1, 1, 0x123]);
    run(file(), none().io(255, 0, 0x987F), &[3, 1, 3, 0, 0xF]);
    run(file(), none().memory(3, 0, 0x1FFF), &[4, 1, 0xFFF]);
    run(file(), none().memory(255, 0, 0), &[5, 0, 255, 0]);
    run(file(), none().get(6, 4, 0), &[5, 1, 0, 1]);
    run(file().put(0, 0, 0x3C, 0x20_0000), none().get(6, 4, 0), &[5, 1, 0, 2]);
    run(file(), none().special(0), &[12, 0, 255]);
    run(file(), none().special(6), &[12, 1, 0]);
    run(file(), none().special(7), &[5, 1, 0, 1]);
    run(file(), none().memory(2, 0, 0), &[7]);
    run(file(), none().check(), &[8]);
    run(file().seated(&[(9, 0, 0)]), none().acts(9), &[11, 9]);
    run(file(), none().acts(0), &[11, 0]);
    let clash = || file().put(0, 2, 0x10, 0xABCD_E000).put(0, 2, 4, 2);
    run(clash(), none().memory(3, 0, 0xABCD_EFFF), &[6, 1, 255, 1, 2]);
    run(clash(), none().check(), &[9, 255, 0, 0xABCD_E000, 255, 1, 2]);
    // Faults of the other two kinds.
    let regions = only(1, 4);
    let io = File::new().device(255, 0, regions).device(255, 1, regions);
    let io = io.put(0, 0, 0x10, 0x4560).put(0, 1, 0x10, 0x4560).put(0, 0, 4, 1).put(0, 1, 4, 1);
    run(io.clone(), none().check(), &[9, 255, 1, 0x4560, 255, 0, 1]);
    let config = File::new().bridge(255, 0).bridge(255, 1);
    let config = config.put(0, 0, 0x18, 0x00FF_4200).put(0, 1, 0x18, 0x00FF_4300);
    run(config.clone(), none().check(), &[9, 255, 2, 0x43, 255, 0, 1]);
    for (file, numbers) in
        [(io, [9, 255, 1, 0x4560, 255, 0, 1]), (config, [9, 255, 2, 0x43, 255, 0, 1])]
    {
        let calls = every_operation(&file, 0, 0, &[]);
        calls[6].gives_numbers(&numbers);
        calls[8].gives_numbers(&numbers);
    }
}

/// The line of an ending's numbers.
fn line(n: &[u64]) -> String {
    match n[0] {
        1 => format!("data {} {:08X}", n[1], n[2]),
        2 => format!("stored {}", n[1]),
        3 => format!("owner {} {} {} {:016X}", n[1], n[2], n[3], n[4]),
        4 => format!("host {} {:016X}", n[1], n[2]),
        5 => format!("unclaimed {} {} {}", n[1], n[2], ["abort", "done", "target"][n[3] as usize]),
        6 => format!("clash {} {} {} {}", n[1], n[2], n[3], n[4]),
        7 => "silent".to_string(),
        8 => "pass".to_string(),
        9 => {
            let space = ["memory", "io", "config"][n[2] as usize];
            format!("fault {} {space} {:016X} {} {} {}", n[1], n[3], n[4], n[5], n[6])
        }
        10 => format!("denied {}", n[1]),
        11 => format!("seat {}", n[1]),
        12 => format!("special {} {}", n[1], n[2]),
        other => panic!("ending {other}"),
    }
}

/// A random rack that is written to by seat 0 or has such registers saved, then events by it and
/// by seats 1 and 15.
fn random_file(random: &mut Random) -> File {
    let grants = [(1, 0, random.next() as u16), (15, 1, random.next() as u16), (15, 0, 2)];
    let mut file = random_rack(random).seated(&grants);
    if random.one_in(2) {
        file = File(rackcheck::saved::file(&file.machine()));
    }
    let rack = file.rack();
    let devices = rack.numbered().map(|(number, _)| number).filter(|n| rack.regions(*n).is_some());
    let initiators: Vec<u8> = devices.chain([255]).collect();
    for _ in 0..random.below(20) {
        let (initiator, direction) = (random.pick(&initiators), random.below(2) as u8);
        let low = random.pick(&[0x300, 0x3B0, 0x3C0, 0x0, 0x2FC, 0x100]) + random.below(8);
        let high = random.pick(&[0, 0x400, 0xFC00, 0x1000, 0x2400, 0x4_0000, 0x12_0000]);
        file = match random.below(13) {
            0..=2 => file.memory(initiator, direction, high + low),
            3..=5 => file.io(initiator, direction, (high + low) as u32),
            6 => {
                file.get(random.below(4) as u8, random.below(16) as u8, random.pick(&[0, 4, 0x1C]))
            }
            7 => file.special(random.below(2) as u8),
            8..=10 => {
                file.put(0, random.below(16) as u8, random.byte() & 0x7C, random.next() as u32)
            }
            11 => file.acts(random.pick(&[0, 1, 15])),
            _ => file.check(),
        };
    }
    file
}

/// Event by event, over a decoded rack and over bytes, the lines are those of the program.
#[test]
fn lines_of_random_files() {
    let mut random = Random(20);
    let mut seen = [0; 13];
    for _ in 0..800 {
        let bytes = random_file(&mut random).0;
        let contents = read(&bytes).unwrap();
        let rack = &contents.rack;
        let (records, mut rest) = bytes.split_at(contents.records);
        rest = &rest[66 * contents.registers.len()..];
        let images = rackcheck::registers::reset_images(rack);
        let start = Call { operation: 15, rack: bytes.clone(), images, ..Call::default() };
        let mut images = start.gives().images;
        let (mut lines, mut acting) = (String::new(), 0);
        for (number, read) in (1..).zip(&contents.events) {
            let (event, behind) = rest.split_at(event_length(read));
            rest = behind;
            let call = Call { event: event.to_vec(), images, node: acting, ..Call::default() };
            let over_bytes = Call { operation: 8, rack: records.to_vec(), ..call.clone() };
            let gives = over_bytes.gives();
            assert_eq!(Call { operation: 6, rack: decoded(rack), ..call }.gives(), gives);
            assert_eq!((gives.number, gives.part.len()), (0, 0));
            lines += &format!("{number} {}\n", line(&gives.numbers));
            seen[gives.numbers[0] as usize] += 1;
            if let Event::Seat { seat } = read {
                acting = *seat;
            }
            images = gives.images;
        }
        assert_eq!(lines, output(&bytes));
    }
    println!("endings: {seen:?}");
    assert!(seen[1..].iter().all(|count| *count >= 20), "{seen:?}");
}

#[test]
fn any_bytes_do_not_panic() {
    let mut random = Random(21);
    for _ in 0..3_000 {
        let length = random.below(400) as usize;
        let bytes = random.bytes(length);
        script(&bytes);
        // A head with counts that the rest of the bytes can fill.
        let mut call = Call { operation: random.below(17) as u8, ..Call::default() };
        call.data = random.below(17_000) as u32;
        call.rack = if random.one_in(2) { decoded(&small().rack()) } else { records(&mut random) };
        call.event = bytes;
        call.images = small().images();
        (call.node, call.named) = (random.below(4) as u8, random.byte());
        let mut all = call.bytes().repeat(2);
        for _ in 0..random.below(6) {
            let at = random.below(all.len() as u64) as usize;
            all[at] = random.byte();
        }
        script(&all);
    }
}

#[test]
fn the_binary() {
    let path = env!("CARGO_BIN_EXE_callcheck");
    let mut all = Vec::new();
    let machine = full_at_work();
    let images = (machine.bridges().to_vec(), machine.devices().to_vec());
    let call = Call { rack: decoded(machine.rack()), images, ..Call::default() };
    for node in 0..=96 {
        for (operation, named) in [(1, 0x10), (3, 0), (4, 1), (5, 2), (7, 0)] {
            all.extend(Call { operation, node, named, ..call.clone() }.bytes());
        }
    }
    let expected = script(&all);
    assert_eq!(expected.len(), 97 * 5 * (67 + 96 * 64) + 96 * 64);
    assert_eq!(binary(path, &all), (expected.clone(), true));
    // Cut short, empty, and with more behind a call that is none.
    let cut = expected[..expected.len() - 67 - 96 * 64].to_vec();
    assert_eq!(binary(path, &all[..all.len() - 1]), (cut, true));
    assert_eq!(binary(path, &[]), (Vec::new(), true));
    assert_eq!(binary(path, &[0; 1_000_000]), (Vec::new(), true));
    assert_eq!(binary(path, &[all, vec![0xFF; 1_000_000]].concat()), (expected, true));
}
