//! What the tests share: rack files, nodes, images and full racks, a fixed-seed generator,
//! hex digits and the binaries.

use std::io::Write;
use std::process::{Command, Stdio};

use rackcheck::file::Contents;
use rackcheck::machine::Machine;
use rackcheck::program::Run;
use rackcheck::rack::{Event, Header, Node, Options, Rack, Region};
use rackcheck::registers::{masks, part_mut};

/// A rack file under construction.
#[derive(Clone, Debug, Default)]
pub struct File(pub Vec<u8>);

pub const NO_REGIONS: [(u8, u8); 3] = [(0, 0); 3];

/// Region 0 of that kind and exponent, and no other.
pub fn only(kind: u8, e: u8) -> [(u8, u8); 3] {
    [(kind, e), (0, 0), (0, 0)]
}

/// Kinds of bridges that take turns in a rack: one edition alone, and both mixed.
pub const EDITIONS: [[u8; 2]; 4] = [[2, 2], [2, 13], [13, 2], [13, 13]];

/// Every set of options.
pub fn all_options() -> Vec<Options> {
    let bit = |set: u8, bit: u8| set >> bit & 1 == 1;
    let options =
        |set| Options { io_32: bit(set, 0), prefetchable_64: bit(set, 1), vga_16: bit(set, 2) };
    (0..8).map(options).collect()
}

/// A bridge with these options.
pub fn bridge_with(options: Options, parent: u8, device: u8) -> Node {
    Node { parent, device, vendor_id: 0x1234, device_id: 0x0010, header: Header::Bridge(options) }
}

/// The node that [`File::bridge`] writes.
pub fn bridge(parent: u8, device: u8) -> Node {
    bridge_with(Options::ALL, parent, device)
}

/// The node that [`File::older`] writes.
pub fn older(parent: u8, device: u8) -> Node {
    bridge_with(Options::NONE, parent, device)
}

/// The node that [`File::device`] writes.
pub fn device(parent: u8, device: u8, regions: [(u8, u8); 3]) -> Node {
    let regions = regions.map(|(kind, exponent)| Region { kind, exponent });
    let header = Header::Device(regions);
    Node { parent, device, vendor_id: 0x5678, device_id: 0x0020, header }
}

impl File {
    /// A host without memory.
    pub fn new() -> File {
        File::host(1, 0)
    }

    pub fn empty() -> File {
        File(Vec::new())
    }

    pub fn host(first: u64, last: u64) -> File {
        File::empty().raw(&[1]).raw(&first.to_le_bytes()).raw(&last.to_le_bytes())
    }

    /// 32 bridges whose kinds take turns: 16 on the root bus, 16 below bridge 0.
    pub fn all_bridges(kinds: [u8; 2]) -> File {
        let kind = |device: u8| kinds[usize::from(device % 2)];
        let file = (0..16).fold(File::new(), |file, n| file.bridge_of(kind(n), 255, n));
        (0..16).fold(file, |file, n| file.bridge_of(kind(n), 0, n))
    }

    /// 32 bridges and 64 devices: those of [`File::all_bridges`], and 16 devices on each
    /// bus of bridges 1 to 4.
    pub fn full(kinds: [u8; 2], regions: [(u8, u8); 3]) -> File {
        let bridges = File::all_bridges(kinds);
        (0..64).fold(bridges, |file, n| file.device(1 + n / 16, n % 16, regions))
    }

    pub fn raw(mut self, bytes: &[u8]) -> File {
        self.0.extend_from_slice(bytes);
        self
    }

    pub fn bridge(self, parent: u8, device: u8) -> File {
        self.bridge_of(2, parent, device)
    }

    /// An older bridge.
    pub fn older(self, parent: u8, device: u8) -> File {
        self.bridge_of(13, parent, device)
    }

    pub fn bridge_of(self, kind: u8, parent: u8, device: u8) -> File {
        self.raw(&[kind, parent, device, 0x34, 0x12, 0x10, 0x00])
    }

    pub fn device(self, parent: u8, device: u8, regions: [(u8, u8); 3]) -> File {
        let file = self.raw(&[3, parent, device, 0x78, 0x56, 0x20, 0x00]);
        regions.iter().fold(file, |file, (kind, e)| file.raw(&[*kind, *e]))
    }

    /// Configuration write of a whole register.
    pub fn put(self, bus: u8, device: u8, register: u8, data: u32) -> File {
        self.put_bytes(bus, device, register, 15, data)
    }

    pub fn put_bytes(self, bus: u8, device: u8, register: u8, enables: u8, data: u32) -> File {
        self.raw(&[4, bus, device << 3, register, enables]).raw(&data.to_le_bytes())
    }

    /// A special cycle: configuration write to device 31, function 7, register 0.
    pub fn special(self, bus: u8) -> File {
        self.raw(&[4, bus, 31 << 3 | 7, 0, 15, 0x78, 0x56, 0x34, 0x12])
    }

    pub fn get(self, bus: u8, device: u8, register: u8) -> File {
        self.raw(&[5, bus, device << 3, register])
    }

    pub fn memory(self, initiator: u8, direction: u8, address: u64) -> File {
        self.raw(&[6, initiator, direction]).raw(&address.to_le_bytes())
    }

    pub fn io(self, initiator: u8, direction: u8, address: u32) -> File {
        self.raw(&[7, initiator, direction]).raw(&address.to_le_bytes())
    }

    pub fn check(self) -> File {
        self.raw(&[8])
    }

    /// A seat record.
    pub fn seat(self, seat: u8, node: u8, mask: u16) -> File {
        self.raw(&[9, seat, node]).raw(&mask.to_le_bytes())
    }

    /// A seat event.
    pub fn acts(self, seat: u8) -> File {
        self.raw(&[10, seat])
    }

    /// A register record.
    pub fn saved(self, node: u8, part: &[u8]) -> File {
        self.raw(&[11, node]).raw(part)
    }

    /// The same file with these seat records behind its nodes and other seat records.
    pub fn seated(&self, grants: &[(u8, u8, u16)]) -> File {
        let (records, events) = self.0.split_at(self.records_length());
        let records = File(records.to_vec());
        let seat = |file: File, (seat, node, mask): &(u8, u8, u16)| file.seat(*seat, *node, *mask);
        grants.iter().fold(records, seat).raw(events)
    }

    /// How many bytes the rack records without those of registers have.
    pub fn records_length(&self) -> usize {
        let contents = self.contents();
        let events = contents.events.iter().map(event_length).sum::<usize>();
        assert_eq!(contents.records, self.0.len() - events - contents.registers.len() * 66);
        contents.records
    }

    pub fn contents(&self) -> Contents {
        rackcheck::file::read(&self.0).expect("not refused")
    }

    /// The program's whole output.
    pub fn output(&self) -> String {
        output(&self.0)
    }

    /// The output's lines without their event numbers, which are tested here.
    pub fn lines(&self) -> Vec<String> {
        let output = self.output();
        assert!(output.is_empty() || output.ends_with('\n'));
        let numbered = output.lines().enumerate();
        numbered
            .map(|(index, line)| {
                let (number, rest) = line.split_once(' ').expect("a number and a word");
                assert_eq!(number, (index + 1).to_string(), "in {output}");
                rest.to_string()
            })
            .collect()
    }

    /// The last `n` lines.
    pub fn tail(&self, n: usize) -> Vec<String> {
        let lines = self.lines();
        lines[lines.len() - n..].to_vec()
    }

    /// The last line.
    pub fn last(&self) -> String {
        self.tail(1).remove(0)
    }

    /// The rack.
    pub fn rack(&self) -> Rack {
        self.contents().rack
    }

    /// The machine after all events.
    pub fn machine(&self) -> Machine {
        let contents = self.contents();
        let mut run = Run::start(&contents).expect("not refused");
        for event in &contents.events {
            run.step(event);
        }
        run.machine
    }

    /// Both images after all events.
    pub fn images(&self) -> (Vec<u8>, Vec<u8>) {
        let machine = self.machine();
        (machine.bridges().to_vec(), machine.devices().to_vec())
    }
}

/// How many bytes an event's record has.
pub fn event_length(event: &Event) -> usize {
    match event {
        Event::ConfigWrite { .. } => 9,
        Event::ConfigRead { .. } => 4,
        Event::Memory { .. } => 11,
        Event::Io { .. } => 7,
        Event::Check => 1,
        Event::Seat { .. } => 2,
    }
}

/// A node's registers at reset but for 0Ch, all of which every node can write.
pub fn off_reset(node: &Node) -> [u8; 64] {
    let mut part = masks(node).reset;
    part[0x0C] = 0x55;
    part
}

/// The bridges above a node, from the one that holds its bus upwards, by means of the tests.
pub fn bridges_above(rack: &Rack, node: u8) -> Vec<u8> {
    match rack.nodes[usize::from(node)].parent {
        255 => Vec::new(),
        parent => [vec![parent], bridges_above(rack, parent)].concat(),
    }
}

/// Of each node whether it is held, by means of the tests: a parent stands before its nodes.
pub fn held_nodes(rack: &Rack, bridges: &[u8]) -> Vec<bool> {
    let (mut held, mut resets) = (Vec::new(), Vec::new());
    let mut parts = bridges.chunks(64);
    for node in &rack.nodes {
        let parent = usize::from(node.parent);
        let here = node.parent != 255 && (held[parent] || resets[parent]);
        held.push(here);
        resets.push(node.is_bridge() && parts.next().unwrap()[0x3E] & 0x40 != 0);
    }
    held
}

/// Both images with every node below a set bit 6 at reset, from the root bus down.
pub fn agreed(rack: &Rack, images: (Vec<u8>, Vec<u8>)) -> (Vec<u8>, Vec<u8>) {
    let (mut bridges, mut devices) = images;
    for (number, node) in rack.numbered() {
        // Those before are settled, so that a bit 6 that is itself below one is gone.
        if held_nodes(rack, &bridges)[usize::from(number)] {
            let part = part_mut(rack, &mut bridges, &mut devices, number);
            part.copy_from_slice(&masks(node).reset);
        }
    }
    (bridges, devices)
}

/// Status and, for a bridge, secondary status of a node.
pub fn status(machine: &Machine, node: u8) -> (u16, u16) {
    let high = |register| (machine.read(node, register) >> 16) as u16;
    let below = machine.rack().bridge(node).map_or(0, |_| high(0x1C));
    (high(0x04), below)
}

pub fn output(bytes: &[u8]) -> String {
    let mut out = Vec::new();
    rackcheck::program::run(bytes, &mut out).expect("a vector takes all");
    String::from_utf8(out).expect("ASCII")
}

/// What a binary of this crate writes for that input, and whether it ends well.
pub fn binary(path: &str, input: &[u8]) -> (Vec<u8>, bool) {
    let mut command = Command::new(path);
    let mut child = command.stdin(Stdio::piped()).stdout(Stdio::piped()).spawn().unwrap();
    let mut stdin = child.stdin.take().unwrap();
    let done = std::thread::scope(|scope| {
        // A program may stop reading before the end, so that the pipe may break.
        scope.spawn(move || stdin.write_all(input));
        child.wait_with_output().unwrap()
    });
    (done.stdout, done.status.success())
}

/// The bytes of a row of pairs of hex digits.
pub fn hex(text: &str) -> Vec<u8> {
    let digits: Vec<char> = text.chars().filter(|c| !c.is_whitespace()).collect();
    let pairs = digits.chunks(2).map(|pair| pair.iter().collect::<String>());
    pairs.map(|pair| u8::from_str_radix(&pair, 16).unwrap()).collect()
}

/// Bridge 0 on the root bus, and below it device 1 with an I/O and a 64-bit region.
pub fn one_of_each() -> File {
    one_of_each_below(2)
}

/// The same with a bridge of that kind.
pub fn one_of_each_below(kind: u8) -> File {
    File::host(0x1000, 0x1FFF).bridge_of(kind, 255, 0).device(0, 1, [(1, 4), (3, 20), (0, 0)])
}

/// Windows of all three kinds, and both regions placed.
pub fn one_of_each_placed() -> File {
    placed(one_of_each())
}

/// These writes to the rack of [`one_of_each_below`].
pub fn placed(file: File) -> File {
    file.put(0, 0, 0x18, 0x0001_0100)
        .put(0, 0, 0x1C, 0x5030)
        .put(0, 0, 0x20, 0x4000_3000)
        .put(0, 0, 0x24, 0x7000_6000)
        .put(0, 0, 0x28, 1)
        .put(0, 0, 0x2C, 2)
        .put(0, 0, 0x30, 0x0002_0001)
        .put(1, 1, 0x10, 0x1234)
        .put(1, 1, 0x18, 0xFFFF_FFFF)
        .put(1, 1, 0x1C, 0xFFFF_FFFF)
}

/// A full rack at work, without a clash: every node has bits 0 to 2 of its command set,
/// every bridge has windows of all three kinds and ISA, every device three regions.
pub fn full_at_work() -> Machine {
    let mut rack = File::full([2, 2], [(1, 4), (2, 12), (3, 20)]).rack();
    (rack.host_first, rack.host_last) = (0, 0x7FFF_FFFF);
    let mut machine = Machine::at_reset(rack).unwrap();
    for bridge in 0..32u8 {
        let k = u32::from(bridge % 16);
        let twice = |low: u32| low << 16 | low;
        // Bus numbers, I/O, upper I/O, memory, both upper prefetchable.
        let [numbers, io, upper_io, memory, base, limit] = match bridge {
            0 => [0x0028_1400, 0xF000, 0x0001_0001, 0x9FF0_9000, 0x100, 0x1FF],
            1..=15 => [twice(1 + k) << 8, k << 12 | k << 4, 0, twice(k << 8) + 0x80F0_8000, k, k],
            _ => [
                twice(21 + k) << 8,
                k << 12 | k << 4,
                0x0001_0001,
                twice(k << 8) + 0x90F0_9000,
                0x100 + k,
                0x100 + k,
            ],
        };
        let writes = [(0x18, numbers), (0x1C, io), (0x30, upper_io), (0x20, memory)];
        let more = [(0x24, 0xFFF0_0000), (0x28, base), (0x2C, limit), (0x3C, 0x0004_0000), (4, 7)];
        for (register, data) in writes.into_iter().chain(more) {
            machine.write(bridge, register, 15, data);
        }
    }
    for n in 0..64u8 {
        let (bus, d) = (u32::from(1 + n / 16), u32::from(n % 16));
        let memory = 0x8000_0000 + (bus << 24) + (d << 12);
        let io = bus << 12 | d << 4;
        for (register, data) in [(0x10, io), (0x18, memory), (0x20, d << 20), (0x24, bus), (4, 7)] {
            machine.write(32 + n, register, 15, data);
        }
    }
    machine
}

/// Vigna's splitmix64 with a fixed seed.
pub struct Random(pub u64);

impl Random {
    pub fn next(&mut self) -> u64 {
        self.0 = self.0.wrapping_add(0x9E37_79B9_7F4A_7C15);
        let z = (self.0 ^ self.0 >> 30).wrapping_mul(0xBF58_476D_1CE4_E5B9);
        let z = (z ^ z >> 27).wrapping_mul(0x94D0_49BB_1331_11EB);
        z ^ z >> 31
    }

    /// Below `n`.
    pub fn below(&mut self, n: u64) -> u64 {
        self.next() % n
    }

    pub fn byte(&mut self) -> u8 {
        self.next() as u8
    }

    pub fn bytes(&mut self, count: usize) -> Vec<u8> {
        (0..count).map(|_| self.byte()).collect()
    }

    pub fn one_in(&mut self, n: u64) -> bool {
        self.below(n) == 0
    }

    pub fn pick<T: Copy>(&mut self, from: &[T]) -> T {
        from[self.below(from.len() as u64) as usize]
    }
}
