"""Random racks, their seats, registers, configuration and accesses, as records of a rack file. Everything follows from the given
generator's seed."""
import collections

HOST = 255
CHECK = b"\x08"
WRITE, SEAT, SEAT_EVENT, REGISTERS = 4, 9, 10, 11
BRIDGE, DEVICE, OLDER_BRIDGE = 2, 3, 13
BRIDGES = (BRIDGE, OLDER_BRIDGE)
NODES = (*BRIDGES, DEVICE)
RECORD_BYTES = {1: 17, BRIDGE: 7, DEVICE: 13, WRITE: 9, 5: 4, 6: 11, 7: 7, 8: 1, SEAT: 5, SEAT_EVENT: 2, REGISTERS: 66, OLDER_BRIDGE: 7}
EVENTS = (WRITE, 5, 6, 7, 8, SEAT_EVENT)
NODE_BYTES = 64  # of a node's registers
SEATS = range(1, 16)  # those that need a record; seat 0 may write all
DWORDS = 16  # of a node's registers, a bit of a mask each
COMMAND, BUSES, IO_WINDOW, MEMORY, PREFETCHABLE = 0x04, 0x18, 0x1C, 0x20, 0x24
PREFETCHABLE_BASE_UPPER, PREFETCHABLE_LIMIT_UPPER, IO_UPPER, CONTROL = 0x28, 0x2C, 0x30, 0x3C
OPTIONS = (IO_WINDOW, PREFETCHABLE, PREFETCHABLE_BASE_UPPER, PREFETCHABLE_LIMIT_UPPER, IO_UPPER, CONTROL)
RESETS_AT, RESETS = 0x3E, 0x40  # the byte that has bit 6 of bridge control, and that bit
SPECIAL_CYCLE = 8 * 31 + 7  # device and function of a special cycle, with register 0
EXPONENTS = {1: (2, 8), 2: (4, 31), 3: (4, 31)}
WITH_RESETS = 0.4  # the share of runs in which buses are reset

# What a seat may write of a node; its record stands behind the rack's first `behind` nodes.
Grant = collections.namedtuple("Grant", "seat node mask behind")


def number(value, count):
    return (value % (1 << 8 * count)).to_bytes(count, "little")


def write(bus, device, register, enables, data):
    return bytes([WRITE, bus, device, register, enables]) + number(data, 4)


def seat_record(seat, node, mask):
    return bytes([SEAT, seat, node]) + number(mask, 2)


def seat_event(seat):
    return bytes([SEAT_EVENT, seat])


def register_record(node, part):
    return bytes([REGISTERS, node]) + bytes(part)


def records_of(file):
    """The records of a file with their offsets, up to the first of no kind; the last one may be cut short."""
    at = 0
    while at < len(file) and file[at] in RECORD_BYTES:
        length = RECORD_BYTES[file[at]]
        yield at, file[at : at + length]
        at += length


def special_cycle(rng, bus):
    """Any enables and data: they play no part."""
    return write(bus, SPECIAL_CYCLE, 0, rng.getrandbits(4), rng.getrandbits(32))


def is_special_cycle(event):
    return event[:1] == bytes([WRITE]) and event[2:4] == bytes([SPECIAL_CYCLE, 0])


def read(bus, device, register):
    return bytes([5, bus, device, register])


def memory(initiator, is_write, address):
    return bytes([6, initiator, is_write]) + number(address, 8)


def io(initiator, is_write, address):
    return bytes([7, initiator, is_write]) + number(address, 4)


class Node:
    def __init__(self, kind, parent, device, regions=()):
        self.kind, self.parent, self.device = kind, parent, device
        self.regions = list(regions) + [(0, 0)] * (3 - len(regions))
        self.ids = 0

    @property
    def is_bridge(self):
        return self.kind in BRIDGES

    @property
    def status_bytes(self):
        """Where status bits are."""
        return (0x07, 0x1F) if self.is_bridge else (0x07,)

    @staticmethod
    def of(record):
        """The node of a record, or of a decoded rack's 13 bytes."""
        node = Node(*record[:3], list(zip(record[7:13:2], record[8:13:2])))
        node.ids = int.from_bytes(record[3:7], "little")
        return node

    def record(self):
        head = bytes([self.kind, self.parent, self.device]) + number(self.ids, 4)
        return head if self.is_bridge else head + bytes(x for region in self.regions for x in region)


class Rack:
    """A tree of nodes below a host, with the addresses and bus numbers that firmware would give it."""

    def __init__(self, first, last):
        self.first, self.last, self.nodes, self.grants = first, last, [], []
        self.is_high = True  # 64-bit regions lie above 4 GiB, where no older bridge's window reaches

    def records(self):
        out = [b"\x01" + number(self.first, 8) + number(self.last, 8)]
        for i, node in enumerate(self.nodes):
            out += self.seat_records(i) + [node.record()]
        return out + self.seat_records(len(self.nodes))

    def seat_records(self, behind):
        return [seat_record(g.seat, g.node, g.mask) for g in self.grants if g.behind == behind]

    def saved(self):
        """The same as the writer gives it: one form for a host without memory, seat records behind all nodes, by seat and then node."""
        first, last = (self.first, self.last) if self.first <= self.last else (1, 0)
        seats = [seat_record(g.seat, g.node, g.mask) for g in sorted(self.grants)]
        return [b"\x01" + number(first, 8) + number(last, 8)] + [node.record() for node in self.nodes] + seats

    def seats(self):
        return sorted({g.seat for g in self.grants})

    def on_bus(self, holder):
        return [i for i, n in enumerate(self.nodes) if n.parent == holder]

    def free_number(self, rng, holder):
        taken = {self.nodes[i].device for i in self.on_bus(holder)}
        free = [d for d in range(16) if d not in taken]
        return rng.choice(free) if free else None

    def add(self, rng, kind, holder, regions=()):
        device = self.free_number(rng, holder)
        if device is None:
            return False
        node = Node(kind, holder, device, regions)
        node.ids = rng.getrandbits(32)
        self.nodes.append(node)
        return True

    def devices(self):
        return [i for i, n in enumerate(self.nodes) if not n.is_bridge]

    def bridges(self):
        return [i for i, n in enumerate(self.nodes) if n.is_bridge]

    def above(self, i):
        """The bridges above a node, the nearest first."""
        while (i := self.nodes[i].parent) != HOST:
            yield i

    def depth(self, i):
        """Of the bus that a node sits on."""
        return len(list(self.above(i)))

    def below(self, bridge):
        """The nodes below a bridge, at every depth."""
        return [i for i in range(len(self.nodes)) if bridge in self.above(i)]


def spread(values):
    """A node's 64 bytes from numbers at their offsets, written as {offset: (value, bytes)}."""
    out = bytearray(NODE_BYTES)
    for at, (value, count) in values.items():
        out[at : at + count] = number(value, count)
    return out


def header(node):
    """A node's changeable bits and its reset values, by document 01's 'Registers' and document 02's E11 and E5."""
    both = {0x04: (0x0147, 2), 0x06: (0xF900, 2), 0x0C: (0xFFFF, 2), 0x3C: (0xFF, 1)}
    ids = {0x00: (node.ids, 4)}
    if node.is_bridge:
        free = {0x18: (0xFFFFFFFF, 4), 0x1C: (0xF0F0, 2), 0x1E: (0xF900, 2), 0x20: (0xFFF0FFF0, 4), 0x24: (0xFFF0FFF0, 4)}
        fixed = {0x09: (0x060400, 3), 0x0E: (1, 1)}
        if node.kind == BRIDGE:
            free.update({0x28: (~0, 4), 0x2C: (~0, 4), 0x30: (~0, 4), 0x3E: (0x7F, 2)})
            fixed.update({0x1C: (0x0101, 2), 0x24: (0x00010001, 4)})
        else:
            free[0x3E] = (0x6F, 2)
        return spread({**both, **free}), spread({**ids, **fixed})
    free, fixed = {}, {0x0B: (0xFF, 1)}
    for r, (kind, exponent) in enumerate(node.regions):
        if kind in EXPONENTS:
            free[0x10 + 8 * r] = (-(1 << exponent), 4)
            fixed[0x10 + 8 * r] = ({1: 1, 2: 0, 3: 4}[kind], 4)
        if kind == 3:
            free[0x14 + 8 * r] = (~0, 4)
    return spread({**both, **free}), spread({**ids, **fixed})


def bits(part):
    """The bits that are set in a node's bytes, by number."""
    return [8 * at + k for at, byte in enumerate(part) for k in range(8) if byte >> k & 1]


class Registers:
    """The registers of a rack's nodes, from reset."""

    def __init__(self, rack):
        self.rack = rack
        self.free, self.reset = zip(*(header(n) for n in rack.nodes)) if rack.nodes else ((), ())
        self.now = [bytearray(part) for part in self.reset]

    def put(self, i, register, enables, data):
        for k in range(4):
            if enables >> k & 1:
                at, free = register + k, self.free[i][register + k]
                self.now[i][at] = self.now[i][at] & ~free & 255 | data >> 8 * k & free

    def shuffle(self, rng, i):
        """Any bits; bit 6 of bridge control, which holds all below, not as often as others."""
        for at in range(NODE_BYTES):
            if rng.random() < 0.5:
                self.put(i, at & ~3, 1 << (at & 3), rng.getrandbits(32))
        if rng.random() < 0.7:
            self.set_bit_6(i, False)

    def set_bit_6(self, i, is_set):
        self.now[i][RESETS_AT] = self.now[i][RESETS_AT] & ~RESETS | is_set * RESETS & self.free[i][RESETS_AT]

    def bit_6(self, i):
        return self.rack.nodes[i].is_bridge and self.now[i][RESETS_AT] & RESETS != 0

    def setters(self):
        """The bridges that reset what is below them."""
        return [i for i in self.rack.bridges() if self.bit_6(i)]

    def is_held(self, i):
        return any(self.bit_6(bridge) for bridge in self.rack.above(i))

    def held(self):
        return [i for i in range(len(self.now)) if self.is_held(i)]

    def disagreeing(self):
        """The held nodes that are not at reset."""
        return [i for i in self.held() if self.now[i] != self.reset[i]]

    def agree(self):
        """All below a set bit 6 at reset, from the top down, so that a set bit below another goes too."""
        for i in range(len(self.now)):
            if self.is_held(i):
                self.now[i] = bytearray(self.reset[i])

    def disagree(self, rng):
        """A bit that a held node may change, any or bit 6 or a status bit; none where no node is held."""
        held = self.held()
        if held:
            deeper = [i for i in held if not self.bit_6(self.rack.nodes[i].parent)]
            bridges = [i for i in held if self.rack.nodes[i].is_bridge]
            i = rng.choice(rng.choice((held, deeper, bridges)) or held)
            free, node = bits(self.free[i]), self.rack.nodes[i]
            status = [bit for bit in free if bit // 8 in node.status_bytes]
            bit = rng.choice(rng.choice((free, free, status, [8 * RESETS_AT + 6] if node.is_bridge else free)))
            self.now[i][bit // 8] ^= 1 << bit % 8
        return held

    def store(self, i, register, enables, data):
        """A configuration write that is stored, status bits aside: these stay."""
        kept = sum(1 << at % 4 for at in self.rack.nodes[i].status_bytes if at & ~3 == register)
        if register < NODE_BYTES:
            self.put(i, register, enables & ~kept, data)
        if self.bit_6(i):
            for k in self.rack.below(i):
                self.now[k] = bytearray(self.reset[k])

    def changed_bits(self, i):
        """The bits of a node that differ from reset."""
        return bits(a ^ b for a, b in zip(self.now[i], self.reset[i]))

    def changed(self):
        """The nodes that differ from reset."""
        return [i for i, part in enumerate(self.now) if part != self.reset[i]]

    def records(self):
        return [register_record(i, self.now[i]) for i in self.changed()]

    def images(self):
        parts = [(n.is_bridge, bytes(part)) for n, part in zip(self.rack.nodes, self.now)]
        return [bytearray(b"".join(part for is_b, part in parts if is_b == kind)) for kind in (True, False)]


def random_regions(rng, large):
    regions = []
    for _ in range(3):
        kind = rng.choice((0, 1, 2, 2, 3, 3))
        low, high = EXPONENTS.get(kind, (0, 0))
        regions.append((kind, rng.randint(low, high if large else min(high, 16))))
    return regions


def random_host(rng):
    top = (1 << 64) - 1
    first = rng.choice((0, 0, 1, 0x10000000, 0xC0000000, top - 0xFFFF, rng.getrandbits(64)))
    last = rng.choice((0x7FFFFFFF, 0x7FFFFFFF, 0xFFFFFFF, first, first - 1, top, rng.getrandbits(64)))
    return Rack(first, max(last, 0))


def random_rack(rng, bridges, devices, shape, older=None):
    """shape: 'chain' puts each bridge below the last one, 'wide' most nodes on few buses, 'any' anything. `older` is the share of older
    bridges, any where it is not given."""
    rack = random_host(rng)
    large = rng.random() < 0.2
    if older is None:
        older = rng.choice((0, 0, 0.3, 0.5, 1))
    rack.is_high = not older or rng.random() < 0.3
    kinds = [OLDER_BRIDGE if older and rng.random() < older else BRIDGE for _ in range(bridges)] + [DEVICE] * devices
    if shape == "any":
        rng.shuffle(kinds)
    for kind in kinds:
        above = rack.bridges()
        if shape == "chain":
            holder = above[-1] if above and (kind != DEVICE or rng.random() < 0.6) else rng.choice([HOST] + above) if above else HOST
        elif shape == "wide":
            holder = rng.choice([HOST, HOST, HOST] + above[:2])
        else:
            holder = rng.choice([HOST] + above)
        for holder in [holder] + above + [HOST]:
            if rack.add(rng, kind, holder, random_regions(rng, large) if kind == DEVICE else ()):
                break
    return rack


def up(value, granule):
    return -(-value // granule) * granule


class Firmware:
    """Bus numbers and addresses from the top down, each bridge's windows around what lies below it."""

    def __init__(self, rack):
        self.rack, self.number, self.below, self.windows, self.bases = rack, {HOST: 0}, {}, {}, {}
        self.next_bus = 1
        self.at = {"memory": 0x80000000, "prefetchable": 0x100000000 if rack.is_high else 0xC0000000, "io": 0x1000}
        self.place(HOST)

    def place(self, holder):
        for i in self.rack.on_bus(holder):
            node = self.rack.nodes[i]
            if node.is_bridge:
                self.place_bridge(i)
            else:
                self.bases[i] = [self.region(kind, exponent) for kind, exponent in node.regions]

    def place_bridge(self, i):
        self.number[i] = self.next_bus
        self.next_bus += 1
        first = {}
        for space, granule in (("memory", 1 << 20), ("prefetchable", 1 << 20), ("io", 1 << 12)):
            first[space] = self.at[space] = up(self.at[space], granule)
        self.place(i)
        for space, granule in (("memory", 1 << 20), ("prefetchable", 1 << 20), ("io", 1 << 12)):
            self.at[space] = up(self.at[space], granule)
        self.windows[i] = {space: (first[space], self.at[space] - 1) for space in first}
        self.below[i] = self.next_bus - 1

    def region(self, kind, exponent):
        if kind == 0:
            return 0
        space = {1: "io", 2: "memory", 3: "prefetchable"}[kind]
        self.at[space] = up(self.at[space], 1 << exponent)
        base = self.at[space]
        self.at[space] += 1 << exponent
        return base

    def target(self, i):
        node = self.rack.nodes[i]
        return self.number[node.parent] % 256, 8 * node.device

    def settings(self, rng, odd):
        """What firmware writes, as (node, register, enables, data); `odd` is how often a value is not what firmware would take."""
        out = []
        for i, node in enumerate(self.rack.nodes):
            out += [(i, *setting) for setting in (self.of_bridge if node.is_bridge else self.of_device)(rng, i, odd)]
        return out

    def write(self, i, register, enables, data):
        return write(*self.target(i), register, enables, data)

    def writes(self, rng, odd):
        return [self.write(*setting) for setting in self.settings(rng, odd)]

    def of_device(self, rng, i, odd):
        out = []
        for r, (kind, exponent) in enumerate(self.rack.nodes[i].regions):
            base = self.bases[i][r]
            if rng.random() < odd:
                base = rng.choice((0, base - (1 << exponent), base + (1 << exponent), (1 << 32) - (1 << exponent), rng.getrandbits(32)))
            if kind:
                out.append((0x10 + 8 * r, 15, base % (1 << 32)))
            if kind == 3:
                upper = rng.choice((0, 0xFFFFFFFF, 2)) if rng.random() < odd else base >> 32
                out.append((0x14 + 8 * r, 15, upper % (1 << 32)))
        return out + [(COMMAND, 3, rng.getrandbits(3) if rng.random() < odd else 7)]

    def of_bridge(self, rng, i, odd):
        secondary, subordinate = self.number[i], self.below[i]
        if rng.random() < odd / 4:
            secondary, subordinate = rng.choice(((0, subordinate), (secondary, secondary - 1), (secondary, 255), (0, 255), (1, 1)))
        ends = {space: self.ends(rng, i, space, odd) for space in ("memory", "prefetchable", "io")}
        first, last = ends["io"]
        out = [(BUSES, 7, self.target(i)[0] | secondary % 256 << 8 | subordinate % 256 << 16)]
        out.append((IO_WINDOW, 3, (first >> 12 & 15) << 4 | (last >> 12 & 15) << 12))
        out.append((IO_UPPER, 15, (first >> 16 & 0xFFFF) | (last >> 16 & 0xFFFF) << 16))
        for register, space in ((MEMORY, "memory"), (PREFETCHABLE, "prefetchable")):
            first, last = ends[space]
            out.append((register, 15, (first >> 20 & 0xFFF) << 4 | (last >> 20 & 0xFFF) << 20))
        first, last = ends["prefetchable"]
        out += [(PREFETCHABLE_BASE_UPPER, 15, first >> 32), (PREFETCHABLE_LIMIT_UPPER, 15, last >> 32)]
        out.append((CONTROL, 12, self.control(rng, odd) << 16))
        return out + [(COMMAND, 3, rng.getrandbits(3) if rng.random() < odd else 7)]

    def ends(self, rng, i, space, odd):
        first, last = self.windows[i][space]
        granule = 1 << 12 if space == "io" else 1 << 20
        if rng.random() < odd:  # nearly touching, slightly overlapping, too small, upside down, everything
            first += rng.choice((0, -granule, granule))
            last += rng.choice((0, -granule, granule, 2 * granule))
            if rng.random() < 0.2:
                first, last = last, first
            if rng.random() < 0.1:
                first, last = 0, (1 << (64 if space == "prefetchable" else 32)) - 1
        return first % (1 << 64), last % (1 << 64)

    def control(self, rng, odd):
        isa, vga, vga_16, master_abort = (rng.random() < odd for _ in range(4))
        return isa << 2 | (vga and rng.random() < 0.5) << 3 | vga_16 << 4 | (master_abort or rng.random() < 0.3) << 5


def with_nodes_below(rng, rack):
    """A bridge, mostly one that has nodes below it."""
    holders = [i for i in rack.bridges() if rack.on_bus(i)]
    return rng.choice(holders if holders and rng.random() < 0.9 else rack.bridges())


def hold(rng, registers):
    """Bit 6 of a bridge, seldom of more; what is below is then at reset."""
    for _ in range(rng.choice((1, 1, 1, 2)) if registers.rack.bridges() else 0):
        registers.set_bit_6(with_nodes_below(rng, registers.rack), True)
    registers.agree()


def random_registers(rng, rack, firmware, odd, share):
    """What firmware would have written, any bits, or reset; `share` is how often a branch is held."""
    registers, way = Registers(rack), rng.random()
    if way < 0.6:
        for setting in firmware.settings(rng, odd):
            registers.put(*setting)
    elif way < 0.9:
        for i in range(len(rack.nodes)):
            registers.shuffle(rng, i)
    if rng.random() < share:
        hold(rng, registers)
    registers.agree()
    return registers


def interesting(rng, rack, firmware):
    """An address near the end of something, with its space."""
    points = [rack.first, rack.last, 0, 0xA0000, 0xBFFFF, 0xFFFFFFFF, (1 << 64) - 1]
    ports = [0, 0x100, 0x3B0, 0x3BB, 0x3C0, 0x3DF, 0x7B0, 0x13B0, 0xFC00, 0xFFC0, 0xFFFF, 0x10000, 0x103B0, 0x12100, 0xFFFFFFFF]
    for i, bases in firmware.bases.items():
        for (kind, exponent), base in zip(rack.nodes[i].regions, bases):
            if kind:
                (ports if kind == 1 else points).extend((base, base, base + (1 << exponent) - 1))
    for windows in firmware.windows.values():
        for space, ends in windows.items():
            (ports if space == "io" else points).extend(ends)
    is_io = rng.random() < 0.4
    address = rng.choice(ports if is_io else points) + rng.choice((0, 0, 0, 0, 1, -1, 4, 0x100, 0x400))
    if rng.random() < 0.05:
        address = rng.getrandbits(32 if is_io else rng.choice((20, 32, 64)))
    return is_io, address


def access(rng, rack, firmware):
    initiator = rng.choice([HOST] + rack.devices())
    is_io, address = interesting(rng, rack, firmware)
    return (io if is_io else memory)(initiator, rng.getrandbits(1), address)


def nearly_special(rng, bus):
    """A configuration access that lacks one thing to be a special cycle."""
    return rng.choice((
        read(bus, SPECIAL_CYCLE, 0),
        write(bus, 8 * 31, 0, 15, 0),
        write(bus, SPECIAL_CYCLE, 4, 15, 0),
        write(bus, SPECIAL_CYCLE - 8, 0, 15, 0),
    ))


def configuration(rng, rack, firmware):
    """A register of a node that is there, or now and then of none; any register, any data; or a special cycle."""
    if rng.random() < 0.12:
        bus = rng.choice(list(firmware.number.values())) % 256 if rng.random() < 0.8 else rng.randint(0, 255)
        return special_cycle(rng, bus) if rng.random() < 0.6 else nearly_special(rng, bus)
    bus, device = rng.randint(0, 255), rng.getrandbits(8)
    if rack.nodes and rng.random() < 0.9:
        bus, device = firmware.target(rng.randrange(len(rack.nodes)))
        if rng.random() < 0.05:
            device |= rng.getrandbits(3)
    register = 4 * (rng.randint(0, 15) if rng.random() < 0.9 else rng.randint(0, 63))
    if rng.random() < 0.5:
        return read(bus, device, register)
    return write(bus, device, register, rng.getrandbits(4), rng.choice((0, 0xFFFFFFFF, rng.getrandbits(32))))


def control(rng, firmware, i, is_set):
    """Bridge control with bit 6 set or clear, and with bit 5, by which an unclaimed access ends; now and then with other bits, seldom
    without bit 6's byte."""
    value = is_set * RESETS | rng.choice((0, 0x20)) | (rng.getrandbits(6) if rng.random() < 0.1 else 0)
    enables = rng.choice((4, 12, 15)) if rng.random() < 0.8 else rng.choice((0, 8, 11))
    return firmware.write(i, CONTROL, enables, value << 16 | rng.getrandbits(8))


def access_to(rng, rack, firmware, k):
    """An access to a region of a device, if it has one, from the host or any device."""
    regions = [(kind, base) for (kind, _), base in zip(rack.nodes[k].regions, firmware.bases[k]) if kind]
    kind, base = rng.choice(regions) if regions else (2, 0)
    return (io if kind == 1 else memory)(rng.choice([HOST] + rack.devices()), rng.getrandbits(1), base)


def look(rng, rack, firmware, i):
    """What goes to the branch of a bridge, comes from there or passes by."""
    below = rack.below(i)
    inside, bridges = ([k for k in below if rack.nodes[k].is_bridge == kind] for kind in (False, True))
    buses = [firmware.number[k] % 256 for k in [i] + bridges]
    makers = [
        lambda: CHECK,
        lambda: read(*firmware.target(i), rng.choice((COMMAND, IO_WINDOW, CONTROL))),
        lambda: special_cycle(rng, rng.choice(buses)),
        lambda: read(rng.choice(buses), 8 * rng.randrange(32), 0),
        lambda: access(rng, rack, firmware),
    ]
    if below:
        makers += 2 * [lambda: read(*firmware.target(rng.choice(below)), rng.choice((COMMAND, 0x10, BUSES, 4 * rng.randrange(DWORDS))))]
        makers += [lambda: firmware.write(rng.choice(below), COMMAND, 15, 7)]
    if bridges:
        makers += 2 * [lambda: read(*firmware.target(rng.choice(bridges)), CONTROL)]
        makers += [lambda: control(rng, firmware, rng.choice(bridges), rng.getrandbits(1))]
    if inside:
        makers += 3 * [lambda: access_to(rng, rack, firmware, rng.choice(inside))]
        makers += 2 * [lambda: memory(rng.choice(inside), rng.getrandbits(1), rack.first)]
    return rng.choice(makers)()


def steps_of_reset(rng, rack, i):
    """Bit 6 of a bridge set and cleared, as (bridge, whether it is set): alone, again while it is set, with a bridge above or below it
    that resets before or after, or left as it is."""
    near = [*rack.above(i), *(k for k in rack.below(i) if rack.nodes[k].is_bridge)]
    other = rng.choice(near) if near else i
    return rng.choice((
        [(i, 1), (i, 0)],
        [(i, 1), (i, 1), (i, 0)],
        [(other, 1), (i, 1), (i, 0), (other, 0)],
        [(i, 1), (other, 1), (other, 0), (i, 0)],
        [(i, 1)],
        [(i, 0), (i, 1)],
    ))


def bus_reset(rng, rack, firmware):
    """A branch that is reset, held and let go, with looks at it in between; then mostly set up anew and looked at again."""
    i = with_nodes_below(rng, rack)
    out = [look(rng, rack, firmware, i) for _ in range(rng.randint(0, 2))]
    steps = steps_of_reset(rng, rack, i)
    for bridge, is_set in steps:
        out.append(control(rng, firmware, bridge, is_set))
        out += [look(rng, rack, firmware, rng.choice((i, bridge))) for _ in range(rng.randint(1, 7))]
    below = {k for bridge, _ in steps for k in rack.below(bridge)}
    if len(below) <= 16 and rng.random() < 0.7:
        left_out = rng.choice((CONTROL, None))  # a bit 6 below must have gone
        out += [firmware.write(*setting) for setting in firmware.settings(rng, 0) if setting[0] in below and setting[1] != left_out]
        out += [look(rng, rack, firmware, i) for _ in range(rng.randint(2, 6))]
    return out


def merged(rng, some, others):
    """Both lists as one, each in its order."""
    out, rest = [], [list(reversed(some)), list(reversed(others))]
    while any(rest):
        out.append(rng.choices(rest, [len(part) for part in rest])[0].pop())
    return out


def events(rng, rack, firmware, count, checks):
    out = []
    for _ in range(count):
        out.append(access(rng, rack, firmware) if rng.random() < 0.75 else configuration(rng, rack, firmware))
    for _ in range(checks):
        out.insert(rng.randint(0, len(out)), CHECK)
    if rack.bridges() and rng.random() < WITH_RESETS:
        out = merged(rng, out, bus_reset(rng, rack, firmware))
    return out


def written(rack, firmware, later):
    """The dwords of each node that the configuration writes among the events name, as masks."""
    node_at = {firmware.target(i): i for i in range(len(rack.nodes))}
    masks = [0] * len(rack.nodes)
    for event in later:
        node = node_at.get((event[1], event[2])) if event[0] == WRITE else None
        if node is not None and event[3] < 4 * DWORDS:
            masks[node] |= 1 << event[3] // 4
    return masks


def grant(rng, rack, masks):
    """Grants of some seats for some nodes: none of a node, all of it, anything, or just what `masks` has of it, with a bit more or less;
    their records in any order, right behind their nodes, at the end or between."""
    count = len(rack.nodes)
    for seat in rng.sample(SEATS, rng.choice((1, 2, 2, 3, 5, 15))) if count else ():
        for node in rng.sample(range(count), min(count, rng.choice((1, 2, 4, count)))):
            near = masks[node] ^ 1 << rng.randrange(DWORDS)
            mask = rng.choice((0, 0xFFFF, rng.getrandbits(DWORDS), masks[node], masks[node], near))
            rack.grants.append(Grant(seat, node, mask, rng.choice((node + 1, count, rng.randint(node + 1, count)))))
    rng.shuffle(rack.grants)


def try_a_write(rng, rack, firmware):
    """A configuration write to a node that is there, of registers below 40h but for some: what a seat may or may not do."""
    dword = rng.randrange(DWORDS) if rng.random() < 0.9 else rng.randint(DWORDS, 63)
    return write(*firmware.target(rng.randrange(len(rack.nodes))), 4 * dword, rng.choice((15, rng.getrandbits(4))), rng.getrandbits(32))


def reset_in_turn(rng, rack, firmware, later):
    """Some of the writes that set bit 6, and of those to bridge control behind them, by a seat; then it is seat 0's turn again."""
    control = [at for at, event in enumerate(later) if event[0] == WRITE and event[3] == CONTROL and event[4] & 4]
    first = next((at for at in control if later[at][7] & RESETS), len(later))
    for at in reversed(control):  # from the back, so that the places in front stay
        seats = [g.seat for g in rack.grants if firmware.target(g.node) == (later[at][1], later[at][2])]
        if at >= first and rng.random() < 0.4:
            later[at : at + 1] = [seat_event(rng.choice(seats or rack.seats())), later[at], seat_event(0)]


def take_turns(rng, rack, firmware, later):
    """Seat events among the events, each before a write or two: the rack's seats in turn and seat 0 again. Firmware's writes, which come
    first, are mostly left to seat 0, so that the seats reach what lies behind bridges."""
    reset_in_turn(rng, rack, firmware, later)
    least = rng.choice((0, len(later) // 2, len(later) * 3 // 4))
    places = sorted((rng.randint(least, len(later)) for _ in range(rng.randint(2, 8))), reverse=True)
    for at in places:  # from the back, so that the places in front stay
        tried = [try_a_write(rng, rack, firmware) for _ in range(rng.randint(0, 2))]
        later[at:at] = [seat_event(rng.choice([0] + 2 * rack.seats()))] + tried
