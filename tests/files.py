"""Random rack files: whole ones of several shapes, run from reset or from register records, and broken ones of every refusal, with several
faults at once."""
import subprocess

from racks import BRIDGE, BRIDGES, BUSES, CHECK, COMMAND, CONTROL, DEVICE, DWORDS, EXPONENTS, HOST, IO_WINDOW, MEMORY, NODES, NODE_BYTES
from racks import OLDER_BRIDGE, OPTIONS, REGISTERS, RESETS, SEAT, SEATS, WRITE, Firmware, Node, Registers, bits, configuration, events
from racks import grant, header, hold, memory, random_rack, read, register_record, seat_event, seat_record, special_cycle, take_turns
from racks import write, written

MOST = 65536
WITH_SEATS = 0.4  # the share of racks that have seats
WITH_REGISTERS = 0.35  # and of those whose run starts from register records
WITH_HELD = 0.3  # and, of these, of those that start with a held branch


def begun(rng, rack, firmware, odd, share=WITH_REGISTERS):
    """The registers that a run starts from, and the events that do the rest of what firmware does: all of it from reset, or that of the
    nodes whose registers are not kept. Some nodes may have any bits, and a branch may be held."""
    registers, settings = Registers(rack), firmware.settings(rng, odd)
    if not rack.nodes or rng.random() >= share:
        return registers, [firmware.write(*setting) for setting in settings]
    count = len(rack.nodes)
    kept = range(count) if rng.random() < 0.6 else rng.sample(range(count), rng.randint(0, count))
    for setting in settings:
        if setting[0] in kept:
            registers.put(*setting)
    for i in rng.sample(range(count), rng.choice((0, 0, 0, 1, min(count, 3), count))):
        registers.shuffle(rng, i)
    if rng.random() < WITH_HELD:
        hold(rng, registers)
    registers.agree()
    return registers, [firmware.write(*setting) for setting in settings if setting[0] not in kept]


def whole(rng, rack, firmware, kept, later):
    """The records of a rack and its events, with or without seats; with register records the rack is often as the writer gives it."""
    if rack.nodes and rng.random() < WITH_SEATS:
        grant(rng, rack, written(rack, firmware, later))
        take_turns(rng, rack, firmware, later)
    return (rack.saved() if kept and rng.random() < 0.6 else rack.records()) + kept, later


def configured(rng, bridges, devices, shape, count, checks, odd, share=WITH_REGISTERS):
    rack = random_rack(rng, bridges, devices, shape)
    firmware = Firmware(rack)
    registers, writes = begun(rng, rack, firmware, odd, share)
    return whole(rng, rack, firmware, registers.records(), writes + events(rng, rack, firmware, count, checks))


def each_resets(rng, rack, firmware):
    """Every bridge resets what is below it, the last one first, so that there are resets at each depth."""
    both = lambda i: [firmware.write(i, CONTROL, 4, RESETS << 16), read(*firmware.target(i), rng.choice((CONTROL, IO_WINDOW)))]
    return [event for i in reversed(rack.bridges()) for event in both(i)]


def one_resets(rng, rack, firmware):
    """A bridge far up resets all below it and lets go. Then only bus numbers are written there, and registers read of each node."""
    bridges = rack.bridges()
    i = rng.choice(bridges[: len(bridges) // 2])
    below = rack.below(i)
    numbered = [(k, BUSES) for k in below if k in bridges]
    out = [firmware.write(i, CONTROL, 4, bit << 16) for bit in (RESETS, 0)]
    out += [firmware.write(*setting) for setting in firmware.settings(rng, 0) if setting[:2] in numbered]
    return out + [read(*firmware.target(k), rng.choice((COMMAND, 0x10, MEMORY, 0x1C))) for k in below]


def deep(rng):
    """Up to 32 bridges in a row; a read and a special cycle on every bus, so that each count of crossings occurs. Then mostly bus resets."""
    depth = 32 if rng.random() < 0.5 else rng.randint(2, 31)
    rack = random_rack(rng, depth, rng.randint(1, 12), "chain")
    firmware = Firmware(rack)
    registers, out = begun(rng, rack, firmware, rng.choice((0, 0, 0.02)))
    for bus in range(depth + 2):
        out += [read(bus, rng.choice((0, 8, 16, 0x78)), 0), special_cycle(rng, bus)]
    out += rng.choice((each_resets, each_resets, one_resets, lambda *_: []))(rng, rack, firmware)
    return whole(rng, rack, firmware, registers.records(), out + events(rng, rack, firmware, 40, rng.randint(0, 1)))


def full(rng):
    return configured(rng, 32, 64, "any", 60, rng.random() < 0.3, rng.choice((0, 0.02, 0.1)))


def wide(rng):
    return configured(rng, rng.randint(0, 3), rng.randint(8, 40), "wide", 60, rng.randint(0, 1), rng.choice((0, 0.05, 0.3)))


def small(rng):
    return configured(rng, rng.randint(0, 5), rng.randint(0, 8), "any", 40, rng.randint(1, 4), rng.choice((0, 0.1, 0.4, 0.8)))


def wild(rng):
    """Registers without a plan: writes of anything to anything."""
    rack = random_rack(rng, rng.randint(1, 6), rng.randint(1, 8), "any")
    firmware = Firmware(rack)
    registers, out = begun(rng, rack, firmware, 0.5)
    out += [configuration(rng, rack, firmware) for _ in range(60)]
    rng.shuffle(out)
    return whole(rng, rack, firmware, registers.records(), out + events(rng, rack, firmware, 20, 2))


def options(rng):
    """Every register that an option of a bridge changes, written with all ones and read back in each bridge, then put right. A bridge comes
    behind those below it, which it resets where all ones are written to bridge control."""
    rack = random_rack(rng, rng.randint(1, 6), rng.randint(0, 4), "any")
    firmware = Firmware(rack)
    registers, out = begun(rng, rack, firmware, 0)
    for i in reversed(rack.bridges()):
        for register in rng.sample(OPTIONS, rng.randint(1, len(OPTIONS))):
            out += [write(*firmware.target(i), register, 15, 0xFFFFFFFF), read(*firmware.target(i), register)]
    out += events(rng, rack, firmware, 20, 1) + firmware.writes(rng, 0) + events(rng, rack, firmware, 20, 1)
    return whole(rng, rack, firmware, registers.records(), out)


def bare(rng):
    return configured(rng, rng.randint(0, 1), rng.randint(0, 2), "any", rng.randint(0, 3), rng.randint(0, 1), 0)


def kept(rng):
    """A few nodes with register records, and a few events."""
    return configured(rng, rng.randint(1, 4), rng.randint(0, 4), "any", rng.randint(0, 6), rng.randint(0, 1), 0.1, share=1)


def looked_at(rng):
    """A rack that was saved in use and is first looked at: a check, reads of its registers and accesses before anything is written."""
    rack = random_rack(rng, rng.randint(0, 5), rng.randint(1, 8), "any")
    firmware = Firmware(rack)
    registers, writes = begun(rng, rack, firmware, rng.choice((0, 0.1, 0.4, 0.8)), share=1)
    look = [read(*firmware.target(i), 4 * rng.randrange(DWORDS)) for i in range(len(rack.nodes))]
    look += [event for event in events(rng, rack, firmware, 30, 1) if event[0] != WRITE]
    rng.shuffle(look)
    return whole(rng, rack, firmware, registers.records(), look + writes + events(rng, rack, firmware, 20, 1))


def too_many(rng):
    kind = rng.choice((BRIDGE, OLDER_BRIDGE, DEVICE))
    rack = random_rack(rng, 32 if kind in BRIDGES else rng.randint(5, 30), 64 if kind == DEVICE else rng.randint(0, 40), "any")
    if rng.random() < WITH_SEATS:
        grant(rng, rack, [0] * len(rack.nodes))
    holder = rng.choice([HOST] + rack.bridges())
    rack.nodes.append(Node(kind, holder, rng.choice((rack.free_number(rng, holder) or 0, 16))))
    return rack.records(), [CHECK]


def fault(rng, rack, later):
    """One faulty record (or none) for the rack's records or the events."""
    n = lambda: rng.randint(0, 255)
    return rng.choice((
        lambda: (rack, bytes([rng.choice((0, 12, 14, 255))])),
        lambda: (rack, b"\x01" + bytes(16)),
        lambda: (rack, rng.choice(rack)),  # the same again
        lambda: (rack, Node(rng.choice(BRIDGES), rng.choice((HOST, n(), len(rack))), n() % 20).record()),
        lambda: (rack, Node(DEVICE, rng.choice((HOST, n())), n() % 20, [(n() % 5, n() % 40)]).record()),
        lambda: (rack, Node(DEVICE, HOST, n() % 16, [(1, rng.choice((1, 2, 8, 9)))]).record()),
        lambda: (rack, Node(rng.choice(NODES), HOST, rng.choice((16, n()))).record()),
        lambda: (later, Node(rng.choice((*BRIDGES, DEVICE)), HOST, n() % 18).record()),
        lambda: (later, b"\x01" + bytes(16)),
        lambda: (later, bytes([rng.choice((0, 12, 14, 255))])),
        lambda: (later, write(0, n(), n(), n() % 32, 0)),
        lambda: (later, read(0, n(), n())),
        lambda: (later, memory(n(), n() % 4, 0)),
        lambda: (later, bytes([7, rng.choice((HOST, n())), n() % 3]) + bytes(4)),
    ))()


def seat_fault(rng, rack, later):
    """A faulty seat record or seat event for the rack's records or the events; some are faulty only where they come to stand."""
    nodes = sum(record[0] in NODES for record in rack)
    named = [record for record in rack if record[0] == SEAT]
    seat, node, mask = rng.choice(SEATS), rng.randrange(nodes) if nodes else 0, rng.getrandbits(DWORDS)
    return rng.choice((
        lambda: (rack, seat_record(seat, node, mask)),  # before its node
        lambda: (rack, seat_record(seat, rng.choice((nodes, rng.randint(nodes, 254), HOST)), mask)),
        lambda: (rack, seat_record(0, node, mask)),
        lambda: (rack, seat_record(rng.choice((16, 16, rng.randint(17, 255))), node, mask)),
        lambda: (rack, rng.choice(named)[:3] + rng.randbytes(2) if named else 2 * seat_record(seat, node, mask)),
        lambda: (rack, seat_event(0)),
        lambda: (later, seat_record(rng.choice((seat, 0, 16)), node, mask)),
        lambda: (later, seat_event(seat)),
        lambda: (later, seat_event(rng.choice((16, rng.randint(17, 255))))),
    ))()


def changeable():
    """The bits that some node may change, of a bridge or of a device with the smallest regions of a kind."""
    devices = [Node(DEVICE, HOST, 0, [(kind, least)] * 3) for kind, (least, _) in EXPONENTS.items()]
    return {bit for node in [Node(BRIDGE, HOST, 0)] + devices for bit in bits(header(node)[0])}


CHANGEABLE = changeable()
CHANGEABLE_OF_BRIDGES = set(bits(header(Node(BRIDGE, HOST, 0))[0]))


def with_fixed_bit(rng, node, part):
    """A node's registers with a fixed bit changed, often one that another node may change, or another kind of bridge."""
    fixed = sorted(set(range(8 * NODE_BYTES)) - set(bits(header(node)[0])))
    lacked = [bit for bit in fixed if bit in CHANGEABLE_OF_BRIDGES] if node.is_bridge else []
    bit = rng.choice(rng.choice((fixed, [bit for bit in fixed if bit in CHANGEABLE], lacked or fixed)))
    return part[: bit // 8] + bytes([part[bit // 8] ^ 1 << bit % 8]) + part[bit // 8 + 1 :]


def register_fault(rng, rack, later):
    """A faulty register record, or another record that is faulty because of one, with its place in the rack's records or the events."""
    nodes = [Node.of(record) for record in rack if record[0] in NODES]
    known = [at for at, record in enumerate(rack) if record[0] == REGISTERS and record[1] < len(nodes)]
    missing = rng.choice((len(nodes), rng.randint(len(nodes), 254), HOST))
    if not known:
        return rack, len(rack), register_record(missing, rng.randbytes(NODE_BYTES))
    at = rng.choice(known)
    node, part = rack[at][1], rack[at][2:]
    reset, changed = header(nodes[node])[1], with_fixed_bit(rng, nodes[node], part)
    any_part = rng.choice((part, reset, changed))
    others = [b"\x01" + bytes(16), seat_record(1, node, 0)] + [Node(kind, HOST, rng.randrange(16)).record() for kind in NODES]
    return rng.choice((
        lambda: (rack, rng.choice((at, len(rack))), register_record(missing, any_part)),
        lambda: (rack, at + 1, register_record(node, any_part)),
        lambda: (rack, at + 1, register_record(rng.randint(0, node), any_part)),
        lambda: (rack, len(rack), register_record(rng.randint(0, node), any_part)),
        lambda: (rack, at, register_record(node, rng.choice((reset, changed)))),
        lambda: (rack, at, register_record(node, reset)),
        lambda: (rack, at, register_record(node, changed)),
        lambda: (rack, rng.randint(0, at), rack[at]),
        lambda: (rack, at + 1, rng.choice(others)),
        lambda: (rack, at + 1, rng.choice(others)),
        lambda: (rack, at + 1, rng.choice((CHECK, bytes([rng.choice((0, 12, 14, 255))])))),
        lambda: (later, rng.randint(0, len(later)), register_record(rng.choice((node, missing)), any_part)),
    ))()


def broken(rng, makers=(fault, fault, fault, fault, seat_fault)):
    rack, later = rng.choice((small, bare, bare))(rng)
    for _ in range(rng.choice((1, 1, 2, 4))):
        where, record = rng.choice(makers)(rng, rack, later)
        least = 1 if where is rack and rng.random() < 0.8 else 0  # mostly behind the host
        where.insert(rng.choice((rng.randint(least, len(where)), len(where))), record)
    if rng.random() < 0.1:
        rng.shuffle(rack)
    return rack, later


def seat_broken(rng):
    return broken(rng, (seat_fault, seat_fault, seat_fault, fault))


def register_broken(rng):
    rack, later = kept(rng)
    for _ in range(rng.choice((1, 1, 1, 2))):
        where, at, record = register_fault(rng, rack, later)
        where.insert(at, record)
    return rack, later


def held_broken(rng):
    """Register records below a set bit 6: of one held node or of all, right in themselves or with another fault too; seldom the bridge
    itself stands behind them."""
    rack = random_rack(rng, rng.randint(1, 6), rng.randint(1, 6), rng.choice(("any", "chain", "chain")))
    firmware = Firmware(rack)
    registers, later = begun(rng, rack, firmware, 0.1, share=1)
    hold(rng, registers)
    held = registers.held()
    if not held:
        return kept(rng)
    if rng.random() < 0.3:
        for setting in firmware.settings(rng, 0):
            if setting[0] in held:
                registers.put(*setting)
    else:
        registers.disagree(rng)
    records = registers.records()
    at = rng.choice([at for at, record in enumerate(records) if record[1] in held])
    node, part = records[at][1], records[at][2:]
    behind = max([k for k, record in enumerate(records) if record[1] not in held], default=0)
    rng.choice((
        lambda: None,
        lambda: None,
        lambda: None,
        lambda: records.insert(behind, records.pop(at)),  # behind a later node, if there is one
        lambda: records.insert(at, register_record(node, registers.reset[node])),
        lambda: records.insert(at, register_record(node, with_fixed_bit(rng, rack.nodes[node], part))),
        lambda: records.insert(0, records.pop(at)),  # in front of its bridge
    ))()
    return whole(rng, rack, firmware, records, later)


def no_host(rng):
    """Another record in front of the host, or in its place."""
    rack, later = bare(rng)
    front = rng.choice((CHECK, seat_event(0), seat_record(1, 0, 0), register_record(0, rng.randbytes(NODE_BYTES))))
    return [front] + rack[rng.randint(0, 1) :], later


def seat_cut(rng):
    """A seat record or seat event at the end that lacks a byte or more, behind the rack, behind events, or alone."""
    rack, later = rng.choice((bare, bare, broken))(rng)
    record = rng.choice((seat_record(1, 0, 0)[: rng.randint(1, 4)], seat_event(0)[:1]))
    return rng.choice(((rack, later + [record]), (rack, [record]), ([record], [])))


def register_cut(rng):
    """A register record, or another one behind register records, that lacks a byte or more, at the end or alone."""
    rack, later = kept(rng)
    record = rng.choice((register_record(0, rng.randbytes(NODE_BYTES)), Node(rng.choice(NODES), HOST, 0).record()))
    record = record[: rng.choice((1, 2, len(record) - 1, rng.randint(1, len(record) - 1)))]
    return rng.choice(((rack, later + [record]), (rack, [record]), ([record], [])))


def cut(rng):
    rack, later = rng.choice((small, kept, bare, broken))(rng)
    file = b"".join(rack + later)
    return [file[: rng.randint(0, len(file))]], []


def mangled(rng):
    """A whole file with bytes changed, or no file at all."""
    file = bytearray(b"".join(map(b"".join, rng.choice((small, small, kept))(rng))))
    for _ in range(rng.choice((1, 1, 3, 30))):
        file[rng.randrange(len(file))] = rng.getrandbits(8)
    return [bytes(file) if rng.random() < 0.9 else rng.randbytes(rng.randint(0, 200))], []


def long(rng):
    """At and around the longest length; as checks these are the most events that a file can have."""
    rack, later = bare(rng)
    length = len(b"".join(rack + later))
    event = rng.choice((read(0, 0, 0), CHECK, seat_event(0)))
    return rack, later + [event] * ((MOST - length) // len(event) + rng.choice((-1, 0, 1)))


WHOLE = ((small, 30), (wild, 20), (deep, 8), (full, 3), (wide, 8), (options, 4), (bare, 6), (looked_at, 12), (long, 1.5))
BROKEN = (
    *((too_many, 3), (broken, 22), (seat_broken, 10), (register_broken, 22), (held_broken, 16), (no_host, 2), (seat_cut, 2)),
    *((register_cut, 4), (mangled, 8), (cut, 5)),
)


def random_file(rng, shapes=WHOLE + BROKEN):
    """A file as its records: rack records, then events."""
    shape = rng.choices([s for s, _ in shapes], [w for _, w in shapes])[0]
    rack, later = shape(rng)
    return rack + later


def printed(program, file):
    """What a program prints; a program that does not end by itself prints that it did not."""
    run = subprocess.run([program], input=file, stdout=subprocess.PIPE, stderr=subprocess.PIPE)
    return run.stdout if run.returncode >= 0 else run.stdout + b"killed by signal %d" % -run.returncode
