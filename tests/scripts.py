"""Random scripts of calls (CALLS.md): racks with the registers that firmware would write or any others, with seats and held branches,
damaged racks, images, events, lent buffers and whole files."""
import subprocess
import sys

import files
import racks
from racks import BRIDGE, CHECK, CONTROL, DEVICE, DWORDS, HOST, NODE_BYTES, OLDER_BRIDGE, REGISTERS, SEAT, SEAT_EVENT, SEATS
from racks import Firmware, Grant, Node, access, configuration, number, random_rack, random_registers, register_record, seat_event

STEP = 12  # of the arbiter, of both programs
SAVING = (13, 14)  # operations that write a file into a lent buffer, over a decoded rack and over rack bytes
OPENING = 15  # the registers that a run of a whole file starts from
DECODED = (1, 2, 3, 4, 5, 6, 7, 13)
ARCHIVE = (8, 9, 10, 11, 14, OPENING)
NAMING = (1, 2, 3, 4, 5, 11)  # operations that name a node
RUNNING = (6, 8)  # operations that run an event
CHECKING = (7, 9)  # operations that check
OFTEN = {2: 5, 5: 2, 6: 7, 8: 7, 11: 2, 13: 3, 14: 3, OPENING: 3}  # operations that can end in many ways are called more often than once
WORDS = "data stored owner host unclaimed clash silent pass fault denied seat special".split()  # by an ending's number
FIELDS = (2, 1, 4, 2, 3, 4, 0, 0, 6, 1, 1, 2)  # and how many fields its line has
NODES = 96
HEAD = 18
MOST_IMAGE, MOST_BUFFER = 4160, 16384
SEATED = 0.45  # the share of racks that have seats
HELD = 0.5  # and of registers with a held branch


def lent_registers(rng, rack, firmware):
    """The registers of a rack, here and there with a held node that is not at reset, or with all of them as firmware would set them: 18."""
    registers = random_registers(rng, rack, firmware, rng.choice((0, 0.05, 0.3)), HELD)
    held, way = registers.held(), rng.random()
    if way < 0.15:
        registers.disagree(rng)
    elif way < 0.2:
        for setting in firmware.settings(rng, 0):
            if setting[0] in held:
                registers.put(*setting)
    return registers


def damaged_images(rng, registers):
    images = registers.images()
    for image in images:
        if image and rng.random() < 0.06:  # a damaged bit: 12, or a changeable one
            image[rng.randrange(len(image))] ^= 1 << rng.randrange(8)
        if rng.random() < 0.025:  # another length: 11
            del image[rng.randint(0, len(image)) :]
        elif rng.random() < 0.025:
            image += bytes(rng.choice((1, 63, 64)))
    return images


def crowd(rng, rack):
    """A 33rd bridge or 65th device, where the rack is full."""
    kind = rng.choice((BRIDGE, OLDER_BRIDGE, DEVICE))
    holder = next((i for i in rack.bridges() if rack.free_number(rng, i) is not None), HOST)
    rack.nodes.append(Node(kind, holder, rack.free_number(rng, holder) or 0))


def damage(rng, rack):
    """A field of the rack out of order, here and there."""
    if len(rack.nodes) >= NODES and rng.random() < 0.7:
        return crowd(rng, rack)
    for node in rack.nodes:
        if rng.random() < 0.03:
            node.parent = rng.choice((HOST, rng.randint(0, 255)))
        if rng.random() < 0.03:
            node.device = rng.choice((rng.randint(0, 15), 16, 255))
        if rng.random() < 0.03:
            node.regions[rng.randrange(3)] = (rng.randint(0, 4), rng.randint(0, 34))


def damage_seats(rng, rack):
    """A grant out of order or two: a node that is missing, or that stands behind the record; no such seat; a pair twice. Over a decoded
    rack only a missing node can be written."""
    count = len(rack.nodes)
    for _ in range(rng.choice((1, 1, 2))):
        seat, node, behind = rng.choice(SEATS), rng.randrange(count) if count else 0, rng.choice((count, rng.randint(0, count)))
        missing = rng.choice((count, count, rng.randint(count, 255), HOST))
        ways = [(seat, missing), (seat, missing), (0, node), (rng.choice((16, rng.randint(17, 255))), node), (seat, max(node, behind))]
        ways += [(g.seat, g.node) for g in rack.grants[:1]]
        rack.grants.append(Grant(*rng.choice(ways), rng.getrandbits(DWORDS), behind))


def decoded_seats(rack, idle):
    """For each pair of seat and node whether it is named, and its mask, which may be anything where it is not."""
    out = bytearray((b"\x00" + number(idle, 2)) * (len(SEATS) * NODES))
    for g in rack.grants:
        if g.seat in SEATS and g.node < NODES:
            at = 3 * (NODES * SEATS.index(g.seat) + g.node)
            out[at : at + 3] = b"\x01" + number(g.mask, 2)
    return out


def decoded_rack(rack, count, past=Node(DEVICE, HOST, 0).record(), idle=0):
    """A decoded rack with that count of nodes; what stands past its nodes and in masks of pairs that are not named may be anything."""
    rows = [bytes([n.kind, n.parent, n.device]) + number(n.ids, 4) + bytes(x for r in n.regions for x in r) for n in rack.nodes]
    rows += [past] * (NODES - len(rows))
    return number(rack.first, 8) + number(rack.last, 8) + bytes([count]) + b"".join(rows[:NODES]) + decoded_seats(rack, idle)


def decoded(rng, rack):
    count = len(rack.nodes) if rng.random() < 0.97 else rng.choice((0, 96, 97, 255, len(rack.nodes) + 1))
    return decoded_rack(rack, min(count, 255), idle=rng.choice((0, 0xFFFF)))


def rack_bytes(rng, rack):
    records = rack.records()
    way = rng.random()
    if way < 0.06:
        kept = register_record(rng.randrange(4), rng.randbytes(NODE_BYTES))
        faults = (CHECK, seat_event(0), b"\x01" + bytes(16), bytes([rng.randint(0, 255)]), kept, kept)
        records.insert(rng.randint(0, len(records)), rng.choice(faults))
    file = b"".join(records)
    if 0.06 <= way < 0.09:
        file = file[: rng.randint(0, len(file))]
    elif 0.09 <= way < 0.10:
        file += bytes(65537 - len(file))
    elif 0.10 <= way < 0.11:
        file += register_record(0, rng.randbytes(NODE_BYTES))[: rng.randint(1, 65)]
    return file


def random_seat(rng, rack):
    """A seat for a call or a seat event: one of the rack's or seat 0; seldom any other, above 15 too."""
    if rng.random() < 0.1:
        return rng.choice((rng.choice(SEATS), 16, rng.randint(16, 255)))
    return rng.choice([0] + 4 * rack.seats())


def random_event(rng, rack, firmware, setters):
    makers = 3 * [lambda: access(rng, rack, firmware)] + 3 * [lambda: configuration(rng, rack, firmware)]
    makers += [lambda: CHECK, lambda: seat_event(random_seat(rng, rack))]
    if rack.grants:
        makers += 3 * [lambda: racks.try_a_write(rng, rack, firmware)]
    if rack.bridges():
        bridge = rng.choice(setters) if setters and rng.random() < 0.8 else racks.with_nodes_below(rng, rack)
        above = list(rack.above(bridge))
        makers += (12 if setters else 1) * [lambda: racks.look(rng, rack, firmware, bridge)]
        makers += 5 * [lambda: racks.control(rng, firmware, bridge, rng.random() < (0.4 if bridge in setters else 0.7))]
        makers += (4 if above else 0) * [lambda: racks.control(rng, firmware, rng.choice(above), 1)]
    event = rng.choice(makers)()
    if len(event) > 1 and rng.random() < 0.15:  # a field out of range
        at = rng.randrange(1, min(len(event), 5))
        event = event[:at] + bytes([rng.randint(0, 255)]) + event[at + 1 :]
    return event


def any_bytes(rng, event):
    """An event as C may hand it over: cut short, too long, of no kind."""
    kind = rng.choice((0, 1, 3, SEAT, SEAT_EVENT, REGISTERS, OLDER_BRIDGE, 255))
    return rng.choice((event[: rng.randint(0, len(event))], event + b"\x00", bytes([kind]) + event[1:]))


def parts_of(call):
    """The bytes of a call's rack, its event and both images."""
    at, out = HEAD, []
    for offset, count in ((1, 4), (5, 2), (7, 2), (9, 2)):
        length = int.from_bytes(call[offset : offset + count], "little")
        out.append(call[at : at + length])
        at += length
    return out


def event_of(call):
    """The bytes of a call's event."""
    return parts_of(call)[1]


def rack_of(call):
    """The bytes of a call's rack."""
    return parts_of(call)[0]


def buffer_of(call):
    """The length of the buffer that a call lends."""
    return int.from_bytes(call[14:18], "little")


def nodes_of(call):
    """The nodes of a call's rack, as far as it can be read."""
    rack = rack_of(call)
    if call[0] in DECODED:
        return [Node.of(rack[at : at + 13]) for at in range(17, 17 + 13 * min(rack[16], NODES), 13)]
    return [Node.of(record) for _, record in racks.records_of(rack) if record[0] in racks.NODES and len(record) >= 7]


def registers_of(call):
    """The registers that a call lends, where its nodes are a tree and its images have their lengths; else none."""
    rack = racks.Rack(0, 0)
    rack.nodes = nodes_of(call)
    is_tree = all(n.parent == HOST or n.parent < i and rack.nodes[n.parent].is_bridge for i, n in enumerate(rack.nodes))
    return registers_in(rack, parts_of(call)[2:]) if is_tree and fits(call) else None


def registers_in(rack, images):
    """The registers of a rack's nodes in two images."""
    registers, at = racks.Registers(rack), [0, 0]
    for i, node in enumerate(rack.nodes):
        k = 0 if node.is_bridge else 1
        registers.now[i] = bytearray(images[k][at[k] : at[k] + NODE_BYTES])
        at[k] += NODE_BYTES
    return registers


def with_registers(call, registers):
    """The call with these registers, of as many nodes, in its images."""
    images = b"".join(registers.images())
    return call[: len(call) - len(images)] + images


def node_kinds(call):
    """The kinds of the nodes of a call's rack, as far as it can be read."""
    return [node.kind for node in nodes_of(call)]


def fits(call):
    """Whether both images have the lengths that the nodes of the call's rack ask for."""
    is_bridge = [node.is_bridge for node in nodes_of(call)]
    return [len(image) for image in parts_of(call)[2:]] == [NODE_BYTES * is_bridge.count(kind) for kind in (True, False)]


def grants_in(call):
    """How many grants a call's rack has, as far as it can be read."""
    rack = rack_of(call)
    if call[0] in DECODED:
        return sum(rack[17 + 13 * NODES :: 3])
    return sum(record[0] == SEAT for _, record in racks.records_of(rack))


def saved_length(call):
    """The length of the file of a call's rack, if it is not refused."""
    images, at = parts_of(call)[2:], [0, 0]  # and where the next part of each begins
    length = racks.RECORD_BYTES[1] + racks.RECORD_BYTES[SEAT] * grants_in(call)
    for node in nodes_of(call):
        k = 0 if node.is_bridge else 1
        part, at[k] = images[k][at[k] : at[k] + NODE_BYTES], at[k] + NODE_BYTES
        length += racks.RECORD_BYTES[node.kind] + (racks.RECORD_BYTES[REGISTERS] if part != racks.header(node)[1] else 0)
    return length


def has(call, kinds):
    """Whether a call's rack bytes have a record of these kinds, as far as they can be read."""
    return any(record[0] in kinds for _, record in racks.records_of(rack_of(call)))


def first_strange(call):
    """The kind of the first record of a call's rack bytes that is none of a rack; none where there is none or it has no kind."""
    return next((record[0] for _, record in racks.records_of(rack_of(call)) if record[0] not in (1, SEAT, *racks.NODES)), None)


def named_kind(call):
    """The kind of the node that a call names; none where it names none that is there."""
    return dict(enumerate(node_kinds(call))).get(call[11]) if call[0] in NAMING else None


def random_step(rng):
    """Mask, request set and state for a step of the arbiter; one of the four is damaged, here and there."""
    mask, requests = rng.getrandbits(10), rng.getrandbits(10) & rng.getrandbits(rng.choice((0, 10, 10)))
    members = lambda is_high: [i for i in range(10) if mask >> i & 1 == is_high]
    high, low = rng.choice(members(1) + [10, 15]), rng.choice(members(0) + [15])
    way = rng.random()
    if way < 0.05:
        mask |= 1 << rng.randint(10, 15)
    elif way < 0.10:
        requests |= 1 << rng.randint(10, 15)
    elif way < 0.15:
        high = rng.choice((rng.randint(0, 16), rng.randint(0, 255)))
    elif way < 0.20:
        low = rng.choice((rng.randint(0, 16), rng.randint(0, 255)))
    return mask, requests, high, low


def assembled(operation, named, data, *parts):
    """A call: node, index and enables are `named`; rack, event and both images are `parts`."""
    counts = b"".join(number(len(part), count) for part, count in zip(parts, (4, 2, 2, 2)))
    return bytes([operation]) + counts + bytes(named) + number(data, 4) + b"".join(map(bytes, parts))


def lent(rng, call):
    """The call with a buffer for its file: none, one that is too short, by a byte too, just long enough or longer; filled with any byte."""
    length = min(saved_length(call), MOST_BUFFER)
    longer = rng.choice((length + 1, rng.randint(length, MOST_BUFFER), MOST_BUFFER))
    count = rng.choice((0, rng.randint(0, length), length - 1, length, length, length, longer, longer, longer))
    return call[:13] + bytes([rng.getrandbits(8)]) + number(count, 4) + call[HEAD:]


def random_opening(rng):
    """A whole file, with or without its events, seldom too long, and images of the lengths that it asks for, seldom of others; what they
    hold plays no part."""
    records = files.random_file(rng, rng.choice((files.WHOLE, files.BROKEN, files.BROKEN)))
    if rng.random() < 0.3:
        records = [record for record in records if record[:1] not in [bytes([kind]) for kind in racks.EVENTS]]
    file = b"".join(records)
    if rng.random() < 0.02:
        file += CHECK * (files.MOST + 1 - len(file))
    is_bridge = [record[0] in racks.BRIDGES for _, record in racks.records_of(file) if record[0] in racks.NODES]
    images = [rng.randbytes(min(NODE_BYTES * is_bridge.count(kind), MOST_IMAGE)) for kind in (True, False)]
    for k in range(2):
        if rng.random() < 0.08:
            images[k] = rng.choice((images[k][:-1], b"", images[k][NODE_BYTES:], rng.randbytes(min(len(images[k]) + 64, MOST_IMAGE))))
    return assembled(OPENING, (0, 0, 0), 0, file, b"", *images)


def named_node(rng, registers):
    """A node for a call to name: often one that is held, or a bridge that holds; seldom one that may be missing."""
    nodes, way = range(len(registers.now)), rng.random()
    if way < 0.05 or not nodes:
        return rng.randint(0, 255)
    return rng.choice((registers.held() if way < 0.4 else registers.setters() if way < 0.55 else nodes) or nodes)


def random_call(rng, operations, steps=0.05):
    """A call of one of the operations, or a step of the arbiter, which is rarer."""
    operation = STEP if rng.random() < steps else rng.choices(operations, [OFTEN.get(operation, 1) for operation in operations])[0]
    if operation == OPENING:
        return random_opening(rng)
    size = rng.choices(((0, 0), (1, 2), (3, 6), (8, 20), (32, 64)), (2, 10, 20, 4, 2))[0]
    rack = random_rack(rng, size[0], size[1], rng.choice(("any", "chain", "wide")))
    firmware = Firmware(rack)
    if rng.random() < SEATED:
        near = 1 << CONTROL // 4 | rng.getrandbits(DWORDS)
        racks.grant(rng, rack, [near if node.is_bridge else rng.getrandbits(DWORDS) for node in rack.nodes])
    registers = lent_registers(rng, rack, firmware)
    bridges, devices = damaged_images(rng, registers)
    event, seat = random_event(rng, rack, firmware, registers.setters()), random_seat(rng, rack)
    node = named_node(rng, registers)
    if rng.random() < 0.25:
        damage(rng, rack)
    if rng.random() < 0.15:
        damage_seats(rng, rack)
    if ARCHIVE[0] in operations:
        rack_part = rack_bytes(rng, rack)
        event = any_bytes(rng, event) if rng.random() < 0.1 else event
    else:
        rack_part = decoded(rng, rack)
    if operation in RUNNING:
        node = seat
    most = 3 if operation in (4, 5, 11) else 255
    index = rng.choice((rng.randint(0, most), 4 * rng.randint(0, 16) % (most + 1)))
    data = rng.getrandbits(32)
    if operation == STEP:
        mask, requests, node, index = random_step(rng)
        data = mask | requests << 16
    enables = rng.randint(0, 15) if rng.random() < 0.95 else rng.randint(0, 255)
    if operation == 2 and node in rack.bridges() and rng.random() < 0.5:  # bit 6, mostly with its byte
        index, enables = CONTROL, rng.choice((4, 12, 15, enables, enables & 11))
        data = rng.choice((0, 0xFFFFFFFF, data))
    call = assembled(operation, (node, index, enables), data, rack_part, event, bridges, devices)
    return lent(rng, call) if operation in SAVING else call


def results(program, script):
    """What each call of a script gives by a program, as rows of bytes."""
    run = subprocess.run([program], input=b"".join(script), stdout=subprocess.PIPE)
    out, at = [], 0
    for call in script:
        shown = int.from_bytes(run.stdout[at + 65 : at + 67], "little")
        length = 67 + shown + int.from_bytes(call[7:9], "little") + int.from_bytes(call[9:11], "little")
        out.append(run.stdout[at : at + length])
        at += length
    if run.returncode != 0 or at != len(run.stdout):
        print(f"{program}: status {run.returncode}, {len(run.stdout)} bytes instead of {at}")
        sys.exit(1)
    return out


def words_of(result):
    """The line of an event's result, without its event number."""
    ending, *fields = numbers_of(result)
    words = [WORDS[ending - 1], *map(str, fields[: FIELDS[ending - 1]])]
    if words[0] == "unclaimed":
        words[3] = ("abort", "done", "target")[fields[2]]
    if words[0] == "fault":
        words[2] = ("memory", "io", "config")[fields[1]]
    return words


def numbers_of(result):
    """The eight numbers of a call's result."""
    return [int.from_bytes(result[1 + 8 * k : 9 + 8 * k], "little") for k in range(8)]
