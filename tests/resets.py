"""What a run shows of bus resets. Its registers are followed, status bits aside, by the writes that its lines say were stored."""
import racks
from racks import CHECK, CONTROL, HOST, RESETS, SEAT_EVENT, WRITE

KINDS = {WRITE: "configuration", 5: "configuration", 6: "memory", 7: "I/O"}
NAMES = {racks.BRIDGE: "a bridge", racks.OLDER_BRIDGE: "an older bridge"}
DEPTHS = 32

# what a write to bridge control does, and what it does not do
WRITTEN = [f"reset at depth {depth}" for depth in range(DEPTHS)]
WRITTEN += [f"reset {levels} down" for levels in ("1", "2", "3", "4 to 15", "16 or more")]
WRITTEN += ["reset by " + name for name in NAMES.values()] + ["reset of " + name for name in (*NAMES.values(), "a device")]
WRITTEN += ["reset of a bridge that resets", "reset beside a node on the same bus"]
WRITTEN += ["reset by a seat", "reset of what a seat may not write"]
WRITTEN += ["1 over 1", "0 over 0", "1 without its byte", "0 without its byte", "let go", "let go by a seat", "let go of what was saved"]
WRITTEN += ["denied 1", "denied 0"]
# how an event ends that has to do with what is held
ENDED = [f"{kind} {how} on a held bus" for kind in ("configuration", "memory", "I/O") for how in ("done", "target")]
ENDED += ["memory write on a held bus", "silent below a set bit", "silent further down"]
ENDED += [f"{what} of a held node" for what in ("read", "write", "reset", "letting go")]
ENDED += ["nobody on a held bus", "a bus below a held one"]
ENDED += ["special on a held bus", "special below a held bus"]
ENDED += [f"{ending} while a branch is held" for ending in ("data", "stored", "owner", "host", "clash", "pass", "denied")]
ENDED += [f"fault {kind} while a branch is held" for kind in ("config", "memory", "io")]
ENDED += ["clash with a bridge that resets", "fault with a bridge that resets", "no fault any more"]
# what comes of nodes that were let go
AGAIN = [f"{ending} again" for ending in ("data", "stored", "owner", "initiator")] + ["silent at reset"]
# some of these before anything is written, in a run from registers
AT_ONCE = ["configuration done on a held bus", "memory done on a held bus", "silent below a set bit", "silent further down"]
AT_ONCE += ["read of a held node", "special on a held bus", "owner while a branch is held", "pass while a branch is held"]
SORTS = WRITTEN + ENDED + AGAIN + ["at once " + name for name in AT_ONCE]


class Run:
    """A run from these registers, event by event."""

    def __init__(self, registers, grants):
        self.registers, self.rack, self.grants = registers, registers.rack, grants  # grants: {(seat, node): mask}
        self.on_bus = {holder: self.rack.on_bus(holder) for holder in [HOST] + self.rack.bridges()}
        self.seat, self.faults, self.at_once = 0, set(), True
        self.setters = self.saved = set(registers.setters())
        self.held = self.were_held = set(registers.held())

    def names(self, event, words):
        """What an event with such a line counts as."""
        out = list(self.of_write(event, words)) if event[0] == WRITE else []
        out += self.of_check(words) if event == CHECK else self.of_ending(event, words)
        out += self.of_holding(words)
        if self.at_once:
            out += ["at once " + name for name in out]
        if event[0] == SEAT_EVENT:
            self.seat = event[1]
        if event[0] == WRITE and words[1] == "stored":
            self.at_once = False
            self.follow(event)
        return out

    def found(self, bus, device):
        """The node that a configuration access reaches, where it reaches one: no clash is looked for."""
        holder, numbers = HOST, lambda i: self.registers.now[i][0x19:0x1B]
        while bus:
            claim = [i for i in self.on_bus[holder] if self.rack.nodes[i].is_bridge and numbers(i)[0] <= bus <= numbers(i)[1]]
            if not claim:
                return None
            holder = claim[0]
            if numbers(holder)[0] == bus:
                break
        return next((i for i in self.on_bus[holder] if 8 * self.rack.nodes[i].device == device), None)

    def follow(self, event):
        node = self.found(event[1], event[2])
        self.registers.store(node, event[3], event[4], int.from_bytes(event[5:9], "little"))
        if event[3] == CONTROL:
            self.setters, self.held = set(self.registers.setters()), set(self.registers.held())
            self.were_held = self.were_held | self.held
            self.saved = self.saved & self.setters

    def of_write(self, event, words):
        """A write to the bridge control of a bridge that has something below it."""
        node = self.found(event[1], event[2]) if words[1] in ("stored", "denied") and event[3] == CONTROL else None
        if node not in self.on_bus:
            return
        below, had, has = self.rack.below(node), node in self.setters, event[7] & RESETS != 0
        changed = [k for k in below if self.registers.now[k] != self.registers.reset[k]]
        if words[1] == "denied":
            if event[4] & 4 and has != had and (had or changed):
                yield f"denied {has:d}"
        elif not event[4] & 4:
            if has != had and (had or changed):
                yield f"{has:d} without its byte"
        elif has and not had and changed:
            yield from self.of_reset(node, changed)
        elif not has and had and below:
            yield from ["let go"] + ["let go by a seat"] * (self.seat != 0) + ["let go of what was saved"] * (node in self.saved)
        elif has == had and (had and below or changed):
            yield f"{has:d} over {has:d}"

    def of_reset(self, node, changed):
        nodes, depth = self.rack.nodes, self.rack.depth(node)
        levels = max(self.rack.depth(k) for k in changed) - depth
        yield f"reset at depth {depth}"
        yield f"reset {levels if levels < 4 else '4 to 15' if levels < 16 else '16 or more'} down"
        yield "reset by " + NAMES[nodes[node].kind]
        yield from {"reset of " + NAMES.get(nodes[k].kind, "a device") for k in changed}
        if self.setters & set(changed):
            yield "reset of a bridge that resets"
        beside = [k for k in self.on_bus[nodes[node].parent] if k != node]
        if any(self.registers.now[k] != self.registers.reset[k] for k in beside):
            yield "reset beside a node on the same bus"
        if self.seat:
            yield "reset by a seat"
            if any(self.may_not_write(k) for k in changed):
                yield "reset of what a seat may not write"

    def may_not_write(self, k):
        """Whether a dword of a node is not at reset that the acting seat may not write."""
        mask, now, reset = self.grants.get((self.seat, k), 0), self.registers.now[k], self.registers.reset[k]
        return any(now[4 * d : 4 * d + 4] != reset[4 * d : 4 * d + 4] for d in range(racks.DWORDS) if not mask >> d & 1)

    def is_held_bus(self, holder):
        return holder in self.setters or holder in self.held

    def of_ending(self, event, words):
        if words[1] == "silent":
            return self.of_silence(event[1])
        if words[1] == "unclaimed" and self.is_held_bus(int(words[3])):
            return self.of_unclaimed(event, int(words[3]), words[4])
        if words[1] == "special" and self.is_held_bus(int(words[3])):
            return ["special on a held bus"]
        out = []
        if event[0] in (6, 7) and event[1] in self.were_held:
            out += ["initiator again"]
        reached = int(words[3]) if words[1] == "owner" else self.found(*event[1:3]) if words[1] in ("data", "stored") else None
        if reached in self.were_held:
            out += [words[1] + " again"]
        if words[1] == "clash" and any(int(k) in self.setters for k in words[4:]):
            out += ["clash with a bridge that resets"]
        return out

    def of_silence(self, device):
        if device not in self.held:
            return ["silent at reset"] if device in self.were_held and self.registers.now[device] == self.registers.reset[device] else []
        return ["silent below a set bit" if self.rack.nodes[device].parent in self.setters else "silent further down"]

    def of_unclaimed(self, event, holder, how):
        if event[0] == 6 and event[2] == 1:
            return ["memory write on a held bus"]  # done, whatever bit 5
        out = [f"{KINDS[event[0]]} {how} on a held bus"]
        if event[0] not in (WRITE, 5):
            return out
        if event[1] != self.registers.now[holder][0x19]:
            return out + ["special below a held bus" if racks.is_special_cycle(event) else "a bus below a held one"]
        there = [k for k in self.on_bus[holder] if 8 * self.rack.nodes[k].device == event[2]]
        if not there:
            return out + ["nobody on a held bus"]
        if event[0] == WRITE and event[3] == CONTROL and event[4] & 4 and self.rack.nodes[there[0]].is_bridge:
            return out + ["reset of a held node" if event[7] & RESETS else "letting go of a held node"]
        return out + ["read of a held node" if event[0] == 5 else "write of a held node"]

    def of_check(self, words):
        """A check; a fault is kept, so that a pass is seen where one of its claimants, or its bus, is held now."""
        if words[1] == "fault":
            claimants = {int(k) for k in words[6:]}
            self.faults |= {int(words[2]), *claimants}
            return ["fault with a bridge that resets"] if claimants & self.setters else []
        return ["no fault any more"] if self.faults & self.held else []

    def of_holding(self, words):
        """An event that ends while nodes are held."""
        ending = f"fault {words[3]}" if words[1] == "fault" else words[1]
        return [f"{ending} while a branch is held"] if self.held else []
