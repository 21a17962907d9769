"""A plain model of blocking initiators, written from docs/FORMATS.md alone, to hold the program against.

It reads files that the program takes, and refuses nothing.
"""

import tomllib

BUILT_IN = {"initiator": [{"name": "cpu", "bind": "ram"}], "memory": [{"name": "ram", "size": 256, "latency": 10}]}


def number(word):
    return int(word, 16) if word.lower().startswith("0x") else int(word)


def operations(text):
    """The operations of a script, each a list of words, with repeats written out."""
    found, repeated, times = [], None, 0
    for line in text.split("\n"):
        words = line.partition("#")[0].split()
        if not words:
            continue
        if words[0] == "repeat":
            repeated, times = [], number(words[1])
        elif words[0] == "end":
            found, repeated = found + repeated * times, None
        else:
            (found if repeated is None else repeated).append(words)
    return found


class Memory:
    def __init__(self, row):
        self.row, self.bytes = row, bytearray(row["size"])

    def status(self, command, offset, length, enables, width):
        """The first fault of an access, or ok."""
        span = min(length, width) if width else length
        if command == "ignore":
            return "ok"
        if offset + span > len(self.bytes):
            return "address_error"
        if not all(self.row.get(it, True) for it in (("read", "write", command) if command == "fetch_add" else (command,))):
            return "command_error"
        if enables and not self.row.get("byte_enables", True):
            return "byte_enable_error"
        if not width or width < length and not self.row.get("streaming", True):
            return "burst_error"
        return "ok"

    def move(self, command, offset, data, enables, width):
        """Writes the data, or reads into it, where the enables allow; a fetch_add does both."""
        if command == "fetch_add":
            found = self.bytes[offset : offset + 4]
            total = int.from_bytes(found, "little") + int.from_bytes(data, "little")
            self.bytes[offset : offset + 4] = (total % 2**32).to_bytes(4, "little")
            data[:] = found
            return
        for k in range(len(data)):
            if enables and enables[k % len(enables)] != 0xFF:
                continue
            if command == "write":
                self.bytes[offset + k % width] = data[k]
            else:
                data[k] = self.bytes[offset + k % width]


class Initiator:
    def __init__(self, row, script):
        self.row, self.operations = row, operations(script)
        self.now = self.local = self.syncs = self.round = self.numbers = 0
        self.held = self.finished = False
        self.buffer = None
        self.refused = []


class Run:
    def __init__(self, platform, scripts):
        self.quantum = platform.get("quantum", 0)
        self.memories = {row["name"]: Memory(row) for row in platform["memory"]}
        self.routers = {row["name"]: row for row in platform.get("router", [])}
        self.initiators = [Initiator(row, script) for row, script in zip(platform["initiator"], scripts)]
        self.entries = []

    def route(self, at, address):
        """The memory and the offset of an address, if any, and the latencies of the routers visited."""
        before = 0
        while at in self.routers:
            before += self.routers[at].get("latency", 0)
            rows = self.routers[at].get("window", [])
            row = next((it for it in rows if it["first"] <= address <= it["last"]), None)
            if row is None:
                return None, None, before
            at, address = row["to"], address - row["first"] + row.get("base", 0)
        return at, address, before

    def access(self, i, way, command, address, data, enables=b"", width=None):
        """One access or debug read; answers the data afterwards."""
        width = len(data) if width is None else width
        number, now, is_debug = i.numbers, i.now + i.local, way == "debug"
        i.numbers += 1
        name, offset, before = self.route(i.row["bind"], address)
        i.local += 0 if is_debug else before
        if name is None:
            i.refused.append(f"refused {i.row['name']}.{number} {now} {'debug' if is_debug else command} {address:#x}")
            return data
        memory, length, sent = self.memories[name], len(data), bytes(data)
        if is_debug:
            status, data = "ok", memory.bytes[offset : offset + length]
        else:
            status, now = memory.status(command, offset, length, enables, width), now + before
            i.local += memory.row.get("latency", 0)
            if status == "ok" and command != "ignore":
                memory.move(command, offset, data, enables, width)
        operand = f"{sent.hex()}:" if command == "fetch_add" else ""
        marks = f"be={enables.hex() or '-'} sw={width} {operand}{bytes(data).hex() or '-'} {status}"
        head = f"{len(self.entries)} {now} {i.row['name']}.{number} {name}"
        self.entries.append(f"{head} {way} {command} {offset:#x} {length} {marks}")
        return data

    def invalidate(self, i, address, count):
        """An invalidation: one entry, where the address leads to a memory. Blocking initiators hold no grants, so none is ended."""
        seq, i.numbers = i.numbers, i.numbers + 1
        name, offset, _ = self.route(i.row["bind"], address)
        if name is not None:
            head = f"{len(self.entries)} {i.now + i.local} {i.row['name']}.{seq} {name}"
            self.entries.append(f"{head} invalidated {offset:#x}-{min(offset + count - 1, 2**64 - 1):#x}")

    def step(self, i, words):
        """One access, or another operation; answers whether the operation has ended."""
        word, arguments = words[0], [it for it in words[1:] if "=" not in it]
        options = dict(it.split("=") for it in words[1:] if "=" in it)
        enables, width = bytes.fromhex(options.get("be", "")), number(options["sw"]) if "sw" in options else None
        if word == "write":
            self.access(i, "blocking", "write", number(arguments[0]), bytearray.fromhex(arguments[1]), enables, width)
        elif word == "read":
            self.access(i, "blocking", "read", number(arguments[0]), bytearray(number(arguments[1])), enables, width)
        elif word == "ignore":
            self.access(i, "blocking", "ignore", number(arguments[0]), bytearray())
        elif word == "debug":
            self.access(i, "debug", "read", number(arguments[0]), bytearray(number(arguments[1])))
        elif word == "fetch_add":
            operand = bytearray(number(arguments[1]).to_bytes(4, "little"))
            self.access(i, "blocking", "fetch_add", number(arguments[0]), operand)
        elif word == "invalidate":
            self.invalidate(i, number(arguments[0]), number(arguments[1]))
        elif word == "wait":
            i.local += number(arguments[0])
        elif word in ("copy", "add") and i.buffer is None:
            length = number(arguments[2]) if word == "copy" else 4
            i.buffer = self.access(i, "blocking", "read", number(arguments[0]), bytearray(length))
            return False
        elif word in ("copy", "add"):
            data, i.buffer = i.buffer, None
            if word == "add":
                data = bytearray(((int.from_bytes(data, "little") + number(arguments[1])) % 2**32).to_bytes(4, "little"))
            self.access(i, "blocking", "write", number(arguments[1 if word == "copy" else 0]), data)
        return True

    def must_sync(self, i):
        return i.local >= self.quantum - i.now % self.quantum if self.quantum else True

    def sync(self, i):
        """One sync, if nobody who hasn't finished is in an earlier round; else it is held back."""
        i.held = any(not it.finished and it.round < i.round for it in self.initiators)
        if not i.held:
            i.round, i.syncs, i.now, i.local = i.round + 1, i.syncs + 1, i.now + i.local, 0

    def turn(self, i):
        if i.held:
            self.sync(i)
        if i.held:
            return
        if not i.operations:
            i.finished = True
        elif self.step(i, i.operations[0]):
            word = i.operations.pop(0)[0]
            if word == "sync" or self.must_sync(i):
                self.sync(i)

    def by_one_worker(self):
        """The initiators take turns, in order, until all have finished."""
        while not all(it.finished for it in self.initiators):
            for i in self.initiators:
                if not i.finished:
                    self.turn(i)

    def in_order(self, names):
        """Each of these initiators goes on up to its next entry, and in the end all to their ends: what no round holds back."""
        by_name = {it.row["name"]: it for it in self.initiators}
        for name in names:
            count = len(self.entries)
            while len(self.entries) == count and by_name[name].operations:
                self.turn_alone(by_name[name])
        for i in self.initiators:
            while i.operations:
                self.turn_alone(i)

    def turn_alone(self, i):
        if self.step(i, i.operations[0]):
            word = i.operations.pop(0)[0]
            if word == "sync" or self.must_sync(i):
                i.syncs, i.now, i.local = i.syncs + 1, i.now + i.local, 0

    def report(self):
        lines = ["tlm-report 1", *self.entries]
        for i in self.initiators:
            counts = f"transactions {i.numbers} refused {len(i.refused)} syncs {i.syncs} end {i.now + i.local}"
            lines += [f"initiator {i.row['name']} blocking {counts}", *i.refused]
        for name, memory in self.memories.items():
            lines.append(f"memory {name} {len(memory.bytes)}")
            rows = [(at, memory.bytes[at : at + 16]) for at in range(0, len(memory.bytes), 16)]
            lines += [f"{at:08x} {bytes(row).hex()}" for at, row in rows if any(row)]
        return "\n".join([*lines, f"end {len(self.entries)}"]) + "\n"


def text_of(path):
    with open(path, encoding="ascii") as it:
        return it.read()


def of_script(path):
    return Run(BUILT_IN, [text_of(path)])


def of_platform(path):
    platform = tomllib.loads(text_of(path))
    return Run(platform, [text_of(row["script"]) for row in platform["initiator"]])


def order_of(report):
    """The initiators of the printed entries, in order."""
    return [line.split(" ")[2].rpartition(".")[0] for line in report.split("\n") if line[:1].isdigit() and line.count(" ") > 4]
