"""A checker of reports with four-phase traffic or direct accesses, written from docs/FORMATS.md alone.

It reads a platform, its scripts and a report, and tells each rule that the report breaks: the phases and answers of each
transaction on each hop, that no second request or response is open, the lanes, the references of each payload, the orders and the
times of all entries, what each access asks for, that its status and bytes are those of one plain store, which grants are given, used
and ended, and the lines at the end.
"""

import collections
import sys
import tomllib

sys.dont_write_bytecode = True
import model

MOST = 2**64 - 1
PLAIN = ("write", "read", "ignore")
ENDINGS = {
    "accept": [("BEGIN_RESP", "ACCEPTED"), ("END_RESP", "COMPLETED")],
    "end_resp": [("BEGIN_RESP", "UPDATED END_RESP")],
    "complete": [("BEGIN_RESP", "COMPLETED")],
}


def later(time, more):
    return min(time + more, MOST)


class Entry:
    """One line of the report."""

    def __init__(self, line):
        position, time, txn, self.object, self.text = line.split(" ", 4)
        self.position, self.time = int(position), int(time)
        self.name, _, seq = txn.rpartition(".")
        self.seq, self.txn = int(seq), txn
        self.kind, _, self.rest = self.text.partition(" ")
        self.kind, _, self.gate = self.kind.partition(":")
        self.is_access = self.kind in ("blocking", "fourphase", "direct", "debug")
        self.is_call = self.kind in ("BEGIN_REQ", "END_REQ", "BEGIN_RESP", "END_RESP")
        if self.is_access:
            command, offset, length, enables, width, data, status = self.rest.split(" ")
            self.command, self.offset, self.length, self.status = command, int(offset, 16), int(length), status
            self.enables, self.width = enables.removeprefix("be=").replace("-", ""), int(width.removeprefix("sw="))
            sent, _, shown = data.rpartition(":")
            self.sent, self.data = sent, shown.replace("-", "")
        if self.kind in ("granted", "invalidated"):
            span = self.rest.split(" ")[-1 if self.kind == "invalidated" else 1]
            self.first, self.last = (int(it, 16) for it in span.split("-"))
        if self.kind in ("granted", "closed"):
            self.gate = self.rest.split(" ")[0]
        self.gate = int(self.gate) if self.gate else None

    def is_cut_by(self, other):
        """Whether this grant is overlapped by an invalidation that stands after it."""
        return self.object == other.object and self.position < other.position and self.first <= other.last and other.first <= self.last


class Request:
    """What a script asks for by one sequence number: `waits` tells that all that was asked for before has to end first."""

    def __init__(self, seq, way, command, address, data, enables="", width=None, waits=False):
        self.seq, self.way, self.command, self.address, self.data = seq, way, command, address, data
        self.enables, self.waits = enables, waits
        self.is_plain = way == "access" and command in ("read", "write") and not enables and width is None
        self.width = len(data) if width is None else width
        self.issued = None


def asked_by(words):
    """What an operation asks for, without numbers: way, command, address, data, enables, width."""
    word, arguments = words[0], [it for it in words[1:] if "=" not in it]
    options = dict(it.split("=") for it in words[1:] if "=" in it)
    enables, width = options.get("be", "").lower(), model.number(options["sw"]) if "sw" in options else None
    address = model.number(arguments[0]) if arguments else 0
    if word == "write":
        return [("access", word, address, bytes.fromhex(arguments[1]), enables, width)]
    if word in ("read", "debug"):
        way = "debug" if word == "debug" else "access"
        return [(way, "read", address, bytes(model.number(arguments[1])), enables, width)]
    if word == "ignore":
        return [("access", word, address, b"", "", None)]
    if word == "invalidate":
        return [("invalidate", word, address, b"", "", model.number(arguments[1]))]
    if word == "fetch_add":
        return [("access", word, address, model.number(arguments[1]).to_bytes(4, "little"), "", None)]
    if word in ("copy", "add"):
        length, to = (model.number(arguments[2]), model.number(arguments[1])) if word == "copy" else (4, address)
        return [("access", "read", address, bytes(length), "", None), ("access", "write", to, None, "", None)]
    return []


class Checker:
    def __init__(self, platform, scripts, report):
        self.faults = []
        self.quantum = platform.get("quantum", 0)
        self.rows = {row["name"]: row for row in platform["initiator"]}
        self.routers = {row["name"]: row for row in platform.get("router", [])}
        self.memories = {row["name"]: model.Memory(row) for row in platform["memory"]}
        self.scripts = dict(zip(self.rows, map(model.operations, scripts)))
        lines = report.split("\n")
        self.lines = [it for it in lines[1:-1] if not it[:1].isdigit() or it.count(" ") < 4]
        self.entries = [Entry(it) for it in lines[1:-1] if it[:1].isdigit() and it.count(" ") >= 4]
        self.accesses = {it.txn: it for it in self.entries if it.is_access}
        self.requests = {name: self.asked(name) for name in self.rows}

    def expect(self, holds, what):
        if not holds:
            self.faults.append(what)

    # what the scripts ask for

    def route(self, name, address):
        """The hops of an address, each a name; the memory and the offset, if any; the latencies of the routers."""
        at, up, hops, before = self.rows[name]["bind"], name, [], 0
        while True:
            hops.append(f"{up}>{at}")
            if at not in self.routers:
                return hops, at, address, before
            before = later(before, self.routers[at].get("latency", 0))
            rows = self.routers[at].get("window", [])
            row = next((it for it in rows if it["first"] <= address <= it["last"]), None)
            if row is None:
                return hops, None, None, before
            up, at, address = at, row["to"], address - row["first"] + row.get("base", 0)

    def asked(self, name):
        found = []
        for words in self.scripts[name]:
            reply = None
            for way, command, address, data, enables, width in asked_by(words):
                if data is None:
                    data = reply
                    if words[0] == "add":
                        total = int.from_bytes(reply, "little") + model.number(words[2])
                        data = (total % 2**32).to_bytes(4, "little")
                found.append(Request(len(found), way, command, address, data, enables, width, words[0] not in PLAIN))
                entry = self.accesses.get(f"{name}.{len(found) - 1}")
                reply = bytes.fromhex(entry.data) if entry and command == "read" else data
        return found

    # accesses, and one plain store

    def check_access(self, entry):
        requests = self.requests[entry.name]
        self.expect(entry.seq < len(requests), f"{entry.txn}: no such request")
        if entry.seq >= len(requests):
            return
        it = requests[entry.seq]
        _, memory, offset, _ = self.route(entry.name, it.address)
        style = self.rows[entry.name]["style"]
        ways = ("debug",) if it.way == "debug" else ("blocking", "direct") if style == "direct" else (style,)
        self.expect(it.way != "invalidate" and entry.kind in ways, f"{entry.txn}: way {entry.kind}")
        self.expect((entry.object, entry.offset) == (memory, offset), f"{entry.txn}: not at its place")
        same = (entry.command, entry.length, entry.enables, entry.width) == (it.command, len(it.data), it.enables, it.width)
        self.expect(same, f"{entry.txn}: not what its script asks for")
        if entry.object in self.memories:
            self.check_store(entry, it, self.memories[entry.object])

    def check_store(self, entry, it, memory):
        data, enables = bytearray(it.data), bytes.fromhex(it.enables)
        if it.way == "debug":
            self.expect((entry.status, entry.data) == ("ok", bytes(memory.bytes[entry.offset : entry.offset + len(data)]).hex()), f"{entry.txn}: debug read")
            return
        status = memory.status(it.command, entry.offset, len(data), enables, it.width)
        if status == "ok" and it.command != "ignore":
            memory.move(it.command, entry.offset, data, enables, it.width)
        self.expect(entry.status == status, f"{entry.txn}: status {entry.status}, not {status}")
        self.expect(entry.data == bytes(data).hex(), f"{entry.txn}: data {entry.data}, not {bytes(data).hex()}")
        self.expect(entry.sent == (it.data.hex() if it.command == "fetch_add" else ""), f"{entry.txn}: operand")

    def check_answers(self):
        told = collections.Counter(it.txn for it in self.entries if it.is_access)
        for name, requests in self.requests.items():
            for it in requests:
                wanted = 0 if it.way == "invalidate" or self.route(name, it.address)[1] is None else 1
                self.expect(told.pop(f"{name}.{it.seq}", 0) == wanted, f"{name}.{it.seq}: not answered {wanted} times")
        self.expect(not told, f"accesses of nobody: {list(told)}")

    # blocking and direct initiators

    def check_others(self, name, it, own, current, latencies):
        """The entries of a request that are no accesses: of an invalidation, or the grant after an access."""
        told = [e.kind for e in own if not e.is_access]
        _, memory, offset, _ = self.route(name, it.address)
        if it.way == "invalidate":
            self.expect(told == ["invalidated"] * (memory is not None) + ["closed"] * (len(told) - 1), f"{name}.{it.seq}: {told}")
            for e in own:
                last = later(offset, it.width - 1)
                self.expect((e.object, e.time) == (memory, current), f"{e.txn}: not at its place and time")
                self.expect(e.kind == "closed" or (e.first, e.last) == (offset, last), f"{e.txn}: range {e.rest}")
        elif it.way == "access":
            self.expect(told in ([], ["granted"]), f"{name}.{it.seq}: {told}")
            self.expect(all(e.time == later(current, latencies) for e in own if e.kind == "granted"), f"{name}.{it.seq}: time of the grant")
        else:
            self.expect(not told, f"{name}.{it.seq}: {told}")

    def check_decoupled(self, name):
        """The times and syncs of a blocking or direct initiator; answers its syncs, its end and its refused lines."""
        of = collections.defaultdict(list)
        for it in self.entries:
            if it.name == name:
                of[it.seq].append(it)
        now = local = syncs = number = 0
        last, refused = -1, []
        for words in self.scripts[name]:
            for way, command, *_ in asked_by(words):
                it = self.requests[name][number]
                _, memory, _, before = self.route(name, it.address)
                entry, current = self.accesses.get(f"{name}.{number}"), later(now, local)
                it.issued, takes_time = current, way == "access"
                latencies = before + (self.memories[memory].row.get("latency", 0) if memory else 0)
                if memory is None and way != "invalidate":
                    refused.append((name, it, "debug" if way == "debug" else command))
                elif entry:
                    self.expect(entry.time == (later(current, before) if entry.kind == "blocking" else current), f"{entry.txn}: time {entry.time}")
                self.check_others(name, it, of[number], current, latencies)
                for e in of[number]:
                    self.expect(e.position > last, f"{e.txn}: out of order")
                    last = e.position
                if takes_time:
                    local = later(local, latencies)
                number += 1
            if words[0] == "wait":
                local = later(local, model.number(words[1]))
            due = now - now % self.quantum + self.quantum if self.quantum else 0
            if words[0] == "sync" or later(now, local) >= min(due, MOST):
                now, local, syncs = later(now, local), 0, syncs + 1
        return syncs, later(now, local), refused

    # four-phase traffic

    def modes(self, hop):
        up, down = hop.split(">")
        answers = self.rows[up].get("response", "accept") if up in self.rows else "accept"
        row = self.routers.get(down) or self.memories[down].row
        takes = row.get("accept", "accept") if down in self.routers else row.get("reply", "accept")
        return takes, answers, row.get("lanes", 4), row.get("latency", 0), down in self.memories

    def sequences(self, hop, is_refused):
        """The sequences that the components at the two ends make, with the first calls that are told apart."""
        takes, answers, *_ = self.modes(hop)
        ending = ENDINGS[answers]
        if takes == "complete":
            return [[("BEGIN_REQ", "COMPLETED")]]
        if takes == "begin_resp":
            return [[("BEGIN_REQ", "UPDATED BEGIN_RESP"), ("END_RESP", "COMPLETED")], [("BEGIN_REQ", "UPDATED END_REQ"), *ending]]
        if takes == "end_req":
            return [[("BEGIN_REQ", "UPDATED END_REQ"), *ending]]
        if takes == "short" or is_refused:
            return [[("BEGIN_REQ", "ACCEPTED"), *ending]]
        return [[("BEGIN_REQ", "ACCEPTED"), ("END_REQ", "ACCEPTED"), *ending]]

    def check_hop(self, hop, calls):
        """Exclusion, lanes and the choice of an answer on a hop; notes what each call knows of those before it."""
        takes, _, lanes, *_ = self.modes(hop)
        request, response, begun, request_end, response_end = None, None, {}, 0, 0
        for it in calls:
            it.request_end, it.response_end, it.last = request_end, response_end, begun.get(it.txn, 0)
            ends_request = it.kind == "END_REQ" or it.kind == "BEGIN_REQ" and it.rest != "ACCEPTED"
            ends_request |= it.kind == "BEGIN_RESP" and request == it.txn
            if it.kind == "BEGIN_REQ":
                self.expect(request is None, f"{it.txn} on {hop}: a second request")
                self.expect(it.txn not in begun and len(begun) < lanes, f"{it.txn} on {hop}: no lane")
                if takes == "begin_resp":
                    wanted = "UPDATED BEGIN_RESP" if response is None else "UPDATED END_REQ"
                    self.expect(it.rest == wanted, f"{it.txn} on {hop}: answered {it.rest}")
            brings = it.kind == "BEGIN_RESP" or it.rest == "UPDATED BEGIN_RESP"
            self.expect(not brings or response in (None, it.txn), f"{it.txn} on {hop}: a second response")
            request = it.txn if it.kind == "BEGIN_REQ" and it.rest == "ACCEPTED" else None if request == it.txn else request
            begun[it.txn] = it.time
            if it.kind == "END_RESP" or it.kind == "BEGIN_RESP" and it.rest != "ACCEPTED":
                response_end = max(response_end, it.time)
            if it.kind == "END_RESP" or it.rest == "COMPLETED" or it.rest == "UPDATED END_RESP":
                begun.pop(it.txn)
                response = None if response == it.txn else response
            elif brings:
                response = it.txn
            if ends_request:
                request_end = it.time

    def check_pool(self, name, moves):
        live, slots = {}, self.rows[name].get("pool", 4)
        for it in moves:
            slot = int(it.rest.split(" ")[0])
            if it.kind == "take":
                least = next((k for k in range(slots) if k not in live), None)
                self.expect(slot == least, f"{it.txn}: took {slot}, not {least}")
                live[slot] = [it.txn, 1]
                continue
            self.expect(live.get(slot, [None])[0] == it.txn, f"{it.txn}: slot {slot} isn't its own")
            if live.get(slot, [None])[0] != it.txn:
                continue
            live[slot][1] += 1 if it.kind == "acquire" else -1
            self.expect(it.rest.endswith(" freed") == (live[slot][1] == 0), f"{it.txn}: freed or not")
            if live[slot][1] == 0:
                del live[slot]
        self.expect(not live, f"{name}.pool: live at the end")

    def check_passage(self, it, name, own, current):
        """The entries of one four-phase access: sequences, orders, references and times. Answers its end."""
        txn, (hops, memory, _, _) = f"{name}.{it.seq}", self.route(name, it.address)
        calls = [[e for e in own if e.object == hop] for hop in hops]
        self.expect(sum(map(len, calls)) == sum(e.is_call for e in own), f"{txn}: calls off its way")
        for k, hop in enumerate(hops):
            is_refused = memory is None and k + 1 == len(hops)
            said = [(e.kind, e.rest) for e in calls[k]]
            self.expect(said in self.sequences(hop, is_refused), f"{txn} on {hop}: {said}")
            if said not in self.sequences(hop, is_refused):
                return 0
        at = lambda kind: [next((e for e in each if e.kind == kind), None) for each in calls]
        begins, answers, ends = at("BEGIN_REQ"), at("BEGIN_RESP"), at("END_RESP")
        latencies = [self.modes(hop)[3] for hop in hops]
        access, last = self.accesses.get(txn), len(hops) - 1
        moves = {kind: [e for e in own if e.kind == kind] for kind in ("take", "acquire", "release")}
        self.check_orders(txn, own, calls, begins, answers, ends, access, moves)
        up, rsp = [0] * len(hops), [0] * len(hops)
        for k in range(last, -1, -1):
            up[k] = later(begins[k].time, latencies[k]) if k == last else rsp[k + 1]
            rsp[k] = answers[k].time if answers[k] else up[k]
        for k, hop in enumerate(hops):
            arrives = current if k == 0 else later(begins[k - 1].time, latencies[k - 1])
            self.expect(moves["acquire"][k : k + 1] and moves["acquire"][k].time == arrives, f"{txn}: time of acquire {k}")
            self.expect(begins[k].time == max(arrives, begins[k].request_end), f"{txn} on {hop}: time of BEGIN_REQ")
            for e in calls[k]:
                if e.kind == "END_REQ":
                    wanted = begins[k].time if self.modes(hop)[4] else begins[k + 1].time
                    self.expect(e.time == wanted, f"{txn} on {hop}: time of END_REQ")
                if e.kind == "BEGIN_RESP":
                    self.expect(e.time == max(up[k], e.last, e.response_end), f"{txn} on {hop}: time of BEGIN_RESP")
                if e.kind == "END_RESP":
                    self.expect(e.time == max(rsp[max(k - 1, 0)], e.last), f"{txn} on {hop}: time of END_RESP")
        self.expect([e.time for e in moves["take"]] == [current], f"{txn}: time of take")
        self.expect(not access or access.time == begins[last].time, f"{txn}: time of the access")
        over = [rsp[k] if len(calls[k]) == 1 else calls[k][-1].time for k in range(len(hops))]
        self.expect(sorted(e.time for e in moves["release"]) == sorted([*over, over[0]]), f"{txn}: times of releases")
        return over[0]

    def check_orders(self, txn, own, calls, begins, answers, ends, access, moves):
        def stand(*entries):
            places = [e.position for e in entries if e is not None]
            self.expect(places == sorted(places), f"{txn}: out of order at {places}")

        stand(*begins, access)
        for k, each in enumerate(calls):
            stand(moves["acquire"][k] if k < len(moves["acquire"]) else None, begins[k])
            stand(begins[k - 1] if k else None, moves["acquire"][k] if k < len(moves["acquire"]) else None)
            stand(access, answers[k])
            if k + 1 < len(calls):
                stand(begins[k + 1], next((e for e in each if e.kind == "END_REQ"), None))
                stand(answers[k + 1] or begins[k + 1], answers[k])
            stand(calls[k - 1][-1] if k else None, ends[k])
        self.expect(len(moves["acquire"]) == len(calls), f"{txn}: acquired {len(moves['acquire'])} times")
        self.expect(len(moves["release"]) == len(calls) + 1, f"{txn}: released {len(moves['release'])} times")
        self.expect(own[0].kind == "take" and own[-1].rest.endswith(" freed"), f"{txn}: not from take to freed")

    def check_fourphase(self, name):
        """The traffic of a four-phase initiator; answers its syncs, its end and its refused lines."""
        of = collections.defaultdict(list)
        for it in self.entries:
            if it.name == name:
                of[it.seq].append(it)
        current, ends, number, refused, settled = 0, [0], 0, [], -1
        for words in self.scripts[name]:
            asked = asked_by(words)
            for way, command, *_ in asked or [(None, None)]:
                if words[0] not in PLAIN:
                    current = max(current, *ends)
                    before = [e.position for s in range(number) for e in of[s] if e.object == f"{name}>{self.rows[name]['bind']}"]
                    settled = max([settled, *before])
                if way is None:
                    continue
                it, own = self.requests[name][number], of[number]
                it.issued = current
                self.expect(all(e.position > settled for e in own), f"{name}.{number}: begun too early")
                is_routed = self.route(name, it.address)[1] is not None
                if way == "invalidate":
                    self.check_others(name, it, own, current, 0)
                elif way == "debug":
                    self.expect(all(e.is_access and e.time == current for e in own), f"{name}.{number}: debug read")
                else:
                    self.expect(own, f"{name}.{number}: nothing of it")
                    ends.append(self.check_passage(it, name, own, current) if own else 0)
                if not is_routed and way != "invalidate":
                    refused.append((name, it, "debug" if way == "debug" else command))
                number += 1
            if words[0] == "wait":
                current = later(current, model.number(words[1]))
        return 0, max(current, *ends), refused

    # grants

    def serves(self, grant, name, it):
        """Whether a grant of the initiator serves the request: its kind allows the command, and each byte leads into its range."""
        if grant.name != name or not it.is_plain or grant.rest.split(" ")[2] not in (it.command, "both"):
            return False
        ways = (self.route(name, it.address + k) for k in range(len(it.data)))
        return all(memory == grant.object and grant.first <= offset <= grant.last for _, memory, offset, _ in ways)

    def asks(self, entry):
        """Whether a grant is asked for after this entry of a direct initiator."""
        if entry is None or entry.kind != "blocking" or self.rows[entry.name]["style"] != "direct":
            return False
        return self.requests[entry.name][entry.seq].is_plain and entry.status == "ok" and self.memories[entry.object].row.get("dmi", True)

    def check_grants(self):
        first, place = {}, 0
        for name, memory in self.memories.items():
            first[name], place = place, place + memory.row.get("gates", 16)
        given, closed, cuts, last = {}, {}, [], collections.defaultdict(lambda: None)
        for it in self.entries:
            before, last[it.name] = last[it.name], it
            if it.kind == "granted":
                self.check_granted(it, before, first, given)
                given[it.gate] = it
            else:
                self.check_answered(before, first, given)
            if it.kind == "direct":
                self.expect(it.gate in given and it.gate not in closed, f"{it.txn}: gate {it.gate} isn't open")
                is_served = it.gate in given and self.serves(given[it.gate], it.name, self.requests[it.name][it.seq])
                self.expect(is_served and it.status == "ok", f"{it.txn}: its grant doesn't serve it")
            elif it.is_access and self.rows[it.name]["style"] == "direct":
                held = [x for x in given.values() if self.serves(x, it.name, self.requests[it.name][it.seq])]
                self.expect(all(any(x.is_cut_by(y) for y in cuts) for x in held), f"{it.txn}: a grant serves it")
            for y in cuts:
                if y.name == it.name and y.seq < it.seq:
                    self.check_returned(y, given, closed)
            if it.kind == "closed":
                ended = it.gate in given and any(y.txn == it.txn and given[it.gate].is_cut_by(y) for y in cuts)
                self.expect(ended and it.gate not in closed, f"{it.txn}: closes gate {it.gate}")
                closed[it.gate] = it
            if it.kind == "invalidated":
                cuts.append(it)
        for name in self.rows:
            self.check_answered(last[name], first, given)
        for y in cuts:
            self.check_returned(y, given, closed)

    def check_granted(self, it, before, first, given):
        row, taken = self.memories[it.object].row, sum(x.object == it.object for x in given.values())
        self.expect(it.gate == first[it.object] + taken and taken < row.get("gates", 16), f"{it.txn}: gate {it.gate}")
        kinds = {(True, True): "both", (True, False): "read", (False, True): "write"}
        kind = kinds[row.get("read", True), row.get("write", True)]
        self.expect(it.rest.endswith(f" 0x0-{row['size'] - 1:#x} {kind}"), f"{it.txn}: granted {it.rest}")
        self.expect(self.asks(before) and (before.txn, before.object) == (it.txn, it.object), f"{it.txn}: a grant that wasn't asked for")

    def check_answered(self, before, first, given):
        if self.asks(before):
            gates = self.memories[before.object].row.get("gates", 16)
            is_spent = all(first[before.object] + k in given for k in range(gates))
            self.expect(is_spent, f"{before.txn}: no grant after it")

    def check_returned(self, cut, given, closed):
        for gate, x in given.items():
            self.expect(not x.is_cut_by(cut) or gate in closed, f"{cut.txn}: gate {gate} isn't closed")

    # the whole report

    def check_ends(self):
        lines = []
        for name, row in self.rows.items():
            check = self.check_fourphase if row["style"] == "fourphase" else self.check_decoupled
            syncs, end, refused = check(name)
            counts = f"transactions {len(self.requests[name])} refused {len(refused)} syncs {syncs} end {end}"
            lines.append(f"initiator {name} {row['style']} {counts}")
            lines += [f"refused {who}.{it.seq} {it.issued} {word} {it.address:#x}" for who, it, word in refused]
        for name, memory in self.memories.items():
            lines.append(f"memory {name} {len(memory.bytes)}")
            rows = [(at, memory.bytes[at : at + 16]) for at in range(0, len(memory.bytes), 16)]
            lines += [f"{at:08x} {bytes(row).hex()}" for at, row in rows if any(row)]
        lines.append(f"end {len(self.entries)}")
        for told, wanted in zip(self.lines, lines):
            self.expect(told == wanted, f"'{told}', not '{wanted}'")
        self.expect(len(self.lines) == len(lines), "not as many lines at the end")

    def check(self):
        self.expect([it.position for it in self.entries] == list(range(len(self.entries))), "positions")
        for it in self.entries:
            if it.is_access:
                self.check_access(it)
        self.check_answers()
        at = collections.defaultdict(list)
        for it in self.entries:
            at[it.object].append(it)
        for name, entries in at.items():
            if ">" in name:
                self.check_hop(name, entries)
            elif name.endswith(".pool"):
                self.check_pool(name.removesuffix(".pool"), entries)
        self.check_grants()
        self.check_ends()
        return self.faults


def faults_of(platform, report):
    """What is wrong with a report of a platform file, whose scripts stand where it says."""
    with open(platform, "rb") as it:
        rows = tomllib.load(it)
    return Checker(rows, [model.text_of(row["script"]) for row in rows["initiator"]], report).check()
