"""Runs the gate and says what each crate's library, tests and edits took: it looks at the provers twice a second."""

import os
import subprocess
import sys
import threading
import time

import common

TICKS = os.sysconf("SC_CLK_TCK")
PARTS = ("library", "tests", "edits")


def read(path):
    with open(path, "rb") as it:
        return it.read()


def children_of(top):
    """The processes below one, with what tells them apart from later ones of the same number, and their processor time."""
    above, found = {}, {}
    for pid in filter(str.isdigit, os.listdir("/proc")):
        try:
            fields = read(f"/proc/{pid}/stat").rsplit(b")", 1)[1].split()
        except OSError:
            continue
        above[int(pid)] = int(fields[1])
        found[int(pid)] = (int(pid), int(fields[19])), (int(fields[11]) + int(fields[12])) / TICKS

    def is_below(pid):
        while pid in above and pid != top:
            pid = above[pid]
        return pid == top

    return {pid: it for pid, it in found.items() if is_below(pid)}


def part_of(pid):
    """The crate that a prover works on, and for which part; None for other processes."""
    try:
        words = read(f"/proc/{pid}/cmdline").decode(errors="replace").split("\0")
        folder = os.readlink(f"/proc/{pid}/cwd")
    except OSError:
        return None
    if "--crate-name" not in words:
        return None
    name = words[words.index("--crate-name") + 1]
    if "/rt-edit-" in folder:
        return name, "edits"
    return name, "tests" if "--test" in words else "library"


class Watch(threading.Thread):
    """Notes the processor time of each prover below a process."""

    def __init__(self, top):
        super().__init__(daemon=True)
        self.top, self.parts, self.times, self.ended = top, {}, {}, threading.Event()

    def run(self):
        while not self.ended.wait(0.5):
            for pid, (key, seconds) in children_of(self.top).items():
                part = part_of(pid)
                if part:
                    self.parts[key], self.times[key] = part, seconds

    def sums(self):
        found = {}
        for key, part in self.parts.items():
            found[part] = found.get(part, 0) + self.times[key]
        return found


def table_of(sums):
    """The table in Markdown, the dearest crate first."""
    rows = common.crates()
    names = sorted({name for name, _ in sums}, key=lambda it: -sum(sums.get((it, part), 0) for part in PARTS))
    lines = ["| Crate | Library | Tests | Edits | All |", "|---|---:|---:|---:|---:|"]
    for name in names:
        cells = [sums.get((name, part), 0) for part in PARTS]
        lines.append(f"| `{name}` | " + " | ".join(f"{it:.0f}" for it in [*cells, sum(cells)]) + " |")
    totals = [sum(seconds for (_, kind), seconds in sums.items() if kind == part) for part in PARTS]
    lines.append("| all, in minutes | " + " | ".join(f"{it / 60:.1f}" for it in [*totals, sum(totals)]) + " |")
    cost = {name: sums.get((name, "library"), 0) for name in rows}
    chain = common.longest_chain(rows, cost)
    lines += ["", f"Processor time in seconds. The longest chain of libraries takes {max(chain.values()) / 60:.1f} minutes."]
    return "\n".join(lines) + "\n"


def run(names, anew, table):
    began = time.time()
    lanes = os.environ.get("RT_JOBS") or str(min(os.cpu_count() or 2, 4))
    started = subprocess.Popen(["rt", "ci", *["--anew"] * anew, *names], cwd=common.ROOT, env={**os.environ, "RT_JOBS": lanes})
    watch = Watch(started.pid)
    watch.start()
    status = started.wait()
    watch.ended.set()
    text = table_of(watch.sums())
    print(text + f"Begun to ended: {common.clock(time.time() - began)}.")
    if table:
        with open(table, "w", encoding="utf-8") as out:
            out.write(text)
    return status


if __name__ == "__main__":
    sys.exit("tools/prove --gate runs this")
