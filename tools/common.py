"""What the tools of this repository share: its crates, and how long commands take."""

import os
import shutil
import subprocess
import sys

ROOT = os.path.dirname(os.path.dirname(os.path.abspath(__file__)))

RUNNING = set()


def crates(root=ROOT):
    """The crates of crates.txt, each with those of this repository that it stands on."""
    rows = {}
    with open(f"{root}/crates.txt", encoding="utf-8") as lines:
        for line in lines:
            name, colon, below = line.partition("#")[0].partition(":")
            if colon:
                rows[name.split()[0]] = below.split()
    return {name: [it for it in below if it in rows] for name, below in rows.items()}


def with_below(names, rows):
    """These crates and all that they stand on."""
    found = []

    def add(name):
        for below in rows[name]:
            if below not in found:
                add(below)
        if name not in found:
            found.append(name)

    for name in names:
        if name not in rows:
            sys.exit(f"crates.txt has no crate {name}")
        add(name)
    return found


def is_program(name, root=ROOT):
    return os.path.isfile(f"{root}/crates/{name}/src/main.rt")


def longest_chain(rows, cost):
    """For each crate what the dearest chain of crates from it upwards costs."""
    above = {name: [it for it in rows if name in rows[it]] for name in rows}
    found = {}

    def chain(name):
        if name not in found:
            found[name] = cost[name] + max((chain(it) for it in above[name]), default=0)
        return found[name]

    for name in rows:
        chain(name)
    return found


def copy_sources(to, root=ROOT):
    """A copy of the repository's crates without what was made of them."""
    os.makedirs(to)
    for name in ("crates.txt", "HANDLES"):
        shutil.copy2(f"{root}/{name}", f"{to}/{name}")
    shutil.copytree(f"{root}/crates", f"{to}/crates", ignore=shutil.ignore_patterns("out"))


def link_tree(source, to):
    """Copies a folder, its files by links where these can be made."""
    shutil.rmtree(to, ignore_errors=True)

    def link(one, other):
        try:
            os.link(one, other)
        except OSError:
            shutil.copy2(one, other)

    shutil.copytree(source, to, copy_function=link)


def run_timed(command, folder, log):
    """Runs a command, and answers its status and its processor seconds."""
    with open(log, "w", encoding="utf-8") as out:
        started = subprocess.Popen(
            command, cwd=folder, stdin=subprocess.DEVNULL, stdout=out, stderr=subprocess.STDOUT
        )
        RUNNING.add(started)
        _, status, used = os.wait4(started.pid, 0)
        RUNNING.discard(started)
    started.returncode = os.waitstatus_to_exitcode(status)
    return started.returncode, used.ru_utime + used.ru_stime


def end_running():
    """Ends the commands that run."""
    for it in list(RUNNING):
        it.terminate()


def clock(seconds):
    return f"{int(seconds) // 60} min {int(seconds) % 60:2} s"
