"""The program of tools/schedule.rt.in, which runs a platform by a schedule. It is no crate of the repository: it is made
in a copy of it, and what is proved here is proved there."""

import os
import shutil
import subprocess
import sys

import common

BELOW = "tlm_types tlm_model outside one_history route_plan command_words plan_loads plat_core run_outcome trace_print good_history"


def crate(room):
    """A copy of the repository with that program."""
    common.copy_sources(f"{room}/copy")
    for name in common.with_below(BELOW.split(), common.crates()):
        if os.path.isdir(f"{common.ROOT}/crates/{name}/out/rlib"):
            common.link_tree(f"{common.ROOT}/crates/{name}/out/rlib", f"{room}/copy/crates/{name}/out/rlib")
    os.makedirs(f"{room}/copy/crates/schedule/src")
    shutil.copy2(f"{common.ROOT}/tools/schedule.rt.in", f"{room}/copy/crates/schedule/src/main.rt")
    with open(f"{room}/copy/crates.txt", "a", encoding="utf-8") as out:
        out.write(f"schedule: {BELOW}\n")
    return f"{room}/copy/crates/schedule"


def program(room):
    """The program, proved and built, which takes some minutes."""
    where = crate(room)
    made = subprocess.run(["rt", "run"], cwd=where, stdin=subprocess.DEVNULL, capture_output=True, text=True, check=False)
    if not os.path.isfile(f"{where}/out/schedule"):
        sys.exit(made.stdout + made.stderr)
    return f"{where}/out/schedule"
