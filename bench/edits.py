"""Counts what one edit of one variable costs over working environments of 10, 1,000 and 10,000 other variables.

    edits.py [PROGRAM]

builds `edits.rs` over the crates of this repository, if no program is given (a minute or two over what `make test` has
left, much longer from nothing), and counts by callgrind the instructions of whole runs, the C library's among them. A run makes the edit a number of times,
each time over a fresh working environment whose changes are then listed. What one edit costs is the difference of two
runs that differ in it alone: the second edit beside the first, so that the allocator has already given and taken back
once what an edit needs. Every run makes all three environments, so that the allocator holds the same whichever of them
is edited. The last line says how far the costs lie apart.
"""

import os
import re
import shutil
import subprocess
import sys
import tempfile

HERE = os.path.dirname(os.path.abspath(__file__))
TOP = os.path.dirname(HERE)
COLLECTED = re.compile(rb"Collected *: *(\d+)")

EDITS = {"set": 1, "front": 1, "back": 1, "drop": 1, "push": 2, "pop": 2}
SIZES = {"S": "10 others", "M": "1,000 others", "L": "10,000 others"}
LIMIT = 1.05


def below(crate):
    """The lines of crates.txt for the crate and all that it stands on in this repository."""
    with open(os.path.join(TOP, "crates.txt")) as file:
        lines = {line.split(":")[0].split()[0]: line for line in file if line.strip() and not line.startswith("#")}
    found, left = {}, [crate]
    while left:
        name = left.pop()
        if name in lines and name not in found:
            found[name] = lines[name]
            left += lines[name].partition(":")[2].split()
    return found


def built(folder):
    """The program, built over copies of the crates and of what their checks have kept."""
    crates = os.path.join(folder, "crates")
    source = os.path.join(crates, "edits", "src")
    os.makedirs(source)
    shutil.copy(os.path.join(HERE, "edits.rs"), os.path.join(source, "main.rt"))
    shutil.copy(os.path.join(TOP, "HANDLES"), folder)
    lines = below("envstate")
    for name in lines:
        shutil.copytree(os.path.join(TOP, "crates", name), os.path.join(crates, name))
    with open(os.path.join(folder, "crates.txt"), "w") as file:
        file.write("".join(lines.values()) + "edits: envstate\n")
    home = os.path.join(crates, "edits")
    done = subprocess.run(["rt", "run"], cwd=home, stdin=subprocess.DEVNULL, capture_output=True, check=False)
    program = os.path.join(home, "out", "edits")
    if not os.path.exists(program):
        sys.exit(f"edits was not built:\n{done.stdout.decode(errors='replace')}{done.stderr.decode(errors='replace')}")
    return program


def instructions(folder, program, edit, size, times):
    """The instructions of a run, which has to make the changes that it should."""
    done = subprocess.run(
        ["valgrind", "--tool=callgrind", "--callgrind-out-file=" + os.path.join(folder, "callgrind"), program],
        input=f"{edit} {size} {times}\n".encode(),
        env={},
        capture_output=True,
        check=False,
    )
    found = COLLECTED.search(done.stderr)
    if done.returncode != 0 or not found or done.stdout != f"{EDITS[edit] * times}\n".encode():
        sys.exit(f"{edit} {size} {times} ended with status {done.returncode} and wrote {done.stdout}")
    return int(found[1])


def main():
    widest = 1.0
    with tempfile.TemporaryDirectory() as folder:
        program = os.path.abspath(sys.argv[1]) if len(sys.argv) > 1 else built(folder)
        print(f"{'edit':8}" + "".join(f"{title:>16}" for title in SIZES.values()) + f"{'apart':>10}")
        for edit in EDITS:
            costs = []
            for size in SIZES:
                first = instructions(folder, program, edit, size, 1)
                costs.append(instructions(folder, program, edit, size, 2) - first)
            apart = max(costs) / min(costs)
            widest = max(widest, apart)
            print(f"{edit:8}" + "".join(f"{cost:16,}" for cost in costs) + f"{apart - 1:10.2%}", flush=True)
    print(f"at most {widest - 1:.2%} apart ({'within' if widest <= LIMIT else 'NOT within'} {LIMIT - 1:.0%})")
    return 0 if widest <= LIMIT else 1


if __name__ == "__main__":
    sys.exit(main())
