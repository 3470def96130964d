"""Says how long the proof of each function of a crate takes.

    proof_times.py CRATE [COUNT]

Proves the crate once more, on one processor, and lists the COUNT functions that take the most seconds by the clock (30),
and what the rest takes. The crates below have to be proved: `make check CRATE=name` does that. Run it with nothing
beside.

The prover saves each module that it has checked, in the order in which it checks them. The time of a module is the time
since the one before, and a function has some fifteen modules. What a function is the first to load counts as its own.
"""

import collections
import os
import re
import subprocess
import sys
import tempfile
import time

from build import rtlib, works_for

# The module of a function stands below its path: the model of its steps, its proof and others.
PARTS = "Answers|Code|Given|Goals|Invariants|Key|Kinds|Layout|Lts|Met|Named|Proof|Reads|Statement|Symbol|TheLink|Tie"
FUNCTION = re.compile(rf"Rattle-\w+-(?:proofs|specs)\.(?:contracts\.)?(.*?)\.(?:{PARTS})\b.*")
DEFINITIONS = re.compile(r"Rattle-\w+-specs\.(?!contracts\.)")


def prove(work, kept):
    """Proves the crate over an empty folder, and gives when that began. Where it fails, its last lines are the end."""
    words = work.crate.words(["--jobs", "1"])
    began = time.time()
    done = subprocess.run(
        [rtlib.RATTLE, "check", *words, "--incremental", kept],
        cwd=work.crate.folder, stdout=subprocess.PIPE, stderr=subprocess.STDOUT, text=True, check=False)
    if done.returncode:
        sys.exit("\n".join(done.stdout.splitlines()[-10:]))
    return began


def saved(kept):
    """The modules that a proof saved, with their times, in that order."""
    files = [os.path.join(at, name) for at, _, names in os.walk(kept) for name in names if name.endswith(".oantt")]
    return sorted((os.stat(it).st_mtime, os.path.basename(it)) for it in files)


def owner(module):
    """The function that a module belongs to, or what else it is."""
    if DEFINITIONS.match(module):
        return "(definitions)"
    found = FUNCTION.match(module)
    return found[1] if found else "(lemmas and the rest)"


def main(words):
    if len(words) not in (1, 2) or (len(words) == 2 and not words[1].isdigit()):
        sys.exit(__doc__)
    works = works_for(words[:1])
    lacking = [it.name for it in works[:-1] if not it.is_there()]
    if lacking:
        sys.exit(f"{', '.join(lacking)} below {words[0]} have to be proved first: make check CRATE={words[0]}")
    seconds = collections.Counter()
    with tempfile.TemporaryDirectory(prefix="proof-times-") as kept:
        last = began = prove(works[-1], kept)
        for when, module in saved(kept):
            seconds[owner(module)] += when - last
            last = when
    shown = seconds.most_common(int(words[1]) if len(words) == 2 else 30)
    for name, spent in shown:
        print(f"{spent:7.1f}  {name}")
    print(f"{last - began - sum(it for _, it in shown):7.1f}  {len(seconds) - len(shown)} others")


if __name__ == "__main__":
    main(sys.argv[1:])
