"""Proves crates of this repository side by side, and builds its programs.

    build.py [--check] [CRATE...]
    build.py --check CRATE --only FUNCTION
    build.py --text

Proves the crates that are named and those below them, each once the crates that it stands on are there: as many at a
time as processors and memory allow, the longest chain of crates first. A program among them is built and left in
build/bin; with `--check` nothing is left there. Without a name: the programs of the product, or every crate with
`--check`. With `--only` the crates below are proved, and of the crate itself one function with what it calls.

What was proved lies in crates/*/out/build and is taken again where neither the crate nor anything below it changed.
`--check` also says which crates the gate would refuse for their text alone, before any proof; `--text` says that alone.
JOBS=N says how many processors may be used. `rt ci` decides on a change: it proves everything from nothing.
"""

import hashlib
import os
import re
import shutil
import signal
import subprocess
import sys
import time
from concurrent.futures import FIRST_COMPLETED, ThreadPoolExecutor, wait

TOP = os.path.dirname(os.path.dirname(os.path.abspath(__file__)))
KIT = os.path.dirname(subprocess.run(["rt", "doc"], stdout=subprocess.PIPE, text=True, check=True).stdout.strip())
sys.path.insert(0, os.path.join(KIT, "bin"))

import link  # noqa: E402
import rtlib  # noqa: E402  (the kit's own module: it knows the words that a crate is proved with)

below = rtlib.Crate.below


def below_once(crate):
    """The crates below a crate. The kit's own goes along every path of crates.txt anew, of which there are many."""
    if not hasattr(crate, "all_below"):
        crate.all_below = below(crate)
    return [*crate.all_below]


rtlib.Crate.below = below_once

# The crates of the product's programs, and the programs whose name is not that of their crate.
PRODUCT = ["modulecmd_main", "module_main"]
NAMES = {"modulecmd_main": "modulecmd", "module_main": "module"}
MOST_JOBS = 4  # of one crate: more of them gain nothing
GIVES_WAY = ["nice", "-n", "10"]  # before a command that others don't wait for
# The prover's allocator keeps what is freed: proofs take a twentieth less.
PROVER_ENVIRONMENT = {"MIMALLOC_PURGE_DELAY": "-1", **os.environ}
SHOWN_LINES = 30


def processors():
    """How many processors may be used. More processes than that are begun, so they are kept to these."""
    allowed = sorted(os.sched_getaffinity(0))
    jobs = os.environ.get("JOBS", "")
    if jobs.isdigit() and int(jobs) > 0:
        allowed = allowed[: int(jobs)]
        os.sched_setaffinity(0, allowed)
    return len(allowed)


def free_memory():
    """Bytes, under the limit of the control group too."""
    found = [1024 * rtlib.number_in("/proc/meminfo", r"MemAvailable:\s+(\d+)")]
    for limit, held in rtlib.GROUPS:
        limit, held = rtlib.number_in(limit, r"(\d+)"), rtlib.number_in(*held)
        if limit and held is not None:
            found.append(limit - held)
    return min(found)


def lines_of(crate, ending):
    return sum(rtlib.text_of(file).count("\n") for file in rtlib.files_of(crate.folder) if file.endswith(ending))


def clock(seconds):
    return f"{int(seconds) // 60}:{int(seconds) % 60:02}"


def remove(path):
    """Removes a file or a folder, if it is there."""
    if os.path.isdir(path):
        shutil.rmtree(path)
    elif os.path.lexists(path):
        os.remove(path)


class Work:
    """One crate to be proved, or built where it is a program."""

    def __init__(self, crate, below):
        self.crate, self.name, self.below = crate, crate.name, below
        self.room = os.path.join(crate.folder, "out", "build")
        self.made = os.path.join(self.room, self.name if crate.is_program else f"{self.name}.rlib")
        self.all_below = [*dict.fromkeys(work for it in below for work in [*it.all_below, it])]
        self.lines = lines_of(crate, ".rt"), lines_of(crate, ".antt")
        self.source = self.source_sum()
        self.stamp = self.stamp_of()
        self.behind = 0.0
        self.seconds = 0.0

    def file(self, name):
        return os.path.join(self.room, name)

    def cost(self):
        """Processor seconds: those of the last time, or about as many as its lines of code take."""
        known = rtlib.text_of(self.file("seconds"))
        return float(known) if known else 10 + 0.12 * self.lines[0]

    def memory(self):
        """Bytes that a proof from nothing may take, by its own lines and those of the crates that it loads."""
        loaded = sum(it.lines[0] for it in self.all_below)
        return 1_200_000_000 + 1_000_000 * self.lines[0] + 50_000 * self.lines[1] + 40_000 * loaded

    def source_sum(self):
        """What the crate's own files hold."""
        sum_of = hashlib.sha256()
        for file in rtlib.files_of(self.crate.folder):
            with open(file, "rb") as it:
                sum_of.update(repr((os.path.relpath(file, self.crate.folder), it.read())).encode())
        return sum_of.hexdigest()

    def stamp_of(self):
        """What says that neither the toolchain, the crate nor anything below it changed."""
        made_from = (rtlib.text_of(f"{KIT}/KIT-ID"), self.crate.said, self.source, [it.stamp for it in self.below])
        return hashlib.sha256(repr(made_from).encode()).hexdigest()

    def is_there(self):
        return os.path.exists(self.made) and rtlib.text_of(self.file("stamp")) == self.stamp

    def words(self, jobs):
        """The words for the prover. The crates above a library load its statements and not its proofs."""
        words = [rtlib.RATTLE, "build", *self.crate.words(["--jobs", str(jobs)], keeps=False)]
        if self.crate.is_program:
            return [*words, "--toolchain", f"{KIT}/toolchain", "--backend", "llvm", "-o", self.object_file()]
        return [*words, "--statements", "-o", self.made]

    def object_file(self):
        """The object of a program, which is linked."""
        return f"{self.made}.o"

    def run(self, words):
        """Runs a command behind the log, and gives its status."""
        with open(self.file("log"), "ab") as log:
            how = {"stdin": subprocess.DEVNULL, "stdout": log, "stderr": subprocess.STDOUT, "env": PROVER_ENVIRONMENT}
            started = subprocess.Popen([*rtlib.guarded(), *words], cwd=self.crate.folder, **how)
            _, status, used = os.wait4(started.pid, 0)
        started.returncode = os.waitstatus_to_exitcode(status)
        self.seconds += used.ru_utime + used.ru_stime
        return started.returncode

    def do(self, jobs, leads):
        """Proves the crate, builds it where it is a program, and gives whether that went well."""
        before = [] if leads else GIVES_WAY
        for name in ("stamp", "log"):
            remove(self.file(name))
        remove(self.made)
        os.makedirs(self.room, exist_ok=True)
        status = self.run([*before, *self.words(jobs)])
        if status == -signal.SIGKILL and jobs > 1:
            # most likely for want of memory
            status = self.run([*before, *self.words(1)])
        is_proved = status == 0 and re.search(r"^logic=proved ", rtlib.text_of(self.file("log")), re.M)
        if not is_proved or (self.crate.is_program and self.run(link.kit_link(KIT, self.object_file(), self.made))):
            return False
        # A text that changed in the meantime is proved again the next time.
        if self.source == self.source_sum():
            self.note("stamp", self.stamp)
            self.note("seconds", f"{self.seconds:.0f}")
        return True

    def check(self, function):
        """Proves one function and what it calls, over what earlier checks kept, and gives whether that went well."""
        remove(self.file("log"))
        os.makedirs(self.room, exist_ok=True)
        words = self.crate.words(["--jobs", "1", "--only", function])
        status = self.run([rtlib.RATTLE, "check", *words, "--incremental", self.file("kept")])
        print(self.last_lines(), flush=True)
        return status == 0

    def note(self, name, text):
        with open(self.file(name), "w", encoding="utf-8") as it:
            it.write(text)

    def last_lines(self):
        """The end of what the prover said, without what it loaded."""
        lines = (rtlib.text_of(self.file("log")) or "").rstrip("\n").split("\n")
        return "\n".join([it for it in lines if not it.startswith(("statements ", "logic "))][-SHOWN_LINES:])


def works_for(names):
    """The work for the crates of these names and for all below them, lowest first."""
    crates = rtlib.crates_below(TOP)
    for crate in crates:
        crate.rlib = os.path.join(crate.folder, "out", "build", f"{crate.name}.rlib")
    lacking = sorted({*names} - {it.name for it in crates})
    if lacking:
        sys.exit(f"crates.txt has no crate {lacking[0]}")
    wanted = [it for it in crates if not names or it.name in names]
    works = {}
    for crate in [it for one in wanted for it in [*one.below(), one]]:
        if crate.name not in works:
            works[crate.name] = Work(crate, [works[dep.name] for dep in crate.deps])
    for work in reversed([*works.values()]):
        work.behind += work.cost()
        for dep in work.below:
            dep.behind = max(dep.behind, work.behind)
    return [*works.values()]


def refused(crates):
    """The crates whose text the gate refuses as it stands, and why; the kit itself says more of a name that is taken."""
    found = []
    for crate in crates:
        try:
            rtlib.stop_on_text(crate, "verdict")
        except SystemExit:
            found.append((crate.name, "its text"))
            continue
        with open(os.devnull, "w", encoding="utf-8") as unread:
            if rtlib.fmt(crate.folder, "--check", unread):
                found.append((crate.name, "its layout: run `rt fmt` in its folder"))
    return found


def check_text():
    """Says which crates the gate refuses for their text alone, and gives whether there is none."""
    crates = rtlib.crates_below(TOP)
    unfit = refused(crates)
    for name, why in unfit:
        print(f"`rt ci` refuses {name} for {why}")
    print(f"of {len(crates)} crates, `rt ci` refuses {len(unfit)} for their text alone", flush=True)
    return not unfit


class Schedule:
    """Does works side by side, and says a line of each that ends."""

    def __init__(self, works):
        self.start = time.monotonic()
        self.done = [it for it in works if it.is_there()]
        self.left = sorted((it for it in works if it not in self.done), key=lambda it: -it.behind)
        self.running, self.failed = {}, []
        self.lanes, self.memory = processors(), 0.85 * free_memory()

    def say(self, text):
        names = ", ".join(sorted(work.name for work, _, _ in self.running.values())) or "none"
        counts = f"done {len(self.done)}, running {len(self.running)} ({names}), left {len(self.left)}"
        print(f"[{clock(time.monotonic() - self.start)}] {text}; {counts}", flush=True)

    def begin(self, pool):
        """Begins what can begin, the longest chain of crates first: its crate decides when all is done. So it gets copies
        for all processors, and the next one begins too, whatever else runs. The others, on as many processors as are left
        beside one, give way to it."""
        ready = [it for it in self.left if all(dep in self.done for dep in it.below)]
        for place, work in enumerate(ready):
            running = self.running.values()
            ahead = sum(other.behind >= work.behind for other, _, _ in running)
            idle = self.lanes - 1 - sum(jobs for _, jobs, _ in running)
            room = self.memory - sum(memory for _, _, memory in running)
            need = work.memory()
            if running and (self.lanes == 1 or (ahead > 1 and idle <= 0) or need > room):
                continue
            # (Copies share what was loaded before them and give back what they took: together they need less than one
            # process that keeps everything.)
            leads = ahead == 0
            jobs = min(MOST_JOBS, self.lanes if leads else max(1, idle // (len(ready) - place)))
            self.left.remove(work)
            self.running[pool.submit(work.do, jobs, leads)] = (work, 0 if leads else jobs, need)

    def end_one(self):
        for future in wait(self.running, return_when=FIRST_COMPLETED).done:
            work, _, _ = self.running.pop(future)
            if future.result():
                self.done.append(work)
                self.say(f"{work.name} {'built' if work.crate.is_program else 'proved'}")
            else:
                self.failed.append(work)
                self.say(f"{work.name} FAILED")
                print(work.last_lines(), flush=True)

    def run(self):
        """Gives whether all went well. After a failure nothing more is begun."""
        with ThreadPoolExecutor(self.lanes + 2) as pool:
            while self.running or (self.left and not self.failed):
                if not self.failed:
                    self.begin(pool)
                self.end_one()
        return not self.failed


def leave(work):
    """Puts a program that was built into build/bin: one of the product linked statically."""
    name, folder = NAMES.get(work.name, work.name), os.path.join(TOP, "build", "bin")
    if name in link.PRODUCT:
        link.leave(KIT, work.made, work.object_file(), folder, name)
        link.keep(work.object_file(), TOP, name)
    else:
        os.makedirs(folder, exist_ok=True)
        shutil.copy(work.made, os.path.join(folder, name))
    print(f"built build/bin/{name}")


def main(words):
    if words == ["--text"]:
        return 0 if check_text() else 1
    is_check = words[:1] == ["--check"]
    names = words[1:] if is_check else words or PRODUCT
    function = None
    if is_check and len(names) == 3 and names[1] == "--only":
        names, function = names[:1], names[2]
    works = works_for(names)
    # (the first call sets a signal's handler, which only the main thread may)
    rtlib.guarded()
    held = rtlib.lock([it.crate for it in works])
    unfit = refused(it.crate for it in works) if is_check else []
    for name, why in unfit:
        print(f"`rt ci` refuses {name} for {why}", flush=True)
    schedule = Schedule(works[:-1] if function else works)
    is_well = schedule.run() and (not function or works[-1].check(function))
    for it in held:
        os.close(it)
    if not is_well or unfit:
        return 1
    if function:
        return 0
    for work in works:
        if work.crate.is_program and work.name in names and not is_check:
            leave(work)
    minutes, spent = (time.monotonic() - schedule.start) / 60, sum(it.seconds for it in works) / 60
    print(f"{len(works)} crates are proved; it took {minutes:.1f} minutes, and {spent:.1f} of processor time.")
    print("`rt ci` decides on a change: it proves everything from nothing.")
    return 0


if __name__ == "__main__":
    try:
        sys.exit(main(sys.argv[1:]))
    except KeyboardInterrupt:
        print("stopped", flush=True)
        # (what was begun ends with this process)
        os._exit(130)
