"""Times whole runs of programs in turns, and says on which machine. The scripts of this folder use it; see README.md."""
import os
import platform
import statistics
import subprocess
import time
from dataclasses import dataclass

PAGE = 4096


@dataclass
class Setting:
    """One of the things that are timed: its name, its words and what it adds to the environment (None takes a name away)."""
    name: str
    command: list
    environment: dict


@dataclass
class Run:
    seconds: float
    user: float
    system: float
    peak: int  # KiB; never below that of this program, which the system counts too
    faults: int
    status: int
    text: bytes

    @property
    def large(self):
        """Whether large pages came: pages of 4 KiB would not have been enough for half of the peak."""
        return self.faults * PAGE < self.peak * 1024 / 2


def run(setting, source=os.devnull, limit=None):
    """One run; its use of the machine is that of this child alone. `limit` gives seconds after which it is ended, with status 124."""
    environment = {**os.environ, **setting.environment}
    environment = {name: value for name, value in environment.items() if value is not None}
    with open(source, "rb") as rows:
        start = time.monotonic()
        child = subprocess.Popen(setting.command, stdin=rows, stdout=subprocess.PIPE, env=environment)
        text = child.stdout.read()
        _, state, used = os.wait4(child.pid, 0)
        seconds = time.monotonic() - start
    child.returncode = os.waitstatus_to_exitcode(state)
    child.stdout.close()
    return Run(seconds, used.ru_utime, used.ru_stime, used.ru_maxrss, used.ru_minflt, child.returncode, text)


def in_turns(settings, rounds, source=os.devnull):
    """The runs of each setting, one after another in rounds, so that what else the machine does falls on all alike."""
    runs = {setting.name: [] for setting in settings}
    for _ in range(rounds):
        for setting in settings:
            runs[setting.name].append(run(setting, source))
    return runs


def load():
    try:
        return " ".join(f"{part:.2f}" for part in os.getloadavg())
    except OSError:
        return "unknown"


def processor():
    try:
        with open("/proc/cpuinfo") as lines:
            names = [line.split(":", 1)[1].strip() for line in lines if line.startswith("model name")]
    except OSError:
        names = []
    name = names[0] if names else platform.processor() or platform.machine() or "unknown"
    count = len(os.sched_getaffinity(0)) if hasattr(os, "sched_getaffinity") else os.cpu_count()
    return f"{name}, {count} processors"


def large_pages():
    try:
        with open("/sys/kernel/mm/transparent_hugepage/enabled") as setting:
            return setting.read().strip()
    except OSError:
        return "unknown"


def memory():
    """The memory setting that all runs have."""
    bound = ", bound at the start" if "LD_BIND_NOW" in os.environ else ""
    return f"memory {os.environ.get('GLIBC_TUNABLES') or 'as the C library has it'}{bound}"


def commit(path):
    """The commit of the tree in which a file stands, with `-dirty` where the tree was changed since."""
    words = ["git", "-C", os.path.dirname(os.path.realpath(path)), "describe", "--always", "--dirty", "--abbrev=10"]
    try:
        done = subprocess.run(words, capture_output=True, text=True)
    except OSError:
        return "unknown"
    return done.stdout.strip() or "unknown"


def heading(program):
    print(f"{processor()}; large pages {large_pages()}; C library {' '.join(platform.libc_ver()).strip() or 'unknown'}")
    print(f"program of commit {commit(program)}; load before {load()}")


def quartiles(numbers):
    """The least, the first quartile and the median."""
    numbers = sorted(numbers)
    first = statistics.quantiles(numbers, n=4, method="inclusive")[0] if len(numbers) > 1 else numbers[0]
    return numbers[0], first, statistics.median(numbers)


def groups(runs):
    """The runs with large pages, and those without; a group without runs is left out."""
    parts = [("large", [one for one in runs if one.large]), ("small", [one for one in runs if not one.large])]
    return [(name, part) for name, part in parts if part]


COLUMNS = f"{'':36} {'pages':5} {'runs':>4} {'least':>7} {'quart.':>7} {'median':>7} {'user':>6} {'sys':>6} {'MiB':>7} {'faults':>7}"


def print_setting(name, runs):
    """A line for each group of the runs: seconds, and medians of processor time, peak memory and page faults."""
    for pages, part in groups(runs):
        least, first, median = quartiles([one.seconds for one in part])
        user, system, peak, faults = (
            statistics.median(getattr(one, field) for one in part) for field in ("user", "system", "peak", "faults"))
        print(f"{name:36} {pages:5} {len(part):4} {least:7.3f} {first:7.3f} {median:7.3f} "
              f"{user:6.3f} {system:6.3f} {peak / 1024:7.1f} {faults:7.0f}")


def print_faults(runs):
    """A line for each setting that failed or printed another text than the first one; tells whether there were none."""
    texts = {name: {one.text for one in part} for name, part in runs.items()}
    wanted = next(iter(next(iter(texts.values()))))
    good = True
    for name, part in runs.items():
        statuses = {one.status for one in part} - {0}
        if statuses or texts[name] != {wanted}:
            print(f"  {name}: status {sorted(statuses) or 0}, {'another text' if texts[name] != {wanted} else 'the same text'}")
            good = False
    return good
