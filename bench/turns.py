"""The table of turns.sh: the proved program and the plain one, or settings of the C library's memory, on the same commands."""
import os
import sys
import timing

LINES = {
    "make": ("65,536 rows of host:5, a count and a sum",
             ["host:5", "--number", "1", "--rows", "65536", "--query", "count host=0", "--query", "sum host<=1"]),
    "interval": ("16,320 rows of host:8, a sum over an interval",
                 ["host:8", "--number", "1", "--rows", "16320", "--query", "sum host=10..199"]),
    "four": ("32,513 rows of 4 columns of 5 bits, a sum with 4 predicates",
             ["c0:5,c1:5,c2:5,c3:5", "--number", "1", "--rows", "32513", "--query", "sum c0=1 c1=1 c2=1 c3=1"]),
    "sums": ("65,536 rows of host:1, 16 sums",
             ["host:1", "--number", "1", "--rows", "65536"] + ["--query", "sum host=0", "--query", "sum host=1"] * 8),
    "few": ("8,192 rows of host:5, a count", ["host:5", "--number", "1", "--rows", "8192", "--query", "count host=0"]),
}
USUAL = [name for name in LINES if name != "few"]
LARGE = "glibc.malloc.hugetlb=1"
HEAP = LARGE + ":glibc.malloc.mmap_threshold=1073741824:glibc.malloc.trim_threshold=1073741824"
# Each with what it sets for the C library's memory, and whether that library is bound at the start.
MEMORY = {
    "none": (None, False),
    "large pages, 32 MiB ahead": (LARGE + ":glibc.malloc.top_pad=33554432", False),
    "large, heap": (HEAP, False),
    "large, heap, bound": (HEAP, True),
    "large, heap, bound, 32 MiB ahead": (HEAP + ":glibc.malloc.top_pad=33554432", True),
    "large, heap, bound, one arena": (HEAP + ":glibc.malloc.arena_max=1", True),
    "large, heap, bound, two arenas": (HEAP + ":glibc.malloc.arena_max=2", True),
    "large, heap, bound, four arenas": (HEAP + ":glibc.malloc.arena_max=4", True),
}


def of_programs(words, proved, plain):
    """The proved program by 1 and 4 workers, and the plain one by 1, by 4, and by 4 that share too."""
    environment = {}
    settings = []
    if proved:
        settings += [timing.Setting(f"proved, {n}", [proved, "make", *words, "--workers", n], environment) for n in "14"]
    if plain:
        settings += [timing.Setting(f"plain, {n}", [plain, "make", *words, "--workers", n], environment) for n in "14"]
        settings.append(timing.Setting("plain, 4, sharing too", [plain, "make", *words, "--workers", "4", "--sharers", "4"], environment))
    return settings


def of_memory(words, program):
    """Each setting of the C library's memory, by 1 and by 4 workers."""
    return [timing.Setting(f"{name}, {n}", [program, "make", *words, "--workers", n],
                           {"GLIBC_TUNABLES": memory, "LD_BIND_NOW": "1" if bound else None})
            for name, (memory, bound) in MEMORY.items() for n in "14"]


RATIOS = [("proved, 1", "plain, 1"), ("proved, 4", "plain, 4"), ("proved, 4", "plain, 4, sharing too"), ("proved, 4", "proved, 1")]


def print_ratios(runs):
    """The time of one setting over another's, of the runs with the same pages alone."""
    for over, under in RATIOS:
        if over in runs and under in runs:
            tops, bottoms = dict(timing.groups(runs[over])), dict(timing.groups(runs[under]))
            for pages in tops.keys() & bottoms.keys():
                top, bottom = (timing.quartiles([one.seconds for one in part[pages]]) for part in (tops, bottoms))
                print(f"  {over} / {under}, {pages} pages: least {top[0] / bottom[0]:.2f}, quartile {top[1] / bottom[1]:.2f}, "
                      f"median {top[2] / bottom[2]:.2f}")


def main():
    what, rounds, proved, plain, *chosen = sys.argv[1:]
    good = True
    timing.heading(proved or __file__)
    print(f"{rounds} rounds{'' if what == 'memory' else '; ' + timing.memory()}\n{timing.COLUMNS}")
    for name in chosen or USUAL:
        title, words = LINES[name]
        settings = of_memory(words, proved or plain) if what == "memory" else of_programs(words, proved, plain)
        print(f"{name}: {title}", flush=True)
        runs = timing.in_turns(settings, int(rounds))
        for setting in settings:
            timing.print_setting("  " + setting.name, runs[setting.name])
        print_ratios(runs)
        good = timing.print_faults(runs) and good
        sys.stdout.flush()
    print(f"load after {timing.load()}")
    return 0 if good else 1


if __name__ == "__main__":
    sys.exit(main())
