"""Times launchers and the program alone in turns; launcher.sh says how it is called, README.md how its table is read."""
import statistics
import sys

import timing

WORDS = ["make", "host:1", "--number", "0", "--rows", "1", "--query", "count host=0"]
# What the shell sets for the scripts of this folder is left to the launchers.
UNSET = {"GLIBC_TUNABLES": None, "LD_BIND_NOW": None}


def main():
    rounds, program, launchers = int(sys.argv[1]), sys.argv[2], sys.argv[3:]
    settings = [timing.Setting("the program alone", [program, *WORDS], UNSET)]
    settings += [timing.Setting(name, [name, *WORDS], UNSET) for name in launchers]
    timing.in_turns(settings, 3)
    timing.heading(program)
    runs = timing.in_turns(settings, rounds)
    print(f"{rounds} rounds, in milliseconds\n{'least':>7} {'quart.':>7} {'median':>7} {'user+sys':>8}")
    for name, part in runs.items():
        times = timing.quartiles([one.seconds for one in part])
        used = statistics.median(one.user + one.system for one in part)
        print(" ".join(f"{1000 * time:7.2f}" for time in times) + f" {1000 * used:8.2f}  {name}")
    print(f"load after {timing.load()}")
    return 0 if timing.print_faults(runs) else 1


sys.exit(main())
