"""What a query by the buckets of a column costs beside a plain one; see groups.sh."""
import os
import statistics
import subprocess
import sys
import tempfile
import timing

ROWS = 65536
MANY = 16
WORKERS = ("1", "4")
AGGREGATES = ("count", "sum")


def name_of(command, count, aggregate, workers):
    return f"{command}, {count} x {aggregate}, {workers} worker{'s' if workers != '1' else ''}"


def setting(program, command, count, aggregate, workers):
    query = f"{aggregate} host<=15" + (" by host" if command == "groups" else "")
    words = [program, command, "host:5", "--workers", workers, *(["--query", query] * count)]
    return timing.Setting(name_of(command, count, aggregate, workers), words, {})


def settings(program):
    """One query over all rows and sixteen of them, of each command, each kind and each number of workers."""
    return [setting(program, command, count, aggregate, workers)
            for workers in WORKERS for aggregate in AGGREGATES for command in ("ask", "groups") for count in (1, MANY)]


def seconds_of_query(runs, command, aggregate, workers, middle):
    """The seconds of one query: what many take more than one, shared out."""
    one, many = (middle(run.seconds for run in runs[name_of(command, count, aggregate, workers)]) for count in (1, MANY))
    return (many - one) / (MANY - 1)


def print_ratios(runs):
    for what, middle in (("least", min), ("median", statistics.median)):
        for workers in WORKERS:
            for aggregate in AGGREGATES:
                plain, grouped = (seconds_of_query(runs, command, aggregate, workers, middle) for command in ("ask", "groups"))
                ratio = f"{grouped / plain:.2f} times it" if plain > 0 else "no ratio: the runs differ by more than a query takes"
                print(f"  {what}, a {aggregate}, {workers} worker{'s' if workers != '1' else ''}: "
                      f"a query of ask {plain:.4f} s, one of groups {grouped:.4f} s, {ratio}")


def main():
    program, rows_script, rounds = sys.argv[1:]
    timing.heading(program)
    print(f"host:5, {ROWS} rows; {rounds} rounds; {timing.memory()}\n{timing.COLUMNS}")
    with tempfile.TemporaryDirectory() as folder:
        source = os.path.join(folder, "rows.csv")
        with open(source, "wb") as file:
            subprocess.run([rows_script, str(ROWS)], stdout=file, check=True)
        runs = timing.in_turns(settings(program), int(rounds), source)
    for name, part in runs.items():
        timing.print_setting("  " + name, part)
    if any(one.status for part in runs.values() for one in part):
        print("  a run failed")
        return 1
    print_ratios(runs)
    print(f"load after {timing.load()}")
    return 0


if __name__ == "__main__":
    sys.exit(main())
