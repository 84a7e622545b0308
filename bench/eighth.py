"""The growth of time and memory with rows; see eighth.sh."""
import os
import statistics
import subprocess
import sys
import tempfile
import timing

CELLS = 33
FEW, MANY = 8192, 65536
QUERIES = ["--query", "count host=0", "--query", "sum host<=1"]


def settings(program, command, workers, sources):
    """The runs over no rows (`make`: over one), over few and over many, each with its input."""
    runs = []
    for rows in (0, FEW, MANY):
        made = ["--number", "1", "--rows", str(max(rows, 1))] if command == "make" else []
        words = [program, command, "host:5", *QUERIES, "--workers", str(workers), *made]
        runs.append((timing.Setting(f"{command}, {max(rows, 1) if made else rows} rows, {workers}", words, {}), sources[rows]))
    return runs


def row_of(program, command, workers, sources, rounds):
    """The lines of one command; tells whether all runs ended well."""
    chosen = settings(program, command, workers, sources)
    runs = {setting.name: [] for setting, _ in chosen}
    for _ in range(rounds):
        for setting, source in chosen:
            runs[setting.name].append(timing.run(setting, source if command == "ask" else os.devnull))
    for name, part in runs.items():
        timing.print_setting("  " + name, part)
    if any(one.status for part in runs.values() for one in part):
        print("  a run failed")
        return False
    none, few, many = runs.values()
    for what, middle in (("least", min), ("median", statistics.median)):
        start, part, whole = (middle(one.seconds for one in some) for some in (none, few, many))
        eighths = (part - start) / (whole - start) * MANY / FEW
        print(f"  {what}: {FEW} rows take {eighths:.3f} eighths of {MANY} rows, less the run over none")
    peak, cells = statistics.median(one.peak for one in many) * 1024, 96 * CELLS * MANY
    print(f"  peak {peak / cells:.3f} times the cells' {cells / 2**20:.1f} MiB", flush=True)
    return True


def main():
    program, rows_script, rounds = sys.argv[1:]
    good = True
    timing.heading(program)
    print(f"host:5, a count and a sum; {rounds} rounds; {timing.memory()}\n{timing.COLUMNS}")
    with tempfile.TemporaryDirectory() as folder:
        sources = {}
        for rows in (0, FEW, MANY):
            sources[rows] = os.path.join(folder, f"{rows}.csv")
            with open(sources[rows], "wb") as file:
                subprocess.run([rows_script, str(rows)], stdout=file, check=True)
        for command in ("make", "ask"):
            for workers in (1, 4):
                good = row_of(program, command, workers, sources, int(rounds)) and good
    print(f"load after {timing.load()}")
    return 0 if good else 1


if __name__ == "__main__":
    sys.exit(main())
