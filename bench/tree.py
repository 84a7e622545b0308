"""What a tree over the places costs beside a scan; see tree.sh."""
import os
import statistics
import subprocess
import sys
import tempfile
import timing

ROWS = 65536
QUERY = ["--query", "count host=0"]


def settings(program):
    """One query over all rows, sixteen of them, and trees asked about a place, about most places and about all."""
    ask = [program, "ask", "host:5", "--workers", "1"]
    tree = [program, "tree", "host:5", "--workers", "1", *QUERY]
    return [
        timing.Setting("ask, 1 query", [*ask, *QUERY], {}),
        timing.Setting("ask, 16 queries", [*ask, *(QUERY * 16)], {}),
        timing.Setting("tree, a place", [*tree, "--from", "0", "--to", "1"], {}),
        timing.Setting("tree, 30 nodes", [*tree, "--from", "1", "--to", str(ROWS - 1)], {}),
        timing.Setting("tree, all places", [*tree, "--from", "0", "--to", str(ROWS)], {}),
    ]


def main():
    program, rows_script, rounds = sys.argv[1:]
    timing.heading(program)
    print(f"host:5, {ROWS} rows; {rounds} rounds; {timing.memory()}\n{timing.COLUMNS}")
    chosen = settings(program)
    runs = {setting.name: [] for setting in chosen}
    with tempfile.TemporaryDirectory() as folder:
        source = os.path.join(folder, "rows.csv")
        with open(source, "wb") as file:
            subprocess.run([rows_script, str(ROWS)], stdout=file, check=True)
        for _ in range(int(rounds)):
            for setting in chosen:
                runs[setting.name].append(timing.run(setting, source))
    for name, part in runs.items():
        timing.print_setting("  " + name, part)
    if any(one.status for part in runs.values() for one in part):
        print("  a run failed")
        return 1
    for what, middle in (("least", min), ("median", statistics.median)):
        one, many, place, nodes, _ = (middle(run.seconds for run in part) for part in runs.values())
        scan = (many - one) / 15
        trees = place - one + scan
        print(f"  {what}: a query of ask {scan:.4f} s; the trees of three servers {trees:.4f} s; 30 nodes more {nodes - place:.4f} s")
    peaks = [statistics.median(run.peak for run in part) / 1024 for part in runs.values()]
    print(f"  peak: ask {peaks[0]:.1f} MiB, tree {peaks[2]:.1f} MiB")
    print(f"load after {timing.load()}")
    return 0


if __name__ == "__main__":
    sys.exit(main())
