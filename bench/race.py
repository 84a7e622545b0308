"""Rows appended a second by writers, alone and beside askers; see race.sh."""
import statistics
import subprocess
import sys
import tempfile
import race_text
import timing

QUERY = "count host=3"
BESIDE = (4, 4)  # askers, and rounds of each


def words(program, writers, askers, rounds, queries):
    return [program, "race", "host:5", *["--query", QUERY] * queries,
            "--writers", str(writers), "--askers", str(askers), "--rounds", str(rounds)]


def settings(program, rows, empty):
    """For 1, 2, 4 and 8 writers, with an asker that asks once and with several: over no rows, by one last query, by two."""
    chosen = []
    for writers in (1, 2, 4, 8):
        for askers, rounds in ((1, 1), BESIDE):
            for name, source, queries in (("none", empty, 1), ("one", rows, 1), ("two", rows, 2)):
                setting = timing.Setting(name, words(program, writers, askers, rounds, queries), {})
                chosen.append(((writers, askers, rounds, name), setting, source))
    return chosen


def early(text, rows):
    """How many answers of askers were over a part of the rows."""
    return sum(line.startswith("ask ") and line.split(" ")[3] != str(rows) for line in text.decode().split("\n"))


def faults_of(key, runs, rows):
    """What is wrong with the runs of a setting; the text is checked of the first run alone."""
    writers, askers, rounds, name = key
    if any(one.status for one in runs):
        return f"statuses {sorted({one.status for one in runs})}"
    input_rows = [] if name == "none" else rows
    return race_text.fault(runs[0].text.decode(errors="replace"), ["host"], input_rows, writers, askers, rounds,
                           [QUERY] * (2 if name == "two" else 1))


def print_line(writers, askers, rounds, runs, rows):
    """Rows a second: of the time beyond a run over no rows, less that of one query over all rows."""
    none, one, two = (statistics.median(part.seconds for part in runs[writers, askers, rounds, name]) for name in ("none", "one", "two"))
    seconds = one - none - max(two - one, 0)
    rate = f"{rows / seconds:10.0f}" if seconds > 0 else f"{'-':>10}"
    parts = statistics.mean(early(part.text, rows) for part in runs[writers, askers, rounds, "one"])
    print(f"{writers:7} {askers:6} {askers * rounds:7} {one:8.3f} {none:8.3f} {two - one:8.3f} {rate} {parts:8.1f}")


def main():
    program, file, rounds = sys.argv[1:]
    with open(file) as text:
        rows = [[int(field) for field in line.split(",")] for line in text.read().split("\n")[1:] if line]
    timing.heading(program)
    print(f"{len(rows)} rows of host:5, {rounds} rounds, medians in seconds; {timing.memory()}")
    with tempfile.NamedTemporaryFile("w", suffix=".csv") as empty:
        empty.write("host,value\n")
        empty.flush()
        chosen = settings(program, file, empty.name)
        runs = {key: [] for key, _, _ in chosen}
        for _ in range(int(rounds)):
            for key, setting, source in chosen:
                runs[key].append(timing.run(setting, source))
    good = True
    for key, part in runs.items():
        if found := faults_of(key, part, rows):
            print(f"  {key}: {found}")
            good = False
    print(f"{'writers':>7} {'askers':>6} {'answers':>7} {'whole':>8} {'no rows':>8} {'a query':>8} {'rows/s':>10} {'partial':>8}")
    for writers in (1, 2, 4, 8):
        for askers, asked in ((1, 1), BESIDE):
            print_line(writers, askers, asked, runs, len(rows))
    print(f"load after {timing.load()}")
    return 0 if good else 1


if __name__ == "__main__":
    sys.exit(main())
