"""Many short races, each checked; see hang.sh."""
import collections
import random
import subprocess
import sys
import tempfile
import race_text
import timing

NAMES = ["host", "level"]
SCHEMA = "host:2,level:1"
QUERIES = ["count host=3", "sum host=1..2 level<=0"]


def words(program, writers, askers, rounds):
    options = ["--writers", str(writers), "--askers", str(askers), "--rounds", str(rounds)]
    return [program, "race", SCHEMA, *(word for query in QUERIES for word in ("--query", query)), *options]


def one(program, prefix, chance, writers, askers, seconds):
    """Runs one race over some rows; gives `ended`, `hung` or `wrong`, the input, and the text or the fault."""
    count = chance.choice([0, 1, 5, 12, 40, 150])
    rows = [[chance.randrange(4), chance.randrange(2), chance.randrange(1 << 32)] for _ in range(count)]
    rounds = chance.choice([1, 2, 4])
    source = "\n".join([",".join([*NAMES, "value"]), *(",".join(map(str, row)) for row in rows)]) + "\n"
    command = [*prefix, *words(program, writers, askers, rounds)]
    try:
        done = subprocess.run(command, input=source.encode(), capture_output=True, timeout=seconds)
    except subprocess.TimeoutExpired:
        return "hung", source, f"it did not end in {seconds} s"
    text = done.stdout.decode(errors="replace")
    if done.returncode != 0:
        return "wrong", source, f"status {done.returncode}: {text[:200]}"
    found = race_text.fault(text, NAMES, rows, writers, askers, rounds, QUERIES)
    return ("wrong", source, f"{found}\n{text}") if found else ("ended", source, text)


def told(text):
    """What a text shows of its schedule: whether an answer missed rows, and whether a writer was told to fix again."""
    lines = text.split("\n")
    total = lines[0].split(" ")[-1]
    early = any(line.startswith("ask ") and line.split(" ")[3] != total for line in lines)
    return early, any(" again " in line for line in lines)


def main():
    program, runs, cores, writers, askers, seconds, seed = sys.argv[1], *map(int, sys.argv[2:])
    prefix = ["taskset", "-c", ",".join(map(str, range(cores)))]
    chance, counted, early, again = random.Random(seed), collections.Counter(), 0, 0
    for run in range(runs):
        state, source, text = one(program, prefix, chance, writers, askers, seconds)
        counted[state] += 1
        if state == "ended":
            shown = told(text)
            early, again = early + shown[0], again + shown[1]
        else:
            with tempfile.NamedTemporaryFile("w", prefix=f"race-{state}-", suffix=".csv", delete=False) as kept:
                kept.write(source)
            print(f"  run {run} {state}, its rows are kept in {kept.name}: {text}", flush=True)
    print(f"{runs} races of {writers} writers and {askers} askers on {cores} cores: {counted['ended']} ended well, "
          f"{counted['hung']} did not end, {counted['wrong']} wrong; {early} had an answer over a part of the rows, "
          f"{again} a writer that was told to fix again; load {timing.load()}", flush=True)
    return 0 if counted["ended"] == runs else 1


if __name__ == "__main__":
    sys.exit(main())
