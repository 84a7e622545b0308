"""Attacks the program with faults, one after another, and compares each outcome with the rules; see faults.sh."""
import os
import subprocess
import sys
import tempfile
import definition
import trials

READ_FAULT = b"waldo: read fault\n"
INPUT = b"host,value\n3,10\n1,20\n3,5\n"
BELOW = b"host,value\n3,-10\n1,20\n3,-4294967295\n0,-0\n"


def rows(count):
    return b"host,value\n" + b"".join(b"%d,%d\n" % (i % 4, i) for i in range(count))


ZEROS = b"host,value\n" + b"0,0\n" * 130
SHORT = 1000  # bytes of an input of which each is read by itself
# Quoted fields, each end of a record, empty lines, and a byte order mark.
ODD = b'\xef\xbb\xbf"host",value\n3,10\r\n"1",20\r\r\n\n"2","0""5\n'
STEPS = "d0 p0.0 p0.1 d1 p1.0 p1.1 p1.2 f1 f1 f1 p0.2 f1 f1 f1 a1.0"
QUERY = ["--query", "count host=3"]


def command(name, *words):
    return [word.encode() for word in (name, "host:2", *words)]


# Name, words and input. Runs whose command the program hasn't yet are skipped. The input of 3,000 rows takes three reads and one that
# finds the end; there is no more to learn of it without memory.
LONG = "ask over 3,000 rows"
RUNS = [
    ("ask", command("ask", *QUERY), INPUT),
    ("ask by 4 workers", command("ask", "--query", "sum host=0..2", *QUERY, "--workers", "4"), rows(70)),
    (LONG, command("ask", "--query", "sum host<=2"), rows(3000)),
    ("ask of values below zero", command("ask", "--query", "sum host=3", "--query", "sum host<=3"), BELOW),
    ("ask over six columns", [b"ask", b"a:1,b:2,c:1,d:1,e:1,f:1", b"--query", b"sum f=1 a=0 b<=2 e=0..1"],
     b"a,b,c,d,e,f,value\n0,1,0,0,0,1,-5\n1,3,0,0,0,1,7\n0,3,1,1,1,1,9\n"),
    ("replay", command("replay", *QUERY, "--schedule", STEPS), INPUT),
    ("make", command("make", "--number", "7", "--rows", "130", "--query", "sum host=3"), b""),
    ("make by 4 workers", command("make", "--number", "7", "--rows", "130", "--query", "sum host=3", "--workers", "4"), b""),
    ("race", command("race", *QUERY, "--writers", "1", "--askers", "1"), INPUT),
    ("race of 3 and 2", command("race", *QUERY, "--query", "sum host<=2", "--writers", "3", "--askers", "2", "--rounds", "2"), rows(12)),
    ("trace", command("trace", "--query", "sum host=0..1"), ZEROS),
    ("tamper", command("tamper", *QUERY, "--shift", "6:0:1"), INPUT),
    ("tree", command("tree", *QUERY, "--from", "0", "--to", "3"), INPUT),
    ("tree of too few rows", command("tree", *QUERY, "--from", "1", "--to", "4"), INPUT),
    ("groups", command("groups", "--query", "sum host<=3 by host", "--query", "count host=3 by host"), INPUT),
    ("groups by 4 workers", command("groups", "--query", "sum host=0..2 by host", "--workers", "4"), rows(70)),
    ("a refused word", command("ask", "--query", "count host=4"), INPUT),
    ("a refused step", command("replay", *QUERY, "--schedule", "d0 d0"), INPUT),
    ("a refused row", command("ask", *QUERY), INPUT + b"4,1\n"),
    ("no words", [], INPUT),
]


def own_outcome(program, words, data):
    """What the definition says; of a command that it does not know, what the program says when it is left alone."""
    if words and words[0] in definition.COMMANDS or not words:
        return definition.expected(words, data)
    status, text, _ = program.start(words, data=data)
    return definition.Outcome(status, text)


def said(status, text):
    return "it did not end" if status is None else f"status {status}, text {text[:300]!r}"


def without_memory(status, text):
    return status == 6 and not text


def in_turn(program, name, run, own, kind, how, last, judge):
    """Refuses request 1, 2, .. until several runs in a row were not touched; `last` gives the last request that is refused, 0 for no
    end. Gives how many runs were touched, and how many of them ended for want of memory."""
    words, data = run
    touched_runs = ended = untouched = number = 0
    while untouched < (3 if own.race else 1):
        number += 1
        status, text, touched = program.start(words, f"{kind} {how} {number} {last(number)}", data=data)
        what = f"{name}, {kind} {how} {number} to {last(number) or 'the end'}"
        program.check(what, judge(number, status, text, touched))
        untouched = 0 if touched else untouched + 1
        touched_runs += touched
        ended += without_memory(status, text)
    return touched_runs, ended


def alone(number):
    return number


def to_the_end(_):
    return 0


def own_or_six(own):
    def judge(_, status, text, touched):
        if touched and without_memory(status, text):
            return None
        return own.fault(status, text) and said(status, text)
    return judge


def just_own(own):
    def judge(_, status, text, __):
        return own.fault(status, text) and said(status, text)
    return judge


def read_fault(own, interrupted=False):
    """A read that failed is told. One that a signal stopped may be made again."""
    def judge(_, status, text, touched):
        told = (status, text) == (3, READ_FAULT)
        good = touched and told if not interrupted else touched and told or own.fault(status, text) is None
        return None if good or not touched and own.fault(status, text) is None else said(status, text)
    return judge


def write_fault(own, taken, interrupted=False):
    """A write that failed makes status 0 to 4, and no other; the text is what was taken before, `taken` of the request's number."""
    def judge(number, status, text, touched):
        wanted = 4 if own.status == 0 else own.status
        starts = own.texts()
        begins = starts is None or any(len(text) == taken(number) and one.startswith(text) for one in starts)
        good = status == wanted and begins
        if not touched or interrupted:
            good = own.fault(status, text) is None or interrupted and touched and good
        return None if good else said(status, text)
    return judge


def memory_faults(program, name, run, own):
    for way, last in (("one", alone), ("all from one on", to_the_end)):
        touched, ended = in_turn(program, name, run, own, "memory", "fail", last, own_or_six(own))
        trials.tell(f"memory, {way} refused: {name}: {touched} runs were touched, {ended} of them ended for it")
        program.check(f"{name}: memory, {way} refused", None if ended else "no run ended for want of memory, so nothing was tried")
    for last in (alone, to_the_end):
        touched, ended = in_turn(program, name, run, own, "thread", "fail", last, own_or_six(own))
        trials.tell(f"threads, {'one' if last is alone else 'all from one on'} refused: {name}: {touched} runs were touched, "
              f"{ended} ended with 6")


def read_faults(program, name, run, own):
    by_byte = (0, 0) if len(run[1]) > SHORT else in_turn(program, name, run, own, "read one 1 0,read", "fail", alone, read_fault(own))
    counts = [in_turn(program, name, run, own, "read", "fail", alone, read_fault(own))[0],
              by_byte[0],
              in_turn(program, name, run, own, "read", "one", alone, just_own(own))[0],
              in_turn(program, name, run, own, "read", "one", to_the_end, just_own(own))[0],
              in_turn(program, name, run, own, "read", "stop", alone, read_fault(own, interrupted=True))[0]]
    trials.tell(f"reads: {name}: {counts[0]} failed, {counts[1]} failed behind reads of a byte, {counts[2]} and {counts[3]} cut to a byte, "
          f"{counts[4]} stopped by a signal")


def write_faults(program, name, run, own):
    counts = [in_turn(program, name, run, own, "write", "fail", alone, write_fault(own, lambda _: 0))[0],
              in_turn(program, name, run, own, "write one 1 0,write", "fail", alone, write_fault(own, lambda n: n - 1))[0],
              in_turn(program, name, run, own, "write one 1 0,write", "none", alone, write_fault(own, lambda n: n - 1))[0],
              in_turn(program, name, run, own, "write", "one", alone, just_own(own))[0],
              in_turn(program, name, run, own, "write", "one", to_the_end, just_own(own))[0],
              in_turn(program, name, run, own, "write", "stop", alone, write_fault(own, lambda _: 0, interrupted=True))[0]]
    trials.tell(f"writes: {name}: {counts[0]} failed, {counts[1]} failed and {counts[2]} took nothing behind writes of a byte, {counts[3]} and "
          f"{counts[4]} cut to a byte, {counts[5]} stopped by a signal")


def streams(program, name, run, own):
    """A closed or broken standard stream, as the system has it."""
    words, data = run
    reads = bool(words) and words[0] != b"make" and definition_reads(words)
    wanted = 4 if own.status == 0 else own.status
    with open("/dev/full", "wb") as full:
        status, text, _ = program.start(words, streams={"stdout": full}, data=data)
    program.check(f"{name}, a full disk", None if status == wanted else said(status, text))
    hearer, to = os.pipe()
    os.close(hearer)
    status, text, _ = program.start(words, streams={"stdout": to}, data=data)
    os.close(to)
    program.check(f"{name}, a reader that has ended", None if status == wanted else said(status, text))
    status, text, _ = program.start(words, streams={"stdout": None, "preexec_fn": lambda: os.close(1)}, data=data)
    program.check(f"{name}, a closed output", None if status == wanted else said(status, text))
    folder = os.open("/", os.O_RDONLY)
    broken = [("a folder as input", {"stdin": folder}), ("a closed input", {"stdin": None, "preexec_fn": lambda: os.close(0)})]
    for what, how in broken:
        status, text, _ = program.start(words, streams=how)
        good = (status, text) == (3, READ_FAULT) if reads else own.fault(status, text) is None
        program.check(f"{name}, {what}", None if good else said(status, text))
    os.close(folder)
    trials.tell(f"streams: {name}: a full disk, a reader that has ended, a closed output, a folder as input, a closed input")


def definition_reads(words):
    """Whether words are accepted, so that the input is read."""
    if words[0] not in definition.COMMANDS:
        return True
    try:
        definition.read_words(words)
    except definition.Refused:
        return False
    return True


def cut_inputs(program):
    """Small inputs, cut behind each byte, and with each byte changed."""
    kinds = [("ask", command("ask", "--query", "sum host=0..3")), ("ask of 2 rows", command("ask", *QUERY, "--capacity", "2")),
             ("replay", command("replay", *QUERY, "--schedule", "d0 p0.0 p0.1 p0.2 f0 f0 f0 a0.0")), ("race", command("race", *QUERY))]
    for name, words in kinds:
        count = 0
        for data in (INPUT, ODD, BELOW):
            cut = [data[:length] for length in range(len(data) + 1)]
            changed = [data[:at] + bytes([byte]) + data[at + 1:] for at in range(len(data)) for byte in b'",\n\r 4-\xff\x00\xc3']
            joined = [data[:at] + bytes([byte]) + data[at:] for at in range(len(data)) for byte in b'",\n-'] if name == "ask" else []
            for part in cut + changed + joined:
                status, text, _ = program.start(words, data=part)
                program.check(f"{name} over {part!r}", definition.expected(words, part).fault(status, text))
                count += 1
        trials.tell(f"inputs, cut behind each byte or with a byte changed: {name}: {count} runs")
    for length, status in ((definition.MOST_BYTES, 0), (definition.MOST_BYTES + 1, 5)):
        data = (b"host,value\n3,10\n" + b"\n" * length)[:length]
        wanted = definition.Outcome(status, b"ask 0 rows 1 count 1\n" if status == 0 else b"waldo: input too long\n")
        found = program.start(command("ask", *QUERY), data=data)
        program.check(f"an input of {length} bytes", wanted.fault(*found[:2]))
    print("inputs of 16,777,216 bytes and of one more: 2 runs")


PARTS = {"memory": memory_faults, "reads": read_faults, "writes": write_faults, "streams": streams}


def library(room):
    """The library that refuses, compiled into a folder."""
    made, source = os.path.join(room, "refuse.so"), os.path.join(os.path.dirname(os.path.abspath(__file__)), "faults", "refuse.c")
    subprocess.run(["cc", "-O2", "-shared", "-fPIC", "-o", made, source, "-ldl"], check=True)
    return made


def attack(program, parts):
    if not program.start([b"ask"], "memory fail 1 0")[2]:
        raise trials.Stop(2, "the preloaded library refuses nothing here: is the program linked without the C library?")
    skipped = []
    for name, words, data in RUNS:
        if words and program.start(words[:1])[1] != b"waldo: missing schema\n":
            skipped.append(name)
            continue
        own = own_outcome(program, words, data)
        status, text, _ = program.start(words, data=data)
        program.check(f"{name}, left alone", own.fault(status, text))
        for part in parts:
            left_out = part == "writes" and own.texts() is None or part == "memory" and name == LONG
            if part in PARTS and not left_out:
                PARTS[part](program, name, (words, data), own)
    if "inputs" in parts:
        cut_inputs(program)
    if skipped:
        trials.tell(f"skipped, since the program has no such command: {', '.join(skipped)}")


def main(file, *parts):
    with tempfile.TemporaryDirectory(prefix="waldo-faults-") as room:
        program = trials.Program(file, library(room))
        attack(program, parts or [*PARTS, "inputs"])
    return program.summary()


if __name__ == "__main__":
    trials.run("faults.sh", main, sys.argv[1:])
