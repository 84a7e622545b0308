"""Random words and inputs, each outcome compared with the definition; see random.sh. A case is made of the seed and its number alone."""
import collections
import random
import shlex
import sys
import tempfile
import time
import definition
import trials

ODD_WORDS = [b"", b"--", b"--=1", b"-1", b"host:2", b"--query", b"--rows", b"--writers=3", b"\xff", "\u00e9".encode(), b"--seed=0", b"help"]
ODD_BYTES = b'0139:,@/=<. ".-+_azA\r\n\t\x00\xff\xc3\xe9'
ENDS = [b"\n"] * 12 + [b"\r\n"] * 3 + [b"\r", b"\n\n", b"\r\n\n"]


class Chance(random.Random):
    def one_in(self, count):
        return self.random() * count < 1

    def digits(self, number):
        """A number as text, now and then with zeros before it."""
        text = str(number).encode()
        return text.rjust(self.choice([2, 19, 20] * 20 + [21]), b"0") if self.one_in(12) else text

    def spoiled(self, text):
        """A text with a byte changed, put in, taken out or doubled."""
        at = self.randrange(len(text) + 1)
        byte = bytes([self.choice(ODD_BYTES)])
        return text[:at] + self.choice([byte + text[at + 1:], byte + text[at:], text[at + 1:], text[at:at + 1] + text[at:]])


def columns_of(chance):
    names = chance.sample([b"a", b"host", b"b_2", b"level", b"z" * 16, b"values"], chance.choice([1, 1, 1, 2, 2, 3, 4, 5, 6]))
    made = []
    for name in names:
        start = chance.choice([0, 0, 0, chance.randrange(100), chance.randrange(1 << 40), (1 << 64) - chance.randint(1, 400)])
        step = chance.choice([1, 1, 1, 2, 10, chance.randint(1, 5000), chance.randint(1, (1 << 64) - 1)])
        made.append(definition.Column(name, chance.choice([1, 1, 2, 2, 3, 4, 5, 8]), start, step))
    return made


def schema_text(chance, columns):
    pieces = []
    for column in columns:
        piece = column.name + b":%d" % column.bits
        if column.start or chance.one_in(8):
            piece += b"@" + chance.digits(column.start)
        if column.step != 1 or chance.one_in(8):
            piece += b"/" + chance.digits(column.step)
        pieces.append(piece)
    return b",".join(pieces)


def raw_number(chance, column, odd=60):
    """A raw number, mostly one with a bucket, often at the end of one; one in `odd` may have none."""
    top = min((1 << column.bits) - 1, ((1 << 64) - 1 - column.start) // column.step)
    which = chance.choice([0, top, int(chance.random() * (top + 1))])
    raw = column.start + which * column.step + chance.choice([0, column.step - 1, int(chance.random() * column.step)])
    if chance.one_in(odd):
        return chance.choice([max(column.start - 1, 0), column.start + (column.step << column.bits), (1 << 64) - 1, 1 << 64, 10 ** 20])
    return min(raw, (1 << 64) - 1)


def query_text(chance, columns):
    pieces = [chance.choice([b"count", b"sum"])]
    most = 6 if chance.one_in(40) else 4  # more than four predicates are refused
    for column in chance.sample(columns, chance.randint(1, min(most, len(columns)))):
        low, high = sorted([raw_number(chance, column), raw_number(chance, column)])
        if chance.one_in(40):
            low, high = high, low
        low, high = chance.digits(low), chance.digits(high)
        pieces.append(column.name + chance.choice([b"=" + low, b"<=" + high, b"=" + low + b".." + high]))
    return b" ".join(pieces)


def group_text(chance, columns):
    """A query by the buckets of a column; one in 40 without what has to be at its end."""
    name = chance.choice(columns).name
    end = chance.choice([b"", b" by", b" " + name, b" by  " + name, b" by y", b" By " + name]) if chance.one_in(40) else b" by " + name
    return query_text(chance, columns) + end


def field_text(chance, text):
    if chance.one_in(15):
        return b'"' + text + b'"'
    return chance.spoiled(text) if chance.one_in(60) else text


def input_text(chance, columns, count):
    data = b"\xef\xbb\xbf" if chance.one_in(25) else b""
    rows = [[column.name for column in columns] + [b"value"]]
    for _ in range(count):
        value = chance.choice([0, int(chance.random() * 1000), int(chance.random() * (1 << 32)), (1 << 32) - 1])
        value = 1 << 32 if chance.one_in(20 * (count + 5)) else value
        sign = b"-" if chance.one_in(3) else b""
        rows.append([chance.digits(raw_number(chance, column, 20 * (count + 5))) for column in columns] + [sign + chance.digits(value)])
    spoils = chance.one_in(8)
    for row in rows:
        data += b",".join(field_text(chance, text) if spoils or chance.one_in(10) else text for text in row) + chance.choice(ENDS)
    if chance.one_in(10):
        data = data[:chance.randrange(len(data) + 1)]
    return chance.spoiled(data) if chance.one_in(20) else data


def schedule_text(chance, rows, queries):
    """Steps of which most are allowed where they stand."""
    core = definition.Core([[0]] * rows, [definition.Query("count", [])] * queries)
    actors = chance.sample(range(16), chance.randint(1, 4))
    tokens = []
    for _ in range(chance.choice([1, 5, 20, 60, 200])):
        letter, actor = chance.choice("dpppplfffa"), chance.choice(actors)
        other = {"d": None, "f": None, "a": chance.randrange(queries)}.get(letter, chance.randrange(3))
        if core.step(letter, actor, other) is None and not chance.one_in(2000):
            continue
        numbers = b"" if other is None else b"." + chance.digits(other)
        tokens.append(letter.encode() + chance.digits(actor) + numbers)
    return b" ".join(tokens or [b"f0"])


def options_of(chance, name, columns, count):
    """The options of a command, (name, value) each."""
    made_text = group_text if name == b"groups" else query_text
    queries = [made_text(chance, columns) for _ in range(chance.choice([1, 1, 2, 3, 16 if count < 70 else 4]))]
    made = [(b"--query", text) for text in queries]
    if name == b"replay":
        made.append((b"--schedule", schedule_text(chance, count, len(queries))))
    if name == b"make":
        made += [(b"--number", chance.digits(chance.choice([0, 7, chance.randrange(1 << 32), (1 << 32) - 1]))),
                 (b"--rows", chance.digits(max(count, 1)))]
    for option, most in ((b"--writers", 5), (b"--askers", 4), (b"--rounds", 4)) if name == b"race" else ():
        if not chance.one_in(3):
            made.append((option, chance.digits(chance.randint(1, most))))
    if chance.one_in(3):
        made.append((b"--workers", chance.digits(chance.choice([1, 2, 3, 4, 7, 16]))))
    if chance.one_in(3):
        made.append((b"--seed", bytes(chance.choice(b"0123456789abcdefABCDEF") for _ in range(64))))
    if name != b"make":  # a small table is made sooner
        most = definition.MOST_CELLS // definition.cells(columns)
        made.append((b"--capacity", chance.digits(min(max(1, count + chance.choice([0, 0, 0, 0, 1, 1, 50, 50, -1])), most, 65536))))
    if chance.one_in(2):
        chance.shuffle(made)
    return made


def spoil_words(chance, words):
    at = chance.randrange(len(words) + 1)
    kind = chance.randrange(6)
    if kind == 0 and words:
        return words[:at] + words[at + 1:]
    if kind == 1:
        return words[:at] + [chance.choice(ODD_WORDS)] + words[at:]
    if kind == 2:
        return words[:at]
    if kind == 3 and words:
        return words[:at] + [chance.choice(words)] + words[at:]
    if not words:
        return words
    at = min(at, len(words) - 1)
    spoiled = chance.spoiled(words[at]).replace(b"\x00", b"0")
    return words[:at] + [spoiled] + words[at + 1:]


def case_of(seed, number):
    """Words and an input."""
    chance = Chance(f"{seed}/{number}")
    name = chance.choice([b"ask"] * 4 + [b"replay"] * 5 + [b"make"] * 2 + [b"groups"] * 2 + [b"race", b"trace"])
    columns = columns_of(chance)
    count = chance.choice([0, 1, 2, 3, 3, 4, 5, 6, 8, 12, 20])
    if chance.one_in(12):
        count = chance.choice([63, 64, 65, 128, 129, chance.randrange(300)])
    words = [name, schema_text(chance, columns)]
    for option, value in options_of(chance, name, columns, count):
        words += [option + b"=" + value] if chance.one_in(4) else [option, value]
    for _ in range(chance.randint(1, 2) if chance.one_in(6) else 0):
        words = spoil_words(chance, words)
    return words, input_text(chance, columns, count)


def fault_of(program, words, data):
    status, text, _ = program.start(words, data=data)
    return definition.expected(words, data).fault(status, text)


def smaller(words, data):
    """Cases with a word, two words, a step or a line less."""
    for at in range(len(words)):
        yield words[:at] + words[at + 1:], data
        yield words[:at] + words[at + 2:], data
        pieces = words[at].split(b" ")
        for piece in range(len(pieces) if len(pieces) > 1 else 0):
            yield words[:at] + [b" ".join(pieces[:piece] + pieces[piece + 1:])] + words[at + 1:], data
    lines = data.splitlines(keepends=True)
    for at in range(len(lines)):
        yield words, b"".join(lines[:at] + lines[at + 1:])


def smallest(program, words, data):
    """A case in which nothing can be left out, as far as a minute of tries goes."""
    until, going = time.monotonic() + 60, True
    while going:
        going = False
        for fewer, less in smaller(words, data):
            if time.monotonic() > until:
                return words, data
            if fault_of(program, fewer, less):
                words, data, going = fewer, less, True
                break
    return words, data


def show(program, seed, number, words, data, fault):
    """Prints a case that differs and keeps its input; where it differs again, as a race may not, it is made smaller before."""
    trials.tell(f"  FAILED case {number} of seed {seed}: {fault}")
    if fault_of(program, words, data):
        words, data = smallest(program, words, data)
        fault = fault_of(program, words, data)
    with tempfile.NamedTemporaryFile("wb", prefix="waldo-random-", suffix=".csv", delete=False) as kept:
        kept.write(data)
    shown = shlex.join(word.decode(errors="surrogateescape") for word in words).encode(errors="surrogateescape")
    trials.tell(f"    {shown!r} over {kept.name}, {data[:200]!r}: {fault}")


def kind_of(words, status):
    name = words[0].decode() if words and words[0] in definition.COMMANDS else "no command"
    return f"{name} with status {status}"


def main(file, seed, seconds, first, cases):
    program, counted = trials.Program(file), collections.Counter()
    until, number = time.monotonic() + float(seconds), int(first)
    last = number + int(cases) if int(cases) else None
    while time.monotonic() < until and number != last:
        words, data = case_of(seed, number)
        status, text, _ = program.start(words, data=data)
        fault = definition.expected(words, data).fault(status, text)
        program.runs += 1
        counted[kind_of(words, status)] += 1
        if fault:
            program.failed += 1
            if program.failed <= 10:
                show(program, seed, number, words, data, fault)
        number += 1
    for kind, count in sorted(counted.items()):
        trials.tell(f"{count:9} {kind}")
    trials.tell(f"seed {seed}, cases {first} to {number - 1}")
    return program.summary()


if __name__ == "__main__":
    trials.run("random.sh", main, sys.argv[1:])
