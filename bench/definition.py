"""What the program has to answer to words and input: the rules of docs/formats.md, plainly and slowly, with no code of the program.

`expected` gives the outcome; `Outcome.fault` says what is wrong with a status and a text, or None. Words and input are bytes. Messages,
keys and shares play no part: where nothing is altered each answer is the plain count or sum, over all rows or over those of a bucket, and
what `trace` prints follows from the sizes alone. `tamper`, whose text needs the key, and `tree` are not known here.

The records of an input are not read by Python's own `csv`, which differs from the kit's: it keeps a byte order mark, gives an empty
record for an empty line, and refuses a carriage return inside an unquoted field and, in earlier versions, a byte of 0.
"""
import collections
import re
import race_text

MOST_BYTES = 16_777_216
MOST_CELLS = 4_194_304
MOST_VALUE = 4_294_967_295

Column = collections.namedtuple("Column", "name bits start step")
Query = collections.namedtuple("Query", "aggregate predicates")
Predicate = collections.namedtuple("Predicate", "column low high kind")  # a column's number, its lowest and highest bucket, a key's kind
Group = collections.namedtuple("Group", "query column")  # a query, and the number of the column by whose buckets it is answered
Command = collections.namedtuple("Command", "name columns queries options")


class Refused(Exception):
    """Words, input or a step that is refused, with the status and the text."""

    def __init__(self, status, text):
        super().__init__(text)
        self.status, self.text = status, text


def number(text):
    """The number of a text of 1 to 20 digits, below 2^64; None for any other text."""
    if re.fullmatch(rb"[0-9]{1,20}", text) and int(text) < 1 << 64:
        return int(text)
    return None


def bucket(column, raw):
    if raw < column.start:
        return None
    found = (raw - column.start) // column.step
    return found if found < 1 << column.bits else None


def read_column(piece):
    """A column of a schema's piece; None where it is none."""
    name, _, rest = piece.partition(b":")
    if not re.fullmatch(rb"[a-z][a-z0-9_]{0,15}", name) or name == b"value":
        return None
    rest, slash, step = rest.partition(b"/")
    bits, at, start = rest.partition(b"@")
    start, step = number(start) if at else 0, number(step) if slash else 1
    if not re.fullmatch(rb"[1-8]", bits) or start is None or not step:
        return None
    return Column(name, int(bits), start, step)


def read_schema(text):
    columns = [read_column(piece) for piece in text.split(b",")]
    if len(columns) > 6 or None in columns or len({column.name for column in columns}) < len(columns):
        return None
    return columns


def read_predicate(piece, columns):
    """A predicate; None where the piece is none over these columns."""
    form = re.fullmatch(rb"([^<=]+)(<=|=)(.*)", piece, re.DOTALL)
    if not form:
        return None
    name, sign, value = form.groups()
    low, dots, high = value.partition(b"..") if sign == b"=" else (value, b"", b"")
    numbers = [number(low), number(high)] if dots else [number(low)] * 2
    which = [column.name for column in columns].index(name) if name in [column.name for column in columns] else None
    if None in numbers or which is None or numbers[0] > numbers[1]:
        return None
    buckets = [bucket(columns[which], raw) for raw in numbers]
    if None in buckets:
        return None
    kind = "comparison" if sign == b"<=" else "interval" if dots else "point"
    return Predicate(which, 0 if sign == b"<=" else buckets[0], buckets[1], kind)


def read_query(text, columns):
    aggregate, *pieces = text.split(b" ")
    if aggregate not in (b"count", b"sum") or not 1 <= len(pieces) <= 4:
        return None
    predicates = [read_predicate(piece, columns) for piece in pieces]
    if None in predicates or len({predicate.column for predicate in predicates}) < len(predicates):
        return None
    return Query(aggregate.decode(), predicates)


def read_group(text, columns):
    """A query, ` by ` and a column's name; None where the text is none."""
    *pieces, by, name = [b"", *text.split(b" ")]
    names = [column.name for column in columns]
    query = read_query(b" ".join(pieces[1:]), columns)
    return Group(query, names.index(name)) if by == b"by" and name in names and query else None


def read_step(token):
    """The letter of a step, its actor and its other number, if it has one; None where the token is no step."""
    form = re.fullmatch(rb"(?:([df])([0-9]+)|([pla])([0-9]+)\.([0-9]+))", token)
    if not form:
        return None
    letter, numbers = form[1] or form[3], [number(part) for part in (form[2] or form[4], form[5]) if part is not None]
    most = 15 if letter == b"a" else 2
    if None in numbers or numbers[0] > 15 or (len(numbers) > 1 and numbers[1] > most):
        return None
    return (letter.decode(), *numbers)


def read_schedule(text):
    steps = [read_step(token) for token in text.split(b" ")]
    return steps if len(steps) <= 4096 and None not in steps else None


def cells(columns):
    return sum(1 << column.bits for column in columns) + 1


def within(low, high):
    def read(text, _):
        found = number(text)
        return found if found is not None and low <= found <= high else None
    return read


def read_capacity(text, columns):
    found = number(text)
    return found if found is not None and 1 <= found <= 65536 and found * cells(columns) <= MOST_CELLS else None


# How an option's value is read, and how often it may stand.
OPTIONS = {
    b"--query": (read_query, 16),
    b"--schedule": (lambda text, _: read_schedule(text), 1),
    b"--number": (within(0, (1 << 32) - 1), 1),
    b"--rows": (read_capacity, 1),
    b"--writers": (within(1, 16), 1),
    b"--askers": (within(1, 16), 1),
    b"--rounds": (within(1, 16), 1),
    b"--capacity": (read_capacity, 1),
    b"--seed": (lambda text, _: text if re.fullmatch(rb"[0-9a-fA-F]{64}", text) else None, 1),
    b"--workers": (within(1, 16), 1),
}
EVERY = [b"--query", b"--seed", b"--workers"]
# The options that a command has, the first of which have to stand, in the order in which they are missed.
COMMANDS = {
    b"ask": ([b"--query"], EVERY + [b"--capacity"]),
    b"replay": ([b"--query", b"--schedule"], EVERY + [b"--schedule", b"--capacity"]),
    b"race": ([b"--query"], EVERY + [b"--writers", b"--askers", b"--rounds", b"--capacity"]),
    b"make": ([b"--query", b"--number", b"--rows"], EVERY + [b"--number", b"--rows"]),
    b"trace": ([b"--query"], EVERY + [b"--capacity"]),
    b"groups": ([b"--query"], EVERY + [b"--capacity"]),
}
# Values that a command reads in a way of its own.
OWN_VALUES = {(b"groups", b"--query"): read_group}
KEY_WORDS = {"point": (3, 3), "comparison": (3, 4), "interval": (6, 8)}  # how many words a key has, and how many more for each bit
CHUNK = 64


def bad_word(index):
    return Refused(2, f"waldo: bad word {index}\n".encode())


def missing(name):
    return Refused(2, b"waldo: missing " + name + b"\n")


def is_text(data):
    try:
        data.decode()
    except UnicodeDecodeError:
        return False
    return True


def read_options(words, known, columns):
    """The values of each option, read from word 2 on."""
    found, at = collections.defaultdict(list), 2
    while at < len(words):
        name, has_value, value = words[at].partition(b"=")
        if name not in known or len(found[name]) == OPTIONS[name][1]:
            raise bad_word(at)
        if not has_value:
            if at + 1 == len(words):
                raise bad_word(at)
            at += 1
            value = words[at]
            if value.startswith(b"-"):
                raise bad_word(at)
        read = OWN_VALUES.get((words[0], name), OPTIONS[name][0])(value, columns)
        if read is None:
            raise bad_word(at)
        found[name].append(read)
        at += 1
    return found


def read_words(words):
    """The command of words, or Refused."""
    if not words:
        raise missing(b"command")
    if not all(is_text(word) for word in words) or words[0] not in COMMANDS:
        raise bad_word(0)
    if len(words) == 1:
        raise missing(b"schema")
    columns = read_schema(words[1])
    if columns is None:
        raise bad_word(1)
    required, known = COMMANDS[words[0]]
    found = read_options(words, known, columns)
    for name in required:
        if not found[name]:
            raise missing(name)
    options = {name: values[0] for name, values in found.items() if values and name != b"--query"}
    return Command(words[0], columns, found[b"--query"], options)


def records(data):
    """The records of an input, lists of fields: the machine over bytes of docs/formats.md."""
    if data.startswith(b"\xef\xbb\xbf"):
        data = data[3:]
    at, found = 0, []
    while True:
        while data[at:at + 1] in (b"\r", b"\n"):
            at += 1
        if at == len(data):
            return found
        fields, ended = [], False
        while not ended:
            field, at, ended = read_field(data, at)
            fields.append(field)
        found.append(fields)


def read_field(data, at):
    """A field that begins at a place, the place behind it, and whether it is the last one of its record."""
    field = b""
    if data[at:at + 1] == b'"':
        quoted = re.compile(rb'"((?:[^"]|"")*)"?', re.DOTALL).match(data, at)
        field, at = quoted[1].replace(b'""', b'"'), quoted.end()
    end = re.compile(rb"[,\r\n]|\Z").search(data, at).start()
    return field + data[at:end], min(end + 1, len(data)), data[end:end + 1] != b","


def read_row(fields, columns):
    """The buckets and the value of a record, or the cause for which it is no row."""
    if len(fields) != len(columns) + 1:
        return "Fields"
    row = []
    for place, field in enumerate(fields):
        if not is_text(field):
            return "Text"
        below = place == len(columns) and field.startswith(b"-")
        found = number(field[1:] if below else field)
        if found is None:
            return "Number"
        if place < len(columns):
            found = bucket(columns[place], found)
            if found is None:
                return "Domain"
        elif found > MOST_VALUE:
            return "Value"
        row.append(-found if below else found)
    return row


def read_rows(data, columns, capacity):
    """The rows of an input, lists of buckets with the value last, or Refused."""
    if len(data) > MOST_BYTES:
        raise Refused(5, b"waldo: input too long\n")
    found = records(data)
    if not found or found[0] != [column.name for column in columns] + [b"value"]:
        raise Refused(5, b"waldo: header\n")
    if len(found) > capacity + 1:
        raise Refused(5, f"waldo: more rows than {capacity}\n".encode())
    rows = []
    for place, fields in enumerate(found[1:], 1):
        row = read_row(fields, columns)
        if isinstance(row, str):
            raise Refused(5, f"waldo: record {place} {row}\n".encode())
        rows.append(row)
    return rows


def made_rows(columns, first, count):
    return [[(first + i * (c + 1)) % (1 << column.bits) for c, column in enumerate(columns)] + [(1000 * first + i) % (1 << 32)]
            for i in range(count)]


def total(query, rows):
    passing = [row for row in rows if all(p.low <= row[p.column] <= p.high for p in query.predicates)]
    return sum(row[-1] for row in passing) if query.aggregate == "sum" else len(passing)


def answer(who, query, rows):
    return f"{who} rows {len(rows)} {query.aggregate} {total(query, rows)}\n"


def grouped(index, group, columns, rows):
    """A line for each bucket of the group's column: the query over the rows that have it."""
    parts = [[row for row in rows if row[group.column] == which] for which in range(1 << columns[group.column].bits)]
    return "".join(f"group {index} bucket {which} rows {len(rows)} {group.query.aggregate} {total(group.query, part)}\n"
                   for which, part in enumerate(parts))


def traced(index, query, columns, count):
    """What each server sees of a query over `count` rows: visits of chunks, and words that are sent or received."""
    lists = len(query.predicates) + (query.aggregate == "sum")
    visits = 2 * lists * -(-count // CHUNK)
    keys = sum(KEY_WORDS[p.kind][0] + KEY_WORDS[p.kind][1] * columns[p.column].bits for p in query.predicates)
    words = 4 + 4 * keys + 2 * (2 * count * (2 * len(query.predicates) - 1) + 1)
    return "".join(f"trace {index} server {server} visits {visits} words {words}\n" for server in range(3))


def prefix(places):
    return next(n for n in range(len(places) + 1) if n not in places)


class Actor:
    def __init__(self):
        self.floor, self.draw, self.fixes, self.agreed, self.lines = 0, None, [], None, 0


class Core:
    """The order of draws, the places that each server has, and the actors; `step` gives a line, or None where it isn't allowed."""

    def __init__(self, rows, queries):
        self.left, self.queries, self.order = list(rows), queries, []
        self.servers, self.actors = [set(), set(), set()], [Actor() for _ in range(16)]

    def step(self, letter, number_, other=None):
        actor = self.actors[number_]
        if letter != "f" and actor.fixes:
            return None
        if letter == "a":
            return self.ask(actor, number_, other)
        if letter == "d" and (actor.draw or not self.left) or letter == "p" and not actor.draw:
            return None
        actor.agreed = None
        return {"d": self.draw, "p": self.put, "l": self.look, "f": self.fix}[letter](actor, number_, other)

    def draw(self, actor, number_, _):
        actor.draw = (len(self.order), set())
        self.order.append(self.left.pop(0))
        return f"draw {number_} place {actor.draw[0]}\n"

    def put(self, actor, _, server):
        place, given = actor.draw
        self.servers[server].add(place)
        given.add(server)
        if len(given) == 3:
            actor.floor, actor.draw = max(actor.floor, place + 1), None
        return ""

    def look(self, actor, number_, server):
        found = prefix(self.servers[server])
        actor.floor = max(actor.floor, found)
        return f"look {number_} server {server} prefix {found}\n"

    def fix(self, actor, number_, _):
        server = len(actor.fixes)
        found = prefix(self.servers[server])
        if found < actor.floor:
            actor.fixes, actor.lines = [], actor.lines + 1
            return f"ask {number_}.{actor.lines - 1} again server {server} had {found} floor {actor.floor}\n"
        actor.fixes.append(found)
        if len(actor.fixes) == 3:
            actor.agreed = actor.floor = min(actor.fixes)
            actor.fixes = []
        return ""

    def ask(self, actor, number_, which):
        if actor.agreed is None or which >= len(self.queries):
            return None
        actor.lines += 1
        return answer(f"ask {number_}.{actor.lines - 1}", self.queries[which], self.order[:actor.agreed])


def replayed(steps, rows, queries):
    core, text = Core(rows, queries), ""
    for index, step in enumerate(steps):
        line = core.step(*step)
        if line is None:
            raise Refused(2, f"waldo: step {index} not allowed\n".encode())
        text += line
    return text.encode()


def plain_query(query, columns):
    """A query over buckets, as `race_text` reads it."""
    return " ".join([query.aggregate, *(f"{columns[p.column].name.decode()}={p.low}..{p.high}" for p in query.predicates)])


class Outcome:
    """A status and a text, or a race whose text has to keep a relation."""

    def __init__(self, status, text=None, race=None):
        self.status, self.text, self.race = status, text, race

    def fault(self, status, text):
        if status != self.status:
            return f"the status is {status}, and has to be {self.status}; the text is {text[:200]!r}"
        if self.race:
            return race_text.fault(text.decode(errors="replace"), *self.race)
        return None if text == self.text else f"the text is {text[:400]!r}, and has to be {self.text[:400]!r}"

    def texts(self):
        """All texts that there may be; of a race with one writer and one asker that asks once, else None."""
        if not self.race:
            return [self.text]
        names, rows, writers, askers, rounds, queries = self.race
        if (writers, askers, rounds) != (1, 1, 1):
            return None
        head = f"rows {len(rows)}\n" + "".join(f"place {i} row {i}\n" for i in range(len(rows))) + f"back 0 rows {len(rows)}\n"
        def line(who, query, first):
            return f"{who} rows {first} {' '.join(map(str, race_text.plain(query, names, rows[:first])))}\n"
        tail = "".join(line(f"end {i}", query, len(rows)) for i, query in enumerate(queries))
        return [(head + line("ask 0.0", queries[0], first) + tail).encode() for first in range(len(rows) + 1)]


def done(command, data):
    options = command.options
    if command.name == b"make":
        rows = made_rows(command.columns, options[b"--number"], options[b"--rows"])
    else:
        most = min(65536, MOST_CELLS // cells(command.columns))
        rows = read_rows(data, command.columns, options.get(b"--capacity", most))
    if command.name == b"replay":
        return Outcome(0, replayed(options[b"--schedule"], rows, command.queries))
    if command.name == b"race":
        names = [column.name.decode() for column in command.columns]
        queries = [plain_query(query, command.columns) for query in command.queries]
        counts = [options.get(name, usual) for name, usual in ((b"--writers", 2), (b"--askers", 2), (b"--rounds", 1))]
        return Outcome(0, race=(names, rows, *counts, queries))
    if command.name == b"trace":
        return Outcome(0, "".join(traced(i, query, command.columns, len(rows)) for i, query in enumerate(command.queries)).encode())
    if command.name == b"groups":
        return Outcome(0, "".join(grouped(i, group, command.columns, rows) for i, group in enumerate(command.queries)).encode())
    return Outcome(0, "".join(answer(f"ask {i}", query, rows) for i, query in enumerate(command.queries)).encode())


def expected(words, data):
    """The outcome of words over an input that is read without a fault, with ample memory, where the text is taken whole."""
    try:
        return done(read_words(words), data)
    except Refused as refused:
        return Outcome(refused.status, refused.text)
