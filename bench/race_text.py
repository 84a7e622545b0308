"""Whether the text of a `race` can be one: recomputed from the printed order and the input, with no thread looked at."""
import re

LINES = [
    ("rows", re.compile(r"rows (\d+)")),
    ("place", re.compile(r"place (\d+) row (\d+)")),
    ("back", re.compile(r"back (\d+) rows (\d+)")),
    ("again", re.compile(r"back (\d+) again server ([012]) had (\d+) floor (\d+)")),
    ("ask", re.compile(r"ask (\d+)\.(\d+) rows (\d+) (count|sum) (0|-?[1-9]\d*)")),
    ("end", re.compile(r"end (\d+) rows (\d+) (count|sum) (0|-?[1-9]\d*)")),
]


def read_line(line):
    for kind, form in LINES:
        if found := form.fullmatch(line):
            return kind, [part if part in ("count", "sum") else int(part) for part in found.groups()]
    return "other", [line]


def passes(query, names, row):
    for predicate in query.split(" ")[1:]:
        name, value = re.split(r"<=|=", predicate, maxsplit=1)
        low, _, high = value.partition("..")
        low, high = int(low), int(high or low)
        if "<=" in predicate:
            low = 0
        if not low <= row[names.index(name)] <= high:
            return False
    return True


def plain(query, names, rows):
    """What a query's line says: `count` or `sum`, and the total over rows of raw numbers and a value."""
    kind = query.split(" ")[0]
    return [kind, sum(row[-1] if kind == "sum" else 1 for row in rows if passes(query, names, row))]


def order_fault(rows, places, writers):
    if [place for place, _ in places] != list(range(len(rows))):
        return "the places are not 0, 1, .. one after another"
    order = [row for _, row in places]
    if sorted(order) != list(range(len(rows))):
        return "not each row stands once"
    for writer in range(writers):
        own = [row for row in order if row % writers == writer]
        if own != sorted(own):
            return f"the rows of writer {writer} don't rise"
    return None


def back_fault(writer, line, order, writers):
    """A writer's last line: it agreed on no less than its own rows, or a server lacked a row of another writer."""
    kind, numbers = line
    floor = max((place + 1 for place, row in enumerate(order) if row % writers == writer), default=0)
    if kind == "back":
        good = numbers[0] == writer and floor <= numbers[1] <= len(order)
    else:
        good = kind == "again" and numbers[0] == writer and numbers[3] == floor and numbers[2] < floor \
            and order[numbers[2]] % writers != writer
    return None if good else f"the line of writer {writer} is {kind} {numbers}"


def ask_faults(asker, lines, names, in_order, queries):
    least = 0
    for round_, (kind, numbers) in enumerate(lines):
        if kind != "ask" or numbers[:2] != [asker, round_]:
            return f"the line of asker {asker} in round {round_} is {kind} {numbers}"
        count = numbers[2]
        if not least <= count <= len(in_order):
            return f"asker {asker} had {least} rows before, and {count} in round {round_}"
        wanted = plain(queries[round_ % len(queries)], names, in_order[:count])
        if numbers[3:] != wanted:
            return f"asker {asker} was told {numbers[3:]} in round {round_}; it is {wanted}"
        least = count
    return None


def fault(text, names, rows, writers, askers, rounds, queries):
    """What breaks the relation first, or None. Rows are lists of raw numbers with the value last."""
    if not text.endswith("\n"):
        return "the last line has no end"
    lines = [read_line(line) for line in text[:-1].split("\n")]
    if len(lines) != 1 + len(rows) + writers + askers * rounds + len(queries):
        return f"there are {len(lines)} lines; the first is {lines[0]}"
    if lines[0] != ("rows", [len(rows)]):
        return f"the first line is {lines[0]}"
    places, lines = lines[1:1 + len(rows)], lines[1 + len(rows):]
    if any(kind != "place" for kind, _ in places):
        return "a line for a place is another one"
    places = [numbers for _, numbers in places]
    if found := order_fault(rows, places, writers):
        return found
    order = [row for _, row in places]
    for writer in range(writers):
        if found := back_fault(writer, lines[writer], order, writers):
            return found
    lines, in_order = lines[writers:], [rows[row] for row in order]
    for asker in range(askers):
        if found := ask_faults(asker, lines[asker * rounds:(asker + 1) * rounds], names, in_order, queries):
            return found
    for query, line in enumerate(lines[askers * rounds:]):
        wanted = ("end", [query, len(rows), *plain(queries[query], names, in_order)])
        if line != wanted:
            return f"the last line of query {query} is {line}; it is {wanted}"
    return None
