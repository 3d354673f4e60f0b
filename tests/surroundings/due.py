"""What a program has to print: some specifications, and what a run under two of them prints of any bytes of a trace.

The heartbeats and the echo are worked out by hand here, without a specification being read; and so are the lines of a trace.
"""

import collections
import re

HEARTBEATS = """-- heartbeats of devices
in beat: Events[Int]
def since(m: Map[Int, Int], k: Int, t: Int): Int :=
  if Map.contains(m, k) then t - Map.get(m, k) else 0
def old := last(seen, beat)
def now := time(beat)
def gap := since(old, beat, now)
def late := filter(beat, gap > 30)
def upd := Map.add(old, beat, now)
def seen: Events[Map[Int, Int]] := merge(upd, Map.empty[Int, Int])
def ticks: Events[Int] := merge(last(ticks, beat) + 1, 0)
def start := merge(beat, 0)
def quiet := delay(const(50, start), start)
out late
out ticks
out quiet
out Map.size(seen) as devices
"""

BEATS = b"10: beat = 1\n20: beat = 2\n45: beat = 1\n110:\n"

BEATS_PRINTED = b"""0: ticks = 0
0: devices = 0
10: ticks = 1
10: devices = 1
20: ticks = 2
20: devices = 2
45: late = 1
45: ticks = 3
45: devices = 2
95: quiet = ()
"""

SEEN = """in i: Events[Int]
def m := merge(y, Set.empty[Int])
def yl := last(m, i)
def y: Events[Set[Int]] := Set.add(yl, i)
def s := Set.contains(yl, i)
out s
"""

WORDS_SEEN = """in t: Events[String]
def m := merge(y, Set.empty[String])
def yl := last(m, t)
def y: Events[Set[String]] := Set.add(yl, t)
out Set.contains(yl, t) as came
out Set.size(y) as size
"""

WAITING = """in t: Events[String]
in r: Events[Unit]
def before := merge(last(q, t), Queue.empty[String])
def all := merge(Queue.enqueue(before, t), merge(last(q, r), Queue.empty[String]))
def some := filter(all, merge(const(true, r), const(false, t)) && Queue.size(all) > 0)
def q: Events[Queue[String]] := merge(Queue.dequeue(some), all)
out Queue.front(some) as taken
out Queue.size(q) as rest
"""

LAST_TWO = """in i: Events[Int]
in x: Events[Int]
def all := Queue.enqueue(merge(last(q, i), Queue.empty[Int]), i)
def full := filter(all, Queue.size(all) > 2)
def q: Events[Queue[Int]] := merge(merge(Queue.dequeue(full), all), Queue.empty[Int])
out last(q, x) as before
out q
"""

DIVIDED = "in i: Events[Int]\ndef q := 1 / i\nout q\n"

EACH_INSTANT = "def p: Events[Unit] := delay(const(1, merge(unit, p)), unit)\nout p\n"

ECHO = "in n: Events[Int]\nin b: Events[Bool]\nin t: Events[String]\nin u: Events[Unit]\nout n\nout b\nout t\nout u\n"

LATEST = (1 << 63) - 1
MOST_BYTES = 1 << 40
MOST_INSTANTS = 10**12

# A trace as it is read: the lines, each with its time and perhaps an input and its value; and the refusal, where there is one.
Reading = collections.namedtuple("Reading", "lines refusal")

RESERVED = {"in", "def", "out", "as", "if", "then", "else", "true", "false"}
ESCAPES = {'"': '"', "\\": "\\", "n": "\n", "t": "\t", "r": "\r"}


def is_name(text):
    return text.isidentifier() and text not in RESERVED


def text_of(value):
    """The text that these bytes between quotes spell, or None."""
    try:
        inside = value.decode("utf-8")
    except UnicodeDecodeError:
        return None
    if len(inside) < 2 or inside[0] != '"':
        return None
    got, place = [], 1
    while place < len(inside):
        if inside[place] == '"':
            return "".join(got) if place == len(inside) - 1 else None
        if inside[place] == "\\":
            place += 1
            if inside[place : place + 1] not in ESCAPES:
                return None
            got.append(ESCAPES[inside[place]])
        else:
            got.append(inside[place])
        place += 1
    return None


def value_of(value, kind):
    """The printed form of a value of this type that these bytes spell, or None. There may be no value (None) for Unit alone."""
    if kind == "Unit":
        return "()" if value in (None, b"()") else None
    if value is None:
        return None
    if kind == "Bool":
        return value.decode() if value in (b"true", b"false") else None
    if kind == "Int":
        if not re.fullmatch(rb"-?[0-9]+", value) or not -LATEST - 1 <= int(value) <= LATEST:
            return None
        return str(int(value))
    text = text_of(value)
    if text is None:
        return None
    for sign, letter in (("\\", "\\"), ('"', '"'), ("\n", "n"), ("\t", "t"), ("\r", "r")):
        text = text.replace(sign, "\\" + letter)
    return f'"{text}"'


def parts_of(line):
    """TIME, NAME and VALUE of a line without blanks at its end, the last two None where they are left out; or None."""
    found = re.fullmatch(rb"[ \t]*([0-9]+)[ \t]*:[ \t]*(?:([^ \t=]+)[ \t]*(?:=[ \t]*(.+))?)?", line, re.DOTALL)
    if not found:
        return None
    number, name, value = found.groups()
    if name is None:
        return int(number), None, None
    try:
        name = name.decode("utf-8")
    except UnicodeDecodeError:
        return None
    return (int(number), name, value) if is_name(name) else None


def read_trace(trace, ended, inputs, strict=False, limit=MOST_BYTES):
    """Reads a trace for inputs with these types."""
    lines, before, came = [], None, set()
    within = trace[:limit]
    rows = within.split(b"\n")
    rest = rows.pop()
    number = 0

    def refused(text):
        return Reading(lines, f"trace {number}: {text}\n".encode())

    if len(trace) <= limit and ended and rest:
        rows.append(rest)
    for row in rows:
        number += 1
        if len(row) > 65536:
            return refused("line too long")
        line = row.rstrip(b" \t\r")
        start = line.lstrip(b" \t")
        if not start or start.startswith((b"#", b"--")):
            continue
        parts = parts_of(line)
        if not parts:
            return refused("not a trace line")
        now, name, value = parts
        if now > LATEST:
            return refused("time too large")
        if before is not None and now < before:
            return refused(f"time {now} after {before}")
        if name not in inputs:
            if strict and name is not None:
                return refused("unknown stream")
            lines.append((now, None, None))
        else:
            printed = value_of(value, inputs[name])
            if printed is None:
                return refused(f"wrong value for {name}")
            if now == before and name in came:
                return refused(f"{name} twice at one time")
            lines.append((now, name, printed))
        if now != before:
            came = set()
        came.add(name)
        before = now
    number += 1
    # What stands after the last line end, with the first byte beyond the limit.
    if len(rest) + (len(trace) > limit and trace[limit : limit + 1] != b"\n") > 65536:
        return refused("line too long")
    if len(trace) > limit:
        return refused("trace too long")
    return Reading(lines, None)


def heartbeats(events, bound):
    """The instants up to a bound under HEARTBEATS, each with what is printed; the events are of beat by their times."""
    came, ticks, due, last = {}, 0, None, -1
    while True:
        now = min([t for t in events if t > last] + ([due] if due is not None else []), default=None) if last >= 0 else 0
        if now is None or now > bound:
            return
        last = now
        fires = due == now
        beat = int(events[now]) if now in events else None
        text = []
        if now == 0:
            text += ["ticks = 0", "devices = 0"]
        elif beat is not None:
            if now - came.get(beat, now) > 30:
                text.append(f"late = {beat}")
            came[beat] = now
            ticks += 1
            text += [f"ticks = {ticks}"] + ["quiet = ()"] * fires + [f"devices = {len(came)}"]
        elif fires:
            text.append("quiet = ()")
        if beat is not None or now == 0:
            due = now + 50 if now + 50 <= LATEST else None
        elif fires:
            due = None
        yield now, "".join(f"{now}: {line}\n" for line in text).encode()


def echoes(events, bound):
    """The same under ECHO; the events are lists of names and values by their times."""
    for now in sorted({0, *events}):
        if now > bound:
            return
        yield now, "".join(f"{now}: {name} = {events[now][name]}\n" for name in "nbtu" if name in events.get(now, {})).encode()


def wanted_of(specification, trace, ended=True, until=None, instants=MOST_INSTANTS, strict=False, limit=MOST_BYTES):
    """Output, status and message of a run under HEARTBEATS or ECHO on these bytes of a trace. Where it has not ended, the status is None
    unless the run is over by what came."""
    inputs = {"beat": "Int"} if specification is HEARTBEATS else {"n": "Int", "b": "Bool", "t": "String", "u": "Unit"}
    reading = read_trace(trace, ended, inputs, strict, limit)
    last = reading.lines[-1][0] if reading.lines else 0
    bound = last - 1
    if ended and not reading.refusal:
        bound = max(last, until) if until is not None else last
    events = {}
    for now, name, value in reading.lines:
        if name is not None and specification is HEARTBEATS:
            events[now] = value
        elif name is not None:
            events.setdefault(now, {})[name] = value
    out, ran = b"", 0
    for now, text in (heartbeats if specification is HEARTBEATS else echoes)(events, bound):
        if ran == instants:
            return out, 7, f"limit: {instants} instants before time {now}\n".encode()
        ran += 1
        out += text
    if reading.refusal:
        return out, 4, reading.refusal
    return out, 0 if ended else None, b""
