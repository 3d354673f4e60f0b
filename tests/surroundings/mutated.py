"""Sources and traces with random changes."""

import collections
import glob
import os
import random
import re
import shutil
import subprocess

from plain_code import code_of, code_text, refusal_of, slice_text
from due import BEATS, DIVIDED, EACH_INSTANT, ECHO, HEARTBEATS, LAST_TWO, LATEST, SEEN, WAITING, WORDS_SEEN, wanted_of
from starts import Ended, MESSAGES
from talking import fed, in_pieces, long_heartbeats, random_echo

TOP = os.path.dirname(os.path.dirname(os.path.dirname(os.path.abspath(__file__))))

TOKENS = (
    "( ) [ ] { } , . : := = + - * / % ! && || == != <= >= < > -- # \" \\ in def out as if then else true false unit nil time last delay "
    "merge default lift const filter isSome isNone getSome Some None Set Map String Int Bool Unit Events Option Set.empty[Int] Map.empty "
    "Set.add Map.get Set.contains String.concat String.size Map.size 0 1 9223372036854775807 9223372036854775808 x i m y s ä _ "
    "Queue Queue.empty[Int] Queue.enqueue Queue.dequeue Queue.front Queue.size"
).split()

TRACE_TOKENS = (
    [": ", " = ", "=", "\n", "\r\n", "\t", " ", "-", "--", "#", '"', "\\", "()", "true", "9223372036854775807", "9223372036854775808", "0"]
    + ["00", "in", "ä", "_", "\0", "\r", "beat", "n", "b", "t", "u", "other", "2:", "\n1: n = 1\n", "\n2: beat = 1\n"]
)


def mutated(dice, data, tokens, others):
    """These bytes with one to six changes."""
    data = bytearray(data)
    for _ in range(dice.choice([1, 1, 1, 1, 2, 3, 6])):
        start = dice.randint(0, len(data))
        end = min(len(data), start + dice.choice([1, 1, 2, 5, 20, 200]))
        way = dice.randint(0, 19)
        if way == 0:
            del data[start:end]
        elif way == 1:
            data[start:start] = data[start:end] * dice.choice([1, 1, 2, 80])
        elif way == 2:
            data[start:end] = dice.choice(tokens).encode()
        elif way in (3, 4):
            data[start:start] = dice.choice(tokens).encode()
        elif way == 5:
            data[start:start] = bytes([dice.choice([0, 9, 10, 13, 32, 127, 128, 0xC3, 0xE2, 0xED, 0xF0, 0xFF, dice.randint(0, 255)])])
        elif way == 6 and start < len(data):
            data[start] = dice.randint(32, 126)
        elif way == 7:
            del data[start:]
        elif way == 8:
            rows = bytes(data).split(b"\n")
            dice.shuffle(rows)
            data = bytearray(b"\n".join(rows)) if dice.random() < 0.3 else data + bytearray(dice.choice(rows) + b"\n")
        elif way == 9:
            other = dice.choice(others)
            there = dice.randint(0, len(other))
            data[start:end] = other[there : there + dice.choice([3, 10, 40, 200])]
        else:
            # A word, a number or a sign stands in the place of another one of its kind: what comes of it is often still a tree.
            kind = dice.choice([rb"[A-Za-z_][A-Za-z0-9_]*", rb"[A-Za-z_][A-Za-z0-9_]*", rb"[0-9]+", rb" [-+*/%<>=&|!]+ "])
            parts = list(re.finditer(kind, data))
            if parts:
                old, new = dice.choice(parts), dice.choice(parts)
                data[old.start() : old.end()] = new.group()
    return bytes(data)


def known_sources():
    sources = [HEARTBEATS, SEEN, WORDS_SEEN, WAITING, LAST_TWO, DIVIDED, EACH_INSTANT, ECHO]
    names = glob.glob(os.path.join(TOP, "examples", "*.tsl")) + glob.glob(os.path.join(TOP, "tests", "cases", "*", "files", "*.tsl"))
    found = []
    for name in sorted(names):
        if os.path.isfile(name) and os.path.getsize(name) <= 20000:
            with open(name, "rb") as file:
                found.append(file.read())
    return [source.encode() for source in sources] * 25 + found


def is_output(text):
    """Output lines whose times never fall, with each name once at each time."""
    before, names = -1, set()
    # A printed text or name may have any character but LF, so lines are parted by LF alone.
    for line in text.split(b"\n")[:-1]:
        found = re.fullmatch(rb"([0-9]+): ([^\n]+?) = [^\n]+", line)
        if not found:
            return False
        now = int(found.group(1))
        if now < before or (now == before and found.group(2) in names):
            return False
        names = names | {found.group(2)} if now == before else {found.group(2)}
        before = now
    return text == b"" or text.endswith(b"\n")


def is_text_of(command, text):
    if command == "run":
        return is_output(text)
    if command == "check":
        return re.fullmatch(rb"ok [0-9]+ [0-9]+\n", text) is not None
    if command == "show":
        return all(re.search(rb"^.+ [0-9]+:[0-9]+ (in place|copied: .+)$", line) for line in text.split(b"\n")[:-1])
    rows = text.split(b"\n")
    return rows.pop() == b"" and all(re.match(rb"(%[0-9]+ |out |print |keep %|timer %)", row) for row in rows) and bool(rows)


def is_sliced(room, folder, ended, name):
    """Whether a start of `slice` has the part of what `flat` prints, or says that there is none."""
    flat = room.start(["flat", "s.tsl"], folder)
    wanted = slice_text(flat.out.decode(), name).encode()
    return flat.status == 0 and ended.is_as(wanted, *((0, b"") if wanted else (10, f"no output {name}\n".encode())))


def is_compiled(room, folder, ended):
    """Whether a start of `compile` has made a file of the code that `code` prints, or none where the specification is refused."""
    file = os.path.join(folder, "c")
    if ended.status == 3:
        return not os.path.exists(file)
    with open(file, "rb") as opened:
        data = opened.read()
    code = room.start(["code", "s.tsl"], folder)
    return ended.is_as(b"", 0, b"") and refusal_of(data)[0] == "" and code.is_as(code_text(code_of(data)).encode(), 0, b"")


def sources(room, check, cases, words):
    known = known_sources()
    traces = [BEATS, b"1: i = 5\n2: i = 7\n3: i = 5\n", b"0: i = 1\n0: x = 2\n4: i = 0\n9: y = 1\n30:\n", b""]
    allowed = {"run": {0, 1, 3, 4, 7}, "check": {0, 3}, "flat": {0, 3}, "code": {0, 3}, "show": {0, 2, 3}, "slice": {0, 3, 10}, "compile": {0, 3}}
    refused = collections.Counter()

    def trial(number):
        dice = random.Random(f"{words.seed} source {number}")
        source = mutated(dice, dice.choice(known), TOKENS, known)
        trace = dice.choice(traces)
        folder = room.place({"s.tsl": source, "t": trace})
        command = dice.choice(["run", "run", "check", "flat", "code", "show", "slice", "compile"])
        name = dice.choice(re.findall(r"out ([A-Za-z_]\w*)|as ([A-Za-z_]\w*)", source.decode(errors="replace")) or [("x", "")])
        behind = {"run": ["t", "--instants", "500", "--until", "200"], "slice": ["".join(name)], "compile": ["c"]}
        said = [command, "s.tsl", *behind.get(command, [])]
        ended = room.start(said, folder)
        files = {"source": source, "trace": trace}
        what = f"mutated source {number}, {' '.join(said)}"
        is_right = ended.status in allowed[command] and re.fullmatch(MESSAGES[ended.status], ended.err) is not None
        if command == "slice" and ended.status != 3:
            is_right = is_right and is_sliced(room, folder, ended, "".join(name))
        elif command == "compile":
            is_right = is_right and is_compiled(room, folder, ended)
        else:
            is_right = is_right and (ended.out == b"" if ended.status in (2, 3) else is_text_of(command, ended.out))
        check.judge(is_right, ended, what, f"{command} {ended.label()}", **files)
        if ended.status == 3:
            refused[re.sub(rb"^spec [0-9:]* ?|[:( ].*", b"", ended.err.strip()[len("spec ") :].partition(b" ")[2]).decode()] += 1
        if number % 4 == 0 and ended.status != 2:
            # Each command refuses the same sources, for the same cause.
            again = room.start(["check", "s.tsl"], folder)
            agree = again.is_as(b"", 3, ended.err) if ended.status == 3 else again.status == 0 and is_text_of("check", again.out)
            check.judge(agree, again, f"{what}, and check after it", f"check again {again.label()}", **files)
        shutil.rmtree(folder)

    list(room.pool.map(trial, range(words.mutations)))
    check.notes.append("refused by " + ", ".join(f"{kind}: {count}" for kind, count in refused.most_common()))


def traces(room, check, cases, words):
    def trial(number):
        dice = random.Random(f"{words.seed} trace {number}")
        specification = dice.choice([HEARTBEATS, ECHO])
        known = [BEATS, long_heartbeats(dice, 12)] if specification is HEARTBEATS else [random_echo(dice, 15)]
        if dice.random() < 0.02:
            # A line as long as lines may be, or longer.
            known = [known[0] + b"#" * dice.randint(65530, 65540) + dice.choice([b"", b"\n", b" \n5:"])]
        trace = dice.choice(known)
        if dice.random() < 0.95:
            trace = mutated(dice, trace, TRACE_TOKENS, known)
        options, limits = [], {"instants": 2000}
        if dice.random() < 0.2:
            options, limits["strict"] = ["--strict"], True
        if dice.random() < 0.2:
            limits["until"] = dice.choice([0, 7, 100, 5000, 10**6])
            options.append(f"--until={limits['until']}")
        if dice.random() < 0.2:
            limits["limit"] = dice.randint(1, len(trace) + 3)
            options += ["--bytes", str(limits["limit"])]
        if dice.random() < 0.2:
            limits["instants"] = dice.randint(1, 12)
        options += ["--instants", str(limits["instants"])]
        folder = room.place({"s.tsl": specification.encode(), "t": trace})
        wanted = wanted_of(specification, trace, **limits)
        if dice.random() < 0.1:
            running = room.begin(["run", *options, "s.tsl"], folder, stdin=subprocess.PIPE, stdout=subprocess.PIPE, stderr=subprocess.PIPE)
            ended = fed(room, running, in_pieces(dice, trace, dice.choice([3, 20, 70000])))
        else:
            ended = room.start(["run", "s.tsl", "t", *options], folder)
        name = "heartbeats" if specification is HEARTBEATS else "echo"
        wanted_end = Ended(wanted[1], False, wanted[0], wanted[2]).shown()
        what = f"mutated trace {number} under {name} with {' '.join(options)}, wanted {wanted_end}"
        check.judge(ended.is_as(*wanted), ended, what, f"{name} {ended.label()}", trace=trace, source=specification.encode())
        shutil.rmtree(folder)

    list(room.pool.map(trial, range(words.mutations)))

