"""The cases, how a program is started, and what a check has seen."""

import collections
import concurrent.futures
import os
import re
import shutil
import signal
import subprocess
import tempfile
import threading

from due import BEATS, BEATS_PRINTED, DIVIDED, EACH_INSTANT, HEARTBEATS, SEEN, WAITING, WORDS_SEEN

HERE = os.path.dirname(os.path.abspath(__file__))

# The texts of a trace that grows what is kept: each of so many bytes.
LONG_TEXTS = [str(k).ljust(2000, "x") for k in range(60)]

PAGE = 4096

SOME_NUMBERS = b"1: i = 5\n2: i = 7\n3: i = 5\n"
SEEN_PRINTED = b"1: s = false\n2: s = false\n3: s = true\n"
SEEN_BEGUN, SEEN_REST = SOME_NUMBERS[:22], SOME_NUMBERS[22:]
SEEN_DUE = SEEN_PRINTED[:13]

# The one line of each status.
MESSAGES = {
    0: rb"",
    1: rb"[0-9]+: fault (Overflow|DivideByZero|MissingKey|NoValue|TextTooLong|DelayNotPositive|EmptyQueue) at [0-9]+:[0-9]+\n",
    2: rb"words not accepted\n",
    3: rb"spec [0-9]+:[0-9]+: (WrongType: have [^\n]+, want [^\n]+|cycle [^\n]+ -> [^\n]+|[A-Z][A-Za-z0-9]+)\n",
    4: rb"trace [0-9]+: (not a trace line|time too large|time [0-9]+ after [0-9]+|[^\n]+ twice at one time|wrong value for [^\n]+"
    rb"|unknown stream|line too long|trace too long)\n",
    5: rb"outside: a call failed\n",
    6: rb"out of memory\n",
    7: rb"limit: [0-9]+ instants before time [0-9]+\n",
    8: rb"state: (other program|wrong form)\n",
    9: rb"code: (too long|wrong form|wrong types in equation [0-9]+|cycle|plan not fine)\n",
    10: rb"no (output [^\n]+|event of [^\n]+ at [0-9]+)\n",
}
CALL_FAILED = b"outside: a call failed\n"
NO_MEMORY = b"out of memory\n"

# A start of the program: its words, the files that it finds, its standard input, how it has to end, and the files that it has to make. Where no
# output is wanted by the case itself, it is the one of the plain start; and so is the error, which then has statistics.
Case = collections.namedtuple("Case", "name words files stdin out status err made")


def case(name, words, files=(), stdin=b"", out=None, status=0, err=b"", made=()):
    ready = {file: text if isinstance(text, bytes) else text.encode() for file, text in dict(files).items()}
    return Case(name, words.split(), ready, stdin, out, status, err, dict(made))


def made_by_row(row, name):
    """What a row of tests/run makes of SEEN."""
    with open(os.path.join(HERE, "..", "cases", row, "made", name), "rb") as file:
        return file.read()


def code_of_seen():
    return made_by_row("compile_of_numbers_that_came", "s.code")


def state_of_seen():
    """The state after SEEN_BEGUN, which ends within a line."""
    return made_by_row("save_of_numbers_that_came", "state")


def quiet_explained():
    """Why the last event of the heartbeats came."""
    with open(os.path.join(HERE, "..", "explained", "heartbeats_of_devices"), "rb") as file:
        return re.split(rb"^(?=#0 )", file.read(), flags=re.M)[-1]


def kept_words():
    """Texts that are kept, so that memory grows from line to line."""
    trace = "".join(f'{k}: t = "{text}"\n' for k, text in enumerate(LONG_TEXTS, 1))
    printed = "".join(f"{k}: came = false\n{k}: size = {k}\n" for k in range(1, len(LONG_TEXTS) + 1))
    return trace.encode(), printed.encode()


def waiting_words():
    """Texts that wait in a queue, until all are taken but for one."""
    count = len(LONG_TEXTS)
    trace = "".join(f'{k}: t = "{text}"\n' for k, text in enumerate(LONG_TEXTS, 1))
    trace += "".join(f"{k}: r\n" for k in range(count + 1, 2 * count))
    printed = "".join(f"{k}: rest = {k}\n" for k in range(count + 1))
    for number, text in enumerate(LONG_TEXTS[:-1], 1):
        printed += f'{count + number}: taken = "{text}"\n{count + number}: rest = {count - number}\n'
    return trace.encode(), printed.encode()


def all_cases():
    h, s = {"s.tsl": HEARTBEATS, "t": BEATS}, {"s.tsl": SEEN}
    trace, printed = kept_words()
    texts, taken = waiting_words()
    return [
        case("heartbeats", "run s.tsl t", h, out=BEATS_PRINTED),
        case("heartbeats_through_a_pipe", "run s.tsl", h, BEATS, out=BEATS_PRINTED),
        case("specification_through_a_pipe", "run - t", h, HEARTBEATS.encode(), out=BEATS_PRINTED),
        case("kept_texts", "run s.tsl t", {"s.tsl": WORDS_SEEN, "t": trace}, out=printed),
        case("waiting_texts", "run s.tsl t", {"s.tsl": WAITING, "t": texts}, out=taken),
        case("fault", "run s.tsl", {"s.tsl": DIVIDED}, b"1: i = 1\n3: i = 0\n4: i = 1\n", b"1: q = 1\n", 1,
             b"3: fault DivideByZero at 2:10\n"),
        case("no_words", "", out=b"", status=2, err=b"words not accepted\n"),
        case("refused_specification", "run s.tsl", {"s.tsl": "def a: Events[Int] := a + 1\nout a\n"}, out=b"", status=3,
             err=b"spec 1:23: cycle a -> a\n"),
        case("refused_line", "run s.tsl", s, b"1: i = 5\n2: i = 7\n2: i = 6\n", b"1: s = false\n", 4, b"trace 3: i twice at one time\n"),
        case("limit", "run s.tsl --instants 100", {"s.tsl": EACH_INSTANT}, b"1000:\n",
             "".join(f"{k}: p = ()\n" for k in range(1, 100)).encode(), 7, b"limit: 100 instants before time 100\n"),
        case("check", "check s.tsl", h),
        case("flat", "flat s.tsl", h),
        case("slice", "slice s.tsl late", h),
        case("no_output", "slice s.tsl gap", h, out=b"", status=10, err=b"no output gap\n"),
        case("why", "why s.tsl t quiet 95", h, out=quiet_explained()),
        case("why_through_a_pipe", "why s.tsl - quiet 95 --instants 5", h, BEATS, out=quiet_explained()),
        case("no_event", "why s.tsl t quiet 94", h, out=b"", status=10, err=b"no event of quiet at 94\n"),
        case("why_past_a_fault", "why s.tsl - q 3", {"s.tsl": DIVIDED}, b"1: i = 1\n3: i = 0\n4: i = 1\n", b"", 1,
             b"3: fault DivideByZero at 2:10\n"),
        case("why_at_a_refused_line", "why s.tsl - s 2", s, b"1: i = 5\n2: i = 7\n2: i = 6\n", b"", 4, b"trace 3: i twice at one time\n"),
        case("why_past_the_limit", "why s.tsl --instants 100 - p 200", {"s.tsl": EACH_INSTANT}, b"1000:\n", b"", 7,
             b"limit: 100 instants before time 100\n"),
        case("code", "code s.tsl", h),
        case("compile", "compile s.tsl c", {**s, "c": "an old file\n"}, out=b"", made={"c": code_of_seen()}),
        case("exec", "exec c t", {"c": code_of_seen(), "t": SOME_NUMBERS}, out=SEEN_PRINTED),
        case("exec_through_a_pipe", "exec - t", {"t": SOME_NUMBERS}, code_of_seen(), out=SEEN_PRINTED),
        case("refused_code", "exec c t", {"c": code_of_seen()[:-1], "t": SOME_NUMBERS}, out=b"", status=9, err=b"code: wrong form\n"),
        case("saved", "run s.tsl t --save state", {**s, "t": SEEN_BEGUN, "state": "an old file\n"}, out=SEEN_DUE, made={"state": state_of_seen()}),
        case("resumed", "run s.tsl t --resume state", {**s, "t": SEEN_REST, "state": state_of_seen()}, out=SEEN_PRINTED[13:]),
        case("resumed_through_a_pipe", "exec c t --resume -", {"c": code_of_seen(), "t": SEEN_REST}, state_of_seen(), out=SEEN_PRINTED[13:]),
        case("resumed_and_saved", "exec c --resume state --stats --save state", {"c": code_of_seen(), "state": state_of_seen()}, SEEN_REST,
             out=SEEN_PRINTED[13:26], err=b"stats y 4:28 copied 0\n", made={"state": made_by_row("resume_and_save", "next")}),
        case("refused_state", "run s.tsl t --resume state", {**s, "t": SEEN_REST, "state": state_of_seen()[:-1]}, out=b"", status=8,
             err=b"state: wrong form\n"),
        case("another_state", "run s.tsl absent --resume state --stats", {"s.tsl": HEARTBEATS, "state": state_of_seen()}, out=b"", status=8,
             err=b"state: other program\n"),
        case("gen", "gen seen 5000", out="".join(f"{k}: i = {k % 1000}\n" for k in range(1, 5001)).encode()),
        case("bench", "bench seen 50"),
        case("show", "show s.tsl", h, out=b"upd 9:12 in place\n"),
        case("stats", "run s.tsl t --stats", h, out=BEATS_PRINTED, err=None),
    ]


# Commands that a program may lack. A case of one of them is left out where its words are not accepted.
MAY_LACK = {"show", "stats"}


# Starts


class Ended:
    """How a start ended."""

    def __init__(self, code, hung, out, err):
        self.hung, self.out, self.err = hung, out, err
        # The files that it has made, or made anew.
        self.made = {}
        self.signal = -code if code is not None and code < 0 else None
        self.status = code if self.signal is None else None

    def label(self):
        if self.hung:
            return "hung"
        if self.signal is not None:
            return f"signal {signal.Signals(self.signal).name}"
        return f"status {self.status}"

    def is_not_loaded(self):
        """The loader or the shell says that the program or the library before it can't be loaded."""
        said = b"loading shared libraries" in self.err or b"cannot be preloaded" in self.err
        return said or self.status in (126, 127) or (self.status is not None and self.status > 128)

    def is_as(self, out, status, err, made=()):
        is_so = (self.out, self.status, self.err, self.made) == (out, status, err, dict(made))
        return self.signal is None and not self.hung and is_so

    def is_whole(self, one):
        """It ended as the case has to."""
        return self.is_as(one.out, one.status, one.err, one.made)

    def begins(self, whole, status, errs, made=()):
        """It ended so, with a beginning of the whole output, beginnings of these files at most, and one of these messages."""
        begun = all(dict(made).get(name, b"").startswith(data) and name in dict(made) for name, data in self.made.items())
        return self.signal is None and not self.hung and self.status == status and whole.startswith(self.out) and begun and self.err in errs

    def shown(self):
        made = "".join(f", {name} {shortly(data)}" for name, data in self.made.items())
        return f"{self.label()}, output {shortly(self.out)}, error {shortly(self.err)}{made}"


def shortly(text):
    return repr(text) if len(text) <= 300 else f"{text[:120]!r}..{text[-120:]!r} ({len(text)} bytes)"


# So many starts may hang.
MOST_HUNG = 3


class TooMany(Exception):
    """Too many starts hung."""


class Room:
    """The program, where it is started, and how."""

    def __init__(self, words):
        self.program = os.path.abspath(words.program)
        self.seconds = words.seconds
        self.jobs = words.jobs
        self.folder = tempfile.mkdtemp(prefix="tessla-hostile.")
        self.strace = shutil.which("strace")
        self.library = self.compiled()
        self.lock = threading.Lock()
        self.count = 0
        self.hung = 0
        self.pool = concurrent.futures.ThreadPoolExecutor(max_workers=self.jobs)

    def compiled(self):
        """The library that is put before the C library, or None."""
        if not shutil.which("gcc"):
            return None
        to = os.path.join(self.folder, "loaded.so")
        ran = subprocess.run(["gcc", "-O1", "-fno-builtin", "-shared", "-fPIC", "-o", to, os.path.join(HERE, "loaded.c")], check=False)
        return to if ran.returncode == 0 else None

    def next_name(self):
        with self.lock:
            self.count += 1
            return os.path.join(self.folder, f"start{self.count}")

    def place(self, files):
        """A folder with these files."""
        folder = self.next_name()
        os.mkdir(folder)
        for name, text in dict(files).items():
            with open(os.path.join(folder, name), "wb") as file:
                file.write(text)
        return folder

    def begin(self, words, folder, before=(), environment=None, **how):
        """A running start."""
        if self.hung >= MOST_HUNG:
            raise TooMany(f"{self.hung} starts hung")
        given = dict(os.environ, **{name: str(value) for name, value in (environment or {}).items()})
        return subprocess.Popen([*before, self.program, *words], cwd=folder, env=given, start_new_session=True, **how)

    def start(self, words, folder, stdin=b"", before=(), environment=None, out=subprocess.PIPE, err=subprocess.PIPE):
        running = self.begin(words, folder, before, environment, stdin=subprocess.PIPE, stdout=out, stderr=err)
        return self.finish(running, stdin)

    def start_case(self, one, folder, before=(), environment=None, **how):
        """A start of a case. Where files are made it has a folder of its own, and what is made there is read."""
        if not one.made:
            return self.start(one.words, folder, one.stdin, before, environment, **how)
        own = self.place(one.files)
        return self.with_made(self.start(one.words, own, one.stdin, before, environment, **how), one, own)

    @staticmethod
    def with_made(ended, one, own):
        """How a start of a case ended, with what it has made in a folder of its own, which is removed."""
        for name in os.listdir(own):
            with open(os.path.join(own, name), "rb") as file:
                data = file.read()
            if data != one.files.get(name):
                ended.made[name] = data
        shutil.rmtree(own)
        return ended

    def finish(self, running, stdin=None):
        try:
            out, err = running.communicate(stdin, timeout=self.seconds)
        except subprocess.TimeoutExpired:
            self.kill(running)
            out, err = running.communicate()
            return Ended(None, True, out or b"", err or b"")
        return Ended(running.returncode, False, out or b"", err or b"")

    def kill(self, running):
        """Ends a start that hangs, with all that it has started."""
        with self.lock:
            self.hung += 1
        os.killpg(running.pid, signal.SIGKILL)

    def with_library(self, **values):
        mark = self.next_name()
        asked = {f"HOSTILE_{name.upper()}": value for name, value in values.items()}
        return mark, {"LD_PRELOAD": self.library, "HOSTILE_MARK": mark, **asked}


def marks(mark):
    """What the library said on this file."""
    try:
        with open(mark, encoding="ascii") as file:
            said = file.read()
        os.remove(mark)
    except FileNotFoundError:
        return {}
    return {line.split()[0]: int(line.split()[1]) for line in said.splitlines()}


class Check:
    """What one check has seen."""

    def __init__(self, name, keep):
        self.name, self.keep = name, keep
        self.counts = collections.Counter()
        self.deviations = 0
        self.notes = []
        # What was left out and why: what could be had here, and what can't.
        self.missing, self.lacking = [], []
        self.lock = threading.Lock()

    def saw(self, label):
        with self.lock:
            self.counts[label] += 1

    def misses(self, why, what=""):
        """Something is left out, or all, that could be had here."""
        self.missing.append((f", {what}" if what else "", why))

    def lacks(self, why, what=""):
        """Something is left out, or all, that can't be had here."""
        self.lacking.append((f", {what}" if what else "", why))

    def deviates(self, what, **files):
        with self.lock:
            self.deviations += 1
            number = self.deviations
        if number <= 20:
            print(f"  {self.name}: {what}", flush=True)
        if self.keep:
            folder = os.path.join(self.keep, f"{self.name}-{number}")
            os.makedirs(folder, exist_ok=True)
            for name, text in files.items():
                with open(os.path.join(folder, name), "wb") as file:
                    file.write(text)

    def judge(self, is_right, ended, what, label=None, **files):
        self.saw(label or ended.label())
        if not is_right:
            self.deviates(f"{what}: {ended.shown()}", **files)

    def starts(self):
        return sum(self.counts.values())

    def report(self):
        said = ", ".join(f"{label}: {count}" for label, count in sorted(self.counts.items()))
        print(f"{self.name}: {self.starts()} starts, {self.deviations} deviations; {said}", flush=True)
        for note in self.notes:
            print(f"  {note}", flush=True)


def in_turn(room, trial, most):
    """Makes a trial for the numbers from 1 on, until one says that nothing was there any more. Answers how many there were."""
    first = 1
    while first <= most:
        numbers = range(first, min(first + 4 * room.jobs, most + 1))
        for number, more in zip(numbers, room.pool.map(trial, numbers)):
            if not more:
                return number - 1
        first = numbers[-1] + 1
    return most

