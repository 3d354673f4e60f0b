"""Traces that come by a pipe while the output is read, writers that stop and readers that go away."""

import fcntl
import os
import random
import select
import subprocess
import threading
import time

from due import BEATS, ECHO, HEARTBEATS, LATEST, wanted_of
from starts import CALL_FAILED, PAGE, Ended


def fed(room, running, pieces, pause=0.0):
    """Gives pieces to a start by a pipe, and answers how it ended."""

    def feed():
        try:
            for piece in pieces:
                running.stdin.write(piece)
                running.stdin.flush()
                if pause:
                    time.sleep(pause)
            running.stdin.close()
        except (BrokenPipeError, ValueError):
            pass

    feeder = threading.Thread(target=feed)
    feeder.start()
    outs = {}
    readers = [threading.Thread(target=lambda name=name, file=file: outs.update({name: file.read()}))
               for name, file in (("out", running.stdout), ("err", running.stderr))]
    for reader in readers:
        reader.start()
    hung = False
    try:
        running.wait(timeout=room.seconds)
    except subprocess.TimeoutExpired:
        hung = True
        room.kill(running)
        running.wait()
    for thread in (feeder, *readers):
        thread.join()
    try:
        running.stdin.close()
    except BrokenPipeError:
        pass
    running.stdout.close()
    running.stderr.close()
    return Ended(None if hung else running.returncode, hung, outs["out"], outs["err"])


def in_pieces(dice, data, most):
    pieces, place = [], 0
    while place < len(data):
        size = dice.randint(1, most)
        pieces.append(data[place : place + size])
        place += size
    return pieces


class Talk:
    """A start whose trace comes by a pipe and whose output is read meanwhile."""

    def __init__(self, room, words, folder):
        self.room = room
        self.running = room.begin(words, folder, stdin=subprocess.PIPE, stdout=subprocess.PIPE, stderr=subprocess.PIPE)
        self.out = b""
        self.is_open = True

    def write(self, data):
        try:
            self.running.stdin.write(data)
            self.running.stdin.flush()
        except BrokenPipeError:
            pass

    def read(self, seconds):
        """What comes within this time, or nothing. It waits for the first byte alone."""
        if not self.is_open or not select.select([self.running.stdout], [], [], seconds)[0]:
            return False
        got = os.read(self.running.stdout.fileno(), 65536)
        self.out += got
        self.is_open = bool(got)
        return bool(got)

    def wait_for(self, due):
        """Waits until at least so much came. Answers whether it is just that."""
        end = time.monotonic() + self.room.seconds
        while len(self.out) < len(due) and self.is_open and time.monotonic() < end:
            self.read(end - time.monotonic())
        return self.out == due

    def close(self):
        try:
            self.running.stdin.close()
        except BrokenPipeError:
            pass
        self.running.stdin = None
        ended = self.room.finish(self.running)
        ended.out = self.out + ended.out
        return ended

    def close_output(self):
        self.running.stdout.close()
        self.running.stdout = None
        self.is_open = False


def long_heartbeats(dice, lines):
    now, rows = 0, []
    for _ in range(lines):
        now += dice.choice([0, 1, 3, 20, 40, 60, 130])
        rows.append(f"{now}: beat = {dice.randint(1, 9)}\n")
    seen, kept = set(), []
    for row in rows:
        if row.split(":")[0] not in seen:
            seen.add(row.split(":")[0])
            kept.append(row)
    return "".join(kept).encode()


def early(room, check, cases, words):
    folder = room.place({"s.tsl": HEARTBEATS.encode()})
    trace = BEATS + b"111: beat = 4\n120: beat = 5\n180:\n"
    rows = trace.splitlines(True)

    def leaves(after):
        """The reader goes away when so many lines of the trace were written and answered."""
        talk = Talk(room, ["run", "s.tsl"], folder)
        written = b""
        for row in rows[:after]:
            written += row
            talk.write(row)
            if not talk.wait_for(wanted_of(HEARTBEATS, written, ended=False)[0]):
                check.deviates(f"what is due after {len(written)} bytes did not come", trace=written)
        due = talk.out
        talk.close_output()
        for row in rows[after:]:
            talk.write(row)
        ended = talk.close()
        rest = wanted_of(HEARTBEATS, trace)[0][len(due) :]
        wanted = (5, CALL_FAILED) if rest else (0, b"")
        check.judge(ended.is_as(due, *wanted), ended, f"the reader goes away after {after} lines of the trace")

    # One at a time: while another start begins, it has the reader's end of the pipe for a moment as well.
    for after in range(len(rows) + 1):
        leaves(after)

    def slowly(size):
        """The reader takes few bytes at a time, and the pipe holds few."""
        many = long_heartbeats(random.Random(words.seed + size), 1500)
        folder = room.place({"s.tsl": HEARTBEATS.encode(), "t": many})
        near, far = os.pipe()
        fcntl.fcntl(far, fcntl.F_SETPIPE_SZ, PAGE)
        running = room.begin(["run", "s.tsl", "t"], folder, stdin=subprocess.DEVNULL, stdout=far, stderr=subprocess.PIPE)
        os.close(far)
        out, turns, end = [], 0, time.monotonic() + room.seconds
        while time.monotonic() < end:
            got = os.read(near, size)
            if not got:
                break
            out.append(got)
            turns += 1
            if turns % 50 == 0:
                time.sleep(0.002)
        os.close(near)
        ended = room.finish(running)
        ended.out = b"".join(out)
        check.judge(ended.is_as(*wanted_of(HEARTBEATS, many)), ended, f"a reader that takes {size} bytes at a time", trace=many)

    list(room.pool.map(slowly, [7, 100, 1000]))

    def goes_away(size):
        """The reader takes so many bytes of a long output, and goes away."""
        many = long_heartbeats(random.Random(words.seed + size), 6000)
        folder = room.place({"s.tsl": HEARTBEATS.encode(), "t": many})
        running = room.begin(["run", "s.tsl", "t"], folder, stdin=subprocess.DEVNULL, stdout=subprocess.PIPE, stderr=subprocess.PIPE)
        got = b""
        while len(got) < size:
            more = os.read(running.stdout.fileno(), size - len(got))
            if not more:
                break
            got += more
        running.stdout.close()
        running.stdout = None
        ended = room.finish(running)
        ended.out = got
        whole = wanted_of(HEARTBEATS, many)[0]
        is_right = ended.begins(whole, 5, [CALL_FAILED]) and len(whole) > 150000
        check.judge(is_right, ended, f"a reader that goes away after {size} bytes", trace=many)

    list(room.pool.map(goes_away, [1, 13, 1000, 5000, 66000]))


def cuts(room, check, cases, words):
    folder = room.place({"s.tsl": HEARTBEATS.encode()})
    trace = BEATS + b"111: beat = 4"

    def ends(place):
        there = room.place({"t": trace[:place], "s.tsl": HEARTBEATS.encode()})
        wanted = wanted_of(HEARTBEATS, trace[:place])
        for option in ([], ["--until", "300"], ["--strict"]):
            if option:
                wanted = wanted_of(HEARTBEATS, trace[:place], until=300 if option[0] == "--until" else None, strict="--strict" in option)
            ended = room.start(["run", "s.tsl", "t", *option], there)
            check.judge(ended.is_as(*wanted), ended, f"the trace ends at byte {place} {' '.join(option)}", trace=trace[:place])

    def stops(job):
        place, goes_on = job
        talk = Talk(room, ["run", "s.tsl"], folder)
        talk.write(trace[:place])
        due = wanted_of(HEARTBEATS, trace[:place], ended=False)[0]
        what = f"the writer stops at byte {place} and {'goes on' if goes_on else 'ends'}"
        is_due = talk.wait_for(due)
        # Nothing more comes while the writer waits, and the program waits as well.
        while talk.read(0.05):
            is_due = False
        is_waiting = talk.running.poll() is None
        if goes_on:
            talk.write(trace[place:])
        ended = talk.close()
        wanted = wanted_of(HEARTBEATS, trace if goes_on else trace[:place])
        check.judge(is_due and is_waiting and ended.is_as(*wanted), ended, what, trace=trace[:place])

    list(room.pool.map(ends, range(len(trace) + 1)))
    list(room.pool.map(stops, [(place, goes_on) for goes_on in (True, False) for place in range(len(trace) + 1)]))


def lines(room, check, cases, words):
    folder = room.place({"s.tsl": HEARTBEATS.encode(), "e.tsl": ECHO.encode()})
    ended = room.start(["compile", "s.tsl", "s.code"], folder)
    check.judge(ended.is_as(b"", 0, b""), ended, "what is run as a code file")

    def talks(job):
        specification, file, trace, *earlier = job
        written, is_due, more, before, options = b"", True, trace, b"", []
        for place in earlier:
            written, more, options = trace[:place], trace[place:], ["--resume", f"state{place}"]
            before = wanted_of(specification, written, ended=False)[0]
            saved = room.start(["run", file, "--save", options[1]], folder, written)
            is_due = saved.is_as(before, 0, b"")
        talk = Talk(room, ["exec" if file == "s.code" else "run", file, *options], folder)
        for row in more.splitlines(True):
            if is_due:
                written += row
                talk.write(row)
                is_due = talk.wait_for(wanted_of(specification, written, ended=False)[0][len(before) :])
        is_due = is_due and not talk.read(0.05)
        ended = talk.close()
        out, *end = wanted_of(specification, trace)
        is_right = is_due and ended.is_as(out[len(before) :], *end)
        what = "" if is_due else f", after {len(written)} bytes not just what is due"
        check.judge(is_right, ended, f"a line at a time{what}", trace=trace)

    dice = random.Random(words.seed)
    jobs = [(HEARTBEATS, "s.tsl", BEATS)]
    jobs += [(HEARTBEATS, "s.tsl", long_heartbeats(dice, 150)) for _ in range(6)]
    jobs += [(HEARTBEATS, "s.code", long_heartbeats(dice, 150)) for _ in range(2)]
    jobs += [(ECHO, "e.tsl", random_echo(dice, 120)) for _ in range(6)]
    jobs += [(HEARTBEATS, "s.tsl", long_heartbeats(dice, 120), place) for place in (700, 901)]
    jobs += [(ECHO, "e.tsl", random_echo(dice, 120), 333)]
    list(room.pool.map(talks, jobs))


def random_echo(dice, count):
    """A trace for ECHO."""
    values = {
        "n": ["0", "-5", "0007", str(LATEST), str(-LATEST - 1)],
        "b": ["true", "false"],
        "t": ['""', '"a"', '"\\"\\\\\\n"', '"ä€𝄞"', '"# -- \t="'],
        "u": ["()"],
    }
    now, rows, came = 0, [], set()
    for _ in range(count):
        if dice.random() < 0.6:
            now += dice.choice([1, 2, 50, 10**6])
            came = set()
        name = dice.choice("nbtu")
        if dice.random() < 0.1:
            rows.append(dice.choice([f"{now}:", f"{now}: other = 5", "# a comment", "", "  -- = ", f" {now} :x"]))
        elif name not in came:
            came.add(name)
            value = "" if name == "u" and dice.random() < 0.5 else f" = {dice.choice(values[name])}"
            rows.append(f"{now}: {name}{value}")
    return ("\n".join(rows) + "\n").encode()


