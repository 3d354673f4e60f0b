"""Memory that is wanting, calls that fail, and devices that are full.

Each check is given the room, what it has to fill, the cases with their folders, and the words of the command line.
"""

import os
import random
import re
import subprocess

from due import SEEN
from starts import CALL_FAILED, MAY_LACK, NO_MEMORY, PAGE, SEEN_PRINTED, SOME_NUMBERS, in_turn, marks
from talking import fed, in_pieces


def plain(room, check, cases, words):
    """Each case with nothing in its way. What a case does not say itself, it takes from here."""
    ready = []
    for one in cases:
        folder = room.place(one.files)
        ended = room.start_case(one, folder)
        if one.name in MAY_LACK and ended.is_as(b"", 2, b"words not accepted\n"):
            check.lacks("the program does not know its words", one.name)
            continue
        if one.err is None:
            is_right = re.fullmatch(rb"(stats [^\n]+ [0-9]+:[0-9]+ copied [0-9]+\n)+", ended.err) is not None
            check.judge(is_right and ended.is_as(one.out, one.status, ended.err, one.made), ended, one.name)
            one = one._replace(err=ended.err)
        elif one.out is None:
            check.judge(ended.is_as(ended.out, 0, b"") and ended.out, ended, one.name)
            one = one._replace(out=ended.out)
        else:
            check.judge(ended.is_whole(one), ended, one.name)
        ready.append((one, folder))
    return ready


def enough(room, check, name, trial, is_loaded_first):
    """Makes a trial with more and more memory, until so many in a row had enough. A trial answers how it ended, whether that is right and
    whether it had enough. Unless it is loaded first, it may not be below the least number of pages at which the program answers."""
    in_a_row, pages, answered, wanting = 0, 0, None, 0
    while in_a_row < 64:
        if pages > 50000:
            check.deviates(f"{name}: {pages} pages are not enough")
            return
        numbers = range(pages, pages + 8 * room.jobs)
        for number, (ended, is_right, has_enough) in zip(numbers, room.pool.map(trial, numbers)):
            is_loaded = ended.signal is None and not ended.is_not_loaded()
            if not is_loaded and answered is None and not is_loaded_first:
                check.saw("not loaded")
                continue
            if is_loaded and answered is None:
                answered = number
            check.judge(is_right, ended, f"{name} with {number} pages")
            wanting += ended.status == 6
            in_a_row = in_a_row + 1 if has_enough else 0
        pages = numbers[-1] + 1
    check.notes.append(f"{name}: answers from {answered} pages of 4 KiB on, out of memory {wanting} times")
    if not wanting:
        check.deviates(f"{name}: memory was never wanting")


def with_memory(one, ended):
    """Whether a start that may want memory is right, and whether it had enough."""
    has_enough = ended.is_whole(one)
    return ended, has_enough or ended.begins(one.out, 6, [NO_MEMORY]), has_enough


def memory(room, check, cases, words):
    for one, folder in cases:
        if one.name not in ("heartbeats", "kept_texts", "why", "code", "compile", "exec", "saved", "resumed", "gen"):
            continue
        for option, kind in (("-v", "RLIMIT_AS"), ("-d", "RLIMIT_DATA")):

            def trial(pages, one=one, folder=folder, option=option):
                before = ["sh", "-c", f'ulimit {option} {pages * PAGE // 1024} && exec "$@"', "sh"]
                return with_memory(one, room.start_case(one, folder, before))

            enough(room, check, f"{one.name}, {kind}", trial, False)


def room_left(room, check, cases, words):
    if not room.library:
        check.misses("there is no gcc")
        return
    for one, folder in cases:

        def trial(pages, one=one, folder=folder):
            mark, environment = room.with_library(room=pages)
            ended = room.start_case(one, folder, environment=environment)
            if "room" not in marks(mark):
                check.deviates(f"{one.name}: the limit was not set")
            return with_memory(one, ended)

        if one.name in ("heartbeats", "kept_texts", "check", "flat", "slice", "why", "code", "compile", "exec", "saved", "resumed", "show", "gen", "limit"):
            enough(room, check, one.name, trial, True)


def allocations(room, check, cases, words):
    if not room.library:
        check.misses("there is no gcc")
        return
    for one, folder in cases:
        mark, environment = room.with_library()
        ended = room.start_case(one, folder, environment=environment)
        check.judge(ended.is_whole(one), ended, f"{one.name} with nothing refused")
        count = marks(mark).get("allocations", 0)
        tried = range(1, count + 1)
        if count > words.allocations:
            tried = sorted({1 + k * (count - 1) // (words.allocations - 1) for k in range(words.allocations)})
        check.notes.append(f"{one.name}: {len(tried)} of {count} allocations")
        if not count:
            check.deviates(f"{one.name}: no allocation was seen")

        def trial(job, one=one, folder=folder):
            number, all_after = job
            mark, environment = room.with_library(refused=number, all_after=all_after)
            ended = room.start_case(one, folder, environment=environment)
            what = f"{one.name}, allocation {number}{' and all after it' if all_after else ''} refused"
            _, is_right, _ = with_memory(one, ended)
            check.judge(is_right, ended, what)
            if "refused" not in marks(mark):
                check.deviates(f"{what}: there was none")

        list(room.pool.map(trial, [(number, all_after) for all_after in (0, 1) for number in tried]))


# The calls that fail in turn, their error, how the start may then end (by failing, by being out of memory, or as if nothing was), and whether
# the library has to say what the loader's own calls are.
FAILURES = [
    ("openat", "ENOENT", {5}, False),
    ("openat", "EMFILE", {5}, False),
    ("openat", "ENOMEM", {5, 6}, False),
    ("read", "EIO", {5}, False),
    ("read", "EISDIR", {5}, False),
    ("read", "EINTR", {5, "whole"}, False),
    ("write", "EIO", {5}, False),
    ("write", "ENOSPC", {5}, False),
    ("write", "EPIPE", {5}, False),
    ("write", "EINTR", {5, "whole"}, False),
    ("mmap", "ENOMEM", {5, 6, "whole"}, True),
    ("mremap", "ENOMEM", {5, 6, "whole"}, True),
    ("munmap", "ENOMEM", {5, 6, "whole"}, True),
    ("close", "EIO", {5, "whole"}, True),
    ("fstat", "EIO", {5, "whole"}, True),
    ("newfstatat", "EIO", {5, "whole"}, True),
    ("lseek", "EIO", {5, "whole"}, True),
]

# Calls that each start makes, and those that a start with files makes.
MADE, MADE_FOR_FILES = {"write"}, {"openat", "read"}


def right_after(one, ended, ways, line):
    """Whether a start is right after a call failed, which strace shows by this line."""
    if "whole" in ways and ended.is_whole(one):
        return True
    if 6 in ways and ended.begins(one.out, 6, [NO_MEMORY]):
        return True
    # Behind a write to the error that failed, nothing more is written there.
    cut_off = [one.err[:size] for size in range(len(one.err))]
    return 5 in ways and ended.begins(one.out, 5, cut_off if "write(2," in line else [CALL_FAILED], one.made)


def injected(room, one, folder, name, error, number, piece, is_marked):
    """A start in which the call of this name and number fails: how it ended, the line of strace that shows it, and whether that was the
    program's own call."""
    log, mark = room.next_name(), room.next_name()
    before = [room.strace, "-s", "300", "-o", log, "-e", f"trace={name},openat", "-e", f"inject={name}:error={error}:when={number}"]
    if piece:
        before += ["-E", f"LD_PRELOAD={room.library}", "-E", f"HOSTILE_PIECE={piece}"]
    if is_marked:
        before += ["-E", f"LD_PRELOAD={room.library}", "-E", f"HOSTILE_MARK={mark}"]
    ended = room.start_case(one, folder, before)
    marks(mark)
    with open(log, encoding="utf-8", errors="replace") as file:
        lines = file.read().splitlines()
    os.remove(log)
    failed = [place for place, line in enumerate(lines) if "(INJECTED)" in line]
    if not failed:
        return ended, None, False
    line = lines[failed[0]]
    opened = re.search(r'openat\([^"]*"([^"]*)"', line)
    if opened:
        return ended, line, opened.group(1) in one.words or opened.group(1) in one.files
    is_own = any(f'"{mark}"' in line for line in lines[: failed[0]]) if is_marked else not ended.is_not_loaded()
    return ended, line, is_own


def calls(room, check, cases, words):
    if not room.strace:
        check.misses("there is no strace, so that the library makes reads and writes fail", "other calls")
        calls_by_library(room, check, cases)
        return
    check.notes.append("by strace")
    if not room.library:
        check.misses("there is no gcc", "calls whose numbers the loader shares")
    for one, folder in cases:
        for name, error, ways, is_marked in FAILURES:
            if is_marked and not room.library:
                continue
            # The long text of gen in small pieces would be too many calls.
            small = room.library and error == "EIO" and one.name in ("heartbeats", "refused_line", "code", "compile", "exec", "saved", "resumed", "fault")
            for piece in [0, 16] if small and not is_marked else [0]:
                own = calls_of_one_name(room, check, one, folder, name, error, ways, is_marked, piece)
                if not own and (name in MADE or (name in MADE_FOR_FILES and one.files)):
                    check.deviates(f"{one.name}: no call of {name} was seen")


def calls_of_one_name(room, check, one, folder, name, error, ways, is_marked, piece):
    """Makes each call of this name fail in turn, and answers the numbers of those that were the program's own."""
    own = []

    def trial(number):
        ended, line, is_own = injected(room, one, folder, name, error, number, piece, is_marked)
        if not line:
            return False
        if is_own:
            own.append(number)
            what = f"{one.name}, {name} number {number} {error}" + (f" in pieces of {piece}" if piece else "")
            check.judge(right_after(one, ended, ways, line), ended, f"{what}, {line}")
        else:
            check.saw("a call of the loader")
        return True

    in_turn(room, trial, 3000)
    return own


def calls_by_library(room, check, cases):
    if not room.library:
        check.misses("there is no gcc")
        return
    for one, folder in cases:
        for kind in ("read", "write"):

            def trial(number, one=one, folder=folder, kind=kind):
                mark, environment = room.with_library(**{kind: number})
                ended = room.start_case(one, folder, environment=environment)
                if "failed" not in marks(mark):
                    return False
                # Which of the writes were to the error is not known here.
                line = "write(2," if kind == "write" and ended.err != CALL_FAILED else ""
                check.judge(right_after(one, ended, {5}, line), ended, f"{one.name}, {kind} number {number}")
                return True

            if not in_turn(room, trial, 3000) and (kind == "write" or one.files):
                check.deviates(f"{one.name}: no {kind} was seen")


def pieces(room, check, cases, words):
    def short(job):
        (one, folder), piece = job
        mark, environment = room.with_library(piece=piece)
        ended = room.start_case(one, folder, environment=environment)
        check.judge(ended.is_whole(one), ended, f"{one.name} with reads and writes of at most {piece} bytes")
        if "allocations" not in marks(mark):
            check.deviates(f"{one.name}: the library was not loaded")

    if room.library:
        list(room.pool.map(short, [(one, piece) for one in cases for piece in (1, 2, 3, 5, 7, 64, 1000, 4097)]))
    else:
        check.misses("there is no gcc", "short reads and writes")

    def piped(job):
        (one, _), seed = job
        dice, own = random.Random(seed), room.place(one.files)
        running = room.begin(one.words, own, stdin=subprocess.PIPE, stdout=subprocess.PIPE, stderr=subprocess.PIPE)
        ended = room.with_made(fed(room, running, in_pieces(dice, one.stdin, dice.choice([1, 2, 5, 30])), 0.0005), one, own)
        check.judge(ended.is_whole(one), ended, f"{one.name} through a pipe in pieces")

    jobs = [(one, words.seed * 1000 + k) for one in cases if one[0].stdin for k in range(20)]
    list(room.pool.map(piped, jobs))


def full(room, check, cases, words):
    if not os.path.exists("/dev/full"):
        check.lacks("there is no /dev/full")
        return
    for one, folder in cases:
        # A file is made after all of the output.
        made = {} if one.out else one.made
        with open("/dev/full", "wb") as device:
            ended = room.start_case(one, folder, out=device)
            if one.out:
                check.judge(ended.begins(b"", 5, [CALL_FAILED]), ended, f"{one.name}, the output on a full device")
            else:
                check.judge(ended.is_as(b"", one.status, one.err, one.made), ended, f"{one.name}, the output on a full device")
            ended = room.start_case(one, folder, err=device)
            wanted = 5 if one.err else one.status
            check.judge(ended.is_as(one.out, wanted, b"", one.made), ended, f"{one.name}, the error on a full device")
            ended = room.start_case(one, folder, out=device, err=device)
            wanted = 5 if one.out or one.err else one.status
            check.judge(ended.is_as(b"", wanted, b"", made), ended, f"{one.name}, both on a full device")
        closing = ["sh", "-c", 'exec "$@" >&-', "sh"]
        ended = room.start_case(one, folder, closing)
        wanted = (5, CALL_FAILED) if one.out else (one.status, one.err)
        check.judge(ended.is_as(b"", *wanted, made), ended, f"{one.name}, the output closed")
        closing = ["sh", "-c", 'exec "$@" 2>&-', "sh"]
        ended = room.start_case(one, folder, closing)
        wanted = 5 if one.err else one.status
        check.judge(ended.is_as(one.out, wanted, b"", one.made), ended, f"{one.name}, the error closed")
        if not one.stdin:
            closing = ["sh", "-c", 'exec "$@" <&-', "sh"]
            ended = room.start_case(one, folder, closing)
            check.judge(ended.is_whole(one), ended, f"{one.name}, the input closed")
    folder = room.place({"s.tsl": SEEN.encode()})
    ended = room.start(["compile", "s.tsl", "/dev/full"], folder)
    check.judge(ended.is_as(b"", 5, CALL_FAILED), ended, "the code on a full device")
    ended = room.start(["run", "s.tsl", "--stats", "--save", "/dev/full"], folder, SOME_NUMBERS)
    check.judge(ended.is_as(SEEN_PRINTED[:26], 5, CALL_FAILED), ended, "the state on a full device")
