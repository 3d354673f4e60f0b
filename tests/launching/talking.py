"""What is added to the program's messages on a terminal, and what a terminal gets."""

import contextlib
import fcntl
import os
import re
import shutil
import signal
import subprocess

from starts import LAUNCHER, LIMIT, TOP, Terminal, controls_in, environment, is_alive, kill, until

# What a terminal would do something at: a title, an erased screen, and the same by one character of two bytes in UTF-8.
HOSTILE = "\033]0;title\007\033[2J\u009b31m\x7f\r"
# The line of output that has that text.
HOSTILE_LINE = '1: s = "' + HOSTILE.replace("\r", "\\r") + '"\n'
SHELLS = ("dash", "bash")
# Starts a tool for which the first look at its pipes is one that came too early: what is there by then is seen by the next one.
LATE = """
import os, runpy, select, sys, time
look = select.select
def early(*given):
    select.select = look
    time.sleep(1)
    return [], [], []
select.select = early
sys.argv = sys.argv[1:]
sys.path.insert(0, os.path.dirname(sys.argv[0]))
runpy.run_path(sys.argv[0], run_name="__main__")
"""


def write_files(starts):
    starts.write("q.tsl", "in i: Events[Int]\ndef q := 100 / i\nout q\n")
    starts.write("s.tsl", "in s: Events[String]\nout s\n")
    starts.write("fault.trace", "1: i = 5\n2: i = 0\n9:\n")
    starts.write("line.trace", "1: i = 5\n 2: i = x\n")
    starts.write("name.tsl", "in beat: Events[Unit]\n\tout baet\n")


def without_remedy(err):
    """The lines of standard error without cause and remedy, and the remedy. The manual's table stands in no test."""
    lines = err.decode("utf-8", "surrogateescape").splitlines(True)
    remedies = [it for it in lines if it.startswith("  remedy: ")]
    has_both = len(remedies) == 1 and len([it for it in lines if re.match("  cause:  .", it)]) == 1
    return "".join(it for it in lines if not it.startswith(("  cause:  ", "  remedy: "))), remedies[0] if has_both else ""


def explained(starts, what, ended, status, out, err, remedy):
    """Whether a message stands there with its place, and with a remedy that speaks of that."""
    less, found = without_remedy(ended.err)
    starts.tried.holds(f"{what} has its remedy", remedy in found, ended)
    ended.err = less.encode("utf-8", "surrogateescape")
    starts.tried.ended(what, ended, status, out, err)


def explains(starts):
    fault = "2: fault DivideByZero at 2:10\nq.tsl:2:10: DivideByZero\n    def q := 100 / i\n             ^\n"
    explained(starts, "a fault", starts.extras("run", "q.tsl", "fault.trace"), 1, "1: q = 20\n", fault, "divisor")
    line, excerpt = "spec 2:6: UnknownName\n", "     out baet\n         ^\n"
    refusal = f"{line}name.tsl:2:6: UnknownName\n{excerpt}"
    explained(starts, "a refusal", starts.extras("check", "name.tsl"), 3, "", refusal, "beat")
    with open(os.path.join(starts.room, "name.tsl"), "rb") as given:
        explained(starts, "a refusal of the standard input", starts.extras("check", "-", given=given), 3, "", line + excerpt, "beat")
    starts.write("cycle.tsl", "def a: Events[Int] := a + 1\nout a\n")
    cycle = "spec 1:23: cycle a -> a\ncycle.tsl:1:23: cycle\n    def a: Events[Int] := a + 1\n                          ^\n  cycle.tsl:1:5: a\n"
    explained(starts, "a cycle", starts.extras("check", "cycle.tsl"), 3, "", cycle, "last")
    starts.write("type.tsl", "out 1 + true as x\n")
    wrong = "spec 1:5: WrongType: have Events[Bool], want Events[Int]\ntype.tsl:1:5: WrongType\n    out 1 + true as x\n        ^\n"
    explained(starts, "a wrong type", starts.extras("check", "type.tsl"), 3, "", wrong, "part")
    line, excerpt = "trace 2: wrong value for i\n", "     2: i = x\n"
    named = f"{line}line.trace:2:2: wrong value for i\n{excerpt}"
    explained(starts, "a refused line", starts.extras("run", "q.tsl", "--until", "5", "line.trace"), 4, None, named, "i = 5")
    with open(os.path.join(starts.room, "line.trace"), "rb") as given:
        ended = starts.extras("run", "q.tsl", given=given)
        explained(starts, "a refused line of a file as standard input", ended, 4, None, line + excerpt, "i = 5")
    # A pipe can't be read once more.
    ended = starts.extras("run", "q.tsl", given=b"1: i = 5\n 2: i = x\n")
    explained(starts, "a refused line of a pipe", ended, 4, None, line, "quotes")
    usage = starts.plain("--help").out.decode()
    starts.tried.ended("no words have the use", starts.extras(), 2, "", "words not accepted\n" + usage)


def names_what_failed(starts):
    failed, tried = "outside: a call failed\n", starts.tried
    absent = f"{failed}  absent.tsl: No such file or directory\n"
    tried.ended("an absent specification", starts.extras("check", "absent.tsl"), 5, "", absent)
    tried.ended("an absent trace", starts.extras("run", "q.tsl", "--strict", "absent.tsl"), 5, "", absent)
    tried.ended("a folder", starts.extras("run", "."), 5, "", f"{failed}  .: Is a directory\n")
    for name, why in (("absent/q.code", "No such file or directory"), (".", "Is a directory"), ("q.tsl/q.code", "Not a directory")):
        ended = starts.extras("compile", "q.tsl", name)
        tried.ended(f"a file that can't be made, {name}", ended, 5, "", f"{failed}  {name}: {why}\n")
    tried.holds("nothing is made for the reason", not os.path.exists(os.path.join(starts.room, "absent")))
    tried.ended("a specification that is absent, and no file", starts.extras("compile", "absent.tsl", "q.code"), 5, "", absent)
    if os.path.exists("/dev/full"):
        ended = starts.extras("compile", "q.tsl", "/dev/full")
        tried.ended("a full device as the file", ended, 5, "", f"{failed}  /dev/full: it cannot be written\n")
        with open("/dev/full", "wb") as full:
            ended = starts.extras("gen", "seen", "5", stdout=full)
        tried.ended("a full device", ended, 5, "", f"{failed}  the standard output: No space left on device\n")
    else:
        tried.leave_out("/dev/full", can_be_had=False)
    reading, writing = os.pipe()
    os.close(reading)
    ended = starts.extras("gen", "seen", "1000000", stdout=writing)
    os.close(writing)
    gone = "  the reader of the standard output has gone, as head does once it has its lines; what it has read is right\n"
    tried.ended("the reader of the output has gone", ended, 5, "", failed + gone)


def adds_nothing(starts):
    """Where nothing is to be said, and where no terminal is, all is the program's."""
    tried = starts.tried
    tried.ended("a run that ends well", starts.extras("run", "q.tsl", given=b"1: i = 5\n"), 0, "1: q = 20\n", "")
    wanted = "2: fault DivideByZero at 2:10\n"
    tried.ended("a fault without a terminal", starts.plain("run", "q.tsl", "fault.trace"), 1, "1: q = 20\n", wanted)
    starts.write("hostile.trace", f'1: s = "{HOSTILE}"\n')
    tried.ended("a text without a terminal", starts.plain("run", "s.tsl", "hostile.trace"), 0, HOSTILE_LINE, "")


# ---- Nothing of a text, a name or a message does anything to a terminal


def is_visible(starts, what, ended, shows=b"\\x1b]0;title\\x07\\x1b[2J\\x9b31m\\x7f"):
    wrote = ended.out + ended.err
    starts.tried.holds(f"{what} is visible", shows in wrote and not controls_in(wrote), ended)


def escapes(starts):
    starts.write("bad.trace", f"1: s = {HOSTILE}\n")
    ended = starts.extras("run", "s.tsl", "bad.trace")
    starts.tried.ended("a hostile line", ended, 4, "")
    is_visible(starts, "a hostile line", ended)
    starts.write("bad.tsl", f'out "{HOSTILE}" as s\nout nothing # {HOSTILE}\n')
    is_visible(starts, "a hostile source", starts.extras("check", "bad.tsl"))
    is_visible(starts, "a hostile name", starts.extras("check", f"absent{HOSTILE}"))
    starts.write("stray.trace", b"1: s = \233[2J\xff\n")
    is_visible(starts, "bytes that are no UTF-8", starts.extras("run", "s.tsl", "stray.trace"), b"\\x9b[2J\\xff")
    message = starts.script("message", f"printf '{HOSTILE}\\n' >&2; exit 9")
    is_visible(starts, "a hostile message", starts.extras("run", program=message))


def turns(starts):
    """What turns the direction of a text, or ends a line, is shown; in an excerpt also what can't be seen."""
    turned = "\u202e\u2066\u2028"
    starts.write("turned.trace", f'1: s = "{turned}"\n')
    shown = on_terminal(starts, "run", "s.tsl", "turned.trace").end()
    starts.tried.ended("a text that turns", shown, 0, '1: s = "\\u202e\\u2066\\u2028"\n')
    starts.write("unseen.tsl", f"in s: Events[String]\nout s\u200b\u00a0 # {turned}\n")
    ended = starts.extras("check", "unseen.tsl")
    starts.tried.holds("what can't be seen is shown", b"    out s\\u200b\\xa0 # \\u202e\\u2066\\u2028\n" in ended.err, ended)
    ended = starts.extras("check", f"absent{turned}")
    starts.tried.holds("a name that turns", b"absent\\u202e\\u2066\\u2028: No such file" in ended.err, ended)


def on_terminal(starts, *words, streams=(0, 1, 2), program=None, **more):
    # Without colour there is no control character at all.
    env = environment(TESSLA_PROGRAM=program or starts.program, NO_COLOR="1", **more)
    return Terminal(starts, [LAUNCHER, *words], streams, env=env)


def terminals(starts):
    """The same on real terminals, and what goes elsewhere is as the program writes it."""
    tried = starts.tried
    ended = on_terminal(starts, "run", "s.tsl", "hostile.trace").end()
    tried.ended("a hostile text on a terminal", ended, 0)
    is_visible(starts, "a hostile text on a terminal", ended)
    is_visible(starts, "a hostile line on a terminal", on_terminal(starts, "run", "s.tsl", "bad.trace").end())
    ended = on_terminal(starts, "run", "q.tsl", "fault.trace").end()
    in_order = re.match(rb"1: q = 20\n2: fault (.|\n)*remedy: ", ended.out)
    tried.holds("on a terminal the remedy is there, and the output first", in_order, ended)
    ended = on_terminal(starts, "run", "q.tsl", "fault.trace", TESSLA_TERMINAL="0").end()
    tried.holds("on a terminal that is told not to, it is not", ended.status == 1 and b"remedy" not in ended.out, ended)
    started = on_terminal(starts, "run", "s.tsl", "hostile.trace", streams=(0, 2))
    written = started.child.stdout.read()
    ended = started.end()
    is_as_it_was = (written, ended.out, ended.status) == (HOSTILE_LINE.encode(), b"", 0)
    tried.holds("a pipe has the text as it is, where messages go to a terminal", is_as_it_was, written, ended)
    # What a program writes right before its end is there also where it came just after it was looked for.
    late = ["python3", "-c", LATE, os.path.join(TOP, "tools", "messages"), LAUNCHER, "MANUAL", starts.script("late", "echo written")]
    ended = Terminal(starts, late, env=environment(PYTHONDONTWRITEBYTECODE="1")).end()
    tried.holds("what is written at the end", ended.out == b"written\n" and ended.status == 0, ended)
    # A character that is cut between two writes is one character.
    cut = starts.script("cut", "printf '\\303'; sleep 0.3; printf '\\244\\302'; sleep 0.3; printf '\\233\\n\\377'")
    ended = on_terminal(starts, "run", program=cut).end()
    tried.holds("characters that are cut", ended.out == "ä\\x9b\n\\xff".encode(), ended)


def streams_on_terminal(starts):
    """A line of output is there before the next one of the trace is given."""
    started = on_terminal(starts, "run", "q.tsl", streams=(1, 2))
    for number in range(1, 4):
        os.write(started.child.stdin.fileno(), f"{number}: i = {number}\n".encode())
        if number > 1:
            came = started.read(f"{number - 1}: q = {100 // (number - 1)}\n".encode())
            starts.tried.holds(f"on a terminal output {number - 1} comes before the next line is given", came, started.shown)
    started.child.stdin.close()
    started.child.stdin = None
    ended = started.end()
    starts.tried.ended("a run line by line on a terminal", ended, 0, "1: q = 100\n2: q = 50\n3: q = 33\n")


def comes_at_once(starts, words, env=None):
    """Whether in a pipe output 1 comes before line 3 is given."""
    how = {"cwd": starts.room, "env": env or environment(), "stdin": subprocess.PIPE, "stdout": subprocess.PIPE, "start_new_session": True}
    child = subprocess.Popen([*words, "run", "q.tsl"], **how)
    with contextlib.suppress(BrokenPipeError):
        os.write(child.stdin.fileno(), b"1: i = 1\n2: i = 2\n")
    os.set_blocking(child.stdout.fileno(), False)
    came = until(lambda: child.stdout.read() == b"1: q = 100\n")
    kill(child)
    child.stdin.close()
    child.stdout.close()
    return came


def streams_elsewhere(starts):
    env = environment(TESSLA_PROGRAM=starts.program)
    starts.tried.holds("in a pipe output 1 comes before line 3 is given", comes_at_once(starts, [LAUNCHER], env))


def is_the_program(starts):
    """Whether what is tried does what the program does: with another one nothing of the launcher can be told."""
    write_files(starts)
    ended = starts.start([starts.program, "run", "q.tsl", "fault.trace"])
    starts.tried.ended("the program runs a trace", ended, 1, "1: q = 20\n", "2: fault DivideByZero at 2:10\n")
    if not starts.tried.failed:
        starts.tried.holds("the program writes line by line", comes_at_once(starts, [starts.program]))
    return not starts.tried.failed


# ---- Files that are large, that wait, or that are not what they seem


def bounded(starts):
    tried = starts.tried
    starts.write("long.trace", b"1: s = " + b"x" * 60000 + b"\n")
    ended = starts.extras("run", "s.tsl", "long.trace")
    tried.holds("a part of a long line is shown", ended.status == 4 and b"xxx" in ended.err and len(ended.err) < 2000, ended)
    starts.write("longer.trace", b"x" * 5_000_000)
    ended = starts.extras("run", "s.tsl", "longer.trace")
    tried.holds("a part of a line of 5 MB is shown", ended.status == 4 and len(ended.err) < 2000, ended)
    starts.write("wide.tsl", "in i: Events[Int]\nout i" + " + i" * 1000 + " + true as x # " + "é" * 1000)
    ended = starts.extras("check", "wide.tsl")
    lines = ended.err.decode().splitlines()
    wanted = ended.status == 3 and len(lines) > 3 and len(lines[2]) < 200 and lines[3].strip() == "^" and len(lines[3]) <= len(lines[2])
    tried.holds("a part of a wide line of the source is shown, with its caret", wanted, ended)
    failing = starts.script("failing", "echo 'outside: a call failed' >&2; exit 5")
    with open(os.path.join(starts.room, "sparse"), "wb") as sparse:
        sparse.truncate(40_000_000_000)
    tried.ended("a file of 40 GB that could be read", starts.extras("run", "q.tsl", "sparse", program=failing, given=subprocess.DEVNULL), 5)
    counted = starts.script("counted", "echo 'trace 7: not a trace line' >&2; exit 4")
    ended = starts.extras("run", "q.tsl", "sparse", program=counted)
    explained(starts, "a line of a file of 40 GB", ended, 4, "", "trace 7: not a trace line\n", "")
    for name, program, status in (("failed", failing, 5), ("line", counted, 4)):
        os.mkfifo(os.path.join(starts.room, f"{name}.fifo"))
        tried.ended(f"a file that waits ({name})", starts.extras("run", f"{name}.fifo", f"{name}.fifo", program=program), status)


def files_of_the_input(starts):
    tried = starts.tried
    # What was read before the program began is no part of the trace.
    given = starts.write("rest.trace", b"never a line of it\n1: i = 5\n2: i = x\n")
    with open(given, "rb") as opened:
        os.lseek(opened.fileno(), len("never a line of it\n"), os.SEEK_SET)
        ended = starts.extras("run", "q.tsl", given=opened)
    tried.ended("the rest of a file", ended, 4)
    tried.holds("no line that was never in the trace is shown", b"    " not in ended.err, ended)
    for shell in (it for it in SHELLS if tried.has(it)):
        ended = starts.extras("-c", '"$0" run /dev/fd/3 fault.trace 3<q.tsl', LAUNCHER, launcher=shell)
        tried.holds(f"a specification by its descriptor ({shell})", (ended.status, ended.out) == (1, b"1: q = 20\n"), ended)
    reading, writing = os.pipe()
    fcntl.fcntl(reading, fcntl.F_SETFL, os.O_NONBLOCK)
    with os.fdopen(reading, "rb") as opened:
        ended = starts.extras("run", "q.tsl", given=opened)
    os.close(writing)
    if ended.status == 5:
        tried.holds("an input that does not wait is named", b"  the standard input: it does not wait" in ended.err, ended)


# ---- Descriptors, signals and statuses


def closed_descriptors(starts):
    """In each shell a start with closed descriptors ends in the same way, and nothing more is said."""
    fault, failed = "2: fault DivideByZero at 2:10\n", "outside: a call failed\n"
    kinds = (
        ("<&-", "run q.tsl fault.trace", 1, "1: q = 20\n", fault),
        ("<&-", "run q.tsl", 0, "", ""),
        (">&-", "run q.tsl fault.trace", 5, "", failed),
        ("2>&-", "run q.tsl fault.trace", 1, "1: q = 20\n", ""),
        ("<&- 2>&-", "run q.tsl fault.trace", 1, "1: q = 20\n", ""),
        (">&- 2>&-", "run q.tsl fault.trace", 5, "", ""),
        ("<&- >&-", "check q.tsl", 5, "", failed),
        ("<&- >&- 2>&-", "run q.tsl fault.trace", 5, "", ""),
    )
    for shell in (it for it in SHELLS if starts.tried.has(it)):
        for closed, words, status, out, err in kinds:
            for extras in ("0", "1"):
                line = f'"$1" "$0" {words} {closed}'
                env = environment(TESSLA_PROGRAM=starts.program, TESSLA_TERMINAL=extras)
                ended = starts.start(["sh", "-c", line, LAUNCHER, shell], env=env)
                wrote = ended.err.decode()
                same = (ended.status, ended.out.decode(), wrote if extras == "0" else wrote[: len(err)]) == (status, out, err)
                starts.tried.holds(f"{shell} {words} {closed}, additions {extras}", same and (err or not wrote), ended)


def fills_closed_descriptors(starts):
    """What the program is started with in place of closed descriptors: the next file that it opens is given none of them."""
    if not os.path.isdir("/proc/self"):
        starts.tried.leave_out("/proc", can_be_had=False)
        return
    asked = '(for it in 0 1 2; do readlink "/proc/$$/fd/$it" || echo closed; done) >"$1"\nexit 0'
    stub = starts.script("descriptors", asked)
    env = environment(TESSLA_PROGRAM=stub, TESSLA_TERMINAL="0")
    for shell in (it for it in SHELLS if starts.tried.has(it)):
        for closed in ("", "<&-", ">&-", "2>&-", "<&- >&-", "<&- 2>&-", ">&- 2>&-", "<&- >&- 2>&-"):
            told = os.path.join(starts.room, "told")
            ended = starts.start(["sh", "-c", f'"$1" "$0" "$2" {closed}', LAUNCHER, shell, told], env=env)
            with open(told, encoding="utf-8") as opened:
                found = ["pipe" if it.startswith("pipe:") else it for it in opened.read().split("\n")[:-1]]
            os.remove(told)
            wanted = ["/dev/null" if it in closed.split() else "pipe" for it in ("<&-", ">&-", "2>&-")]
            starts.tried.holds(f"{shell} fills {closed or 'nothing'}", found == wanted, found, ended)


def signals(starts):
    """A signal to the launcher ends the program, and it is what the launcher ends by."""
    waiting = starts.script("waiting", 'echo $$ >"$1.new"; mv "$1.new" "$1"; exec sleep 100')
    for extras in ("0", "1"):
        for number in (signal.SIGTERM, signal.SIGINT, signal.SIGHUP):
            name = os.path.join(starts.room, f"waiting.{extras}.{int(number)}")
            env = environment(TESSLA_PROGRAM=waiting, TESSLA_TERMINAL=extras)
            child = subprocess.Popen([LAUNCHER, name], env=env, stdin=subprocess.DEVNULL, stdout=subprocess.PIPE, stderr=subprocess.PIPE)
            what = f"{signal.Signals(number).name} to the launcher, additions {extras}"
            if not until(lambda: os.path.exists(name)):
                starts.tried.holds(f"{what}: the program starts", False)
                child.kill()
                continue
            with open(name, encoding="utf-8") as opened:
                program = int(opened.read())
            child.send_signal(number)
            try:
                status = child.wait(LIMIT)
            except subprocess.TimeoutExpired:
                status = None
                child.kill()
            ended = until(lambda: not is_alive(program), LIMIT)
            starts.tried.holds(f"{what} ends the program", ended)
            starts.tried.holds(f"{what} ends the launcher by it", status == -number, status)
            if not ended:
                os.kill(program, signal.SIGKILL)
            child.stdout.close()
            child.stderr.close()


def interrupt(starts):
    """What the keys of a terminal send reaches the program once and ends the launcher."""
    waiting = starts.script("waiting.on", 'echo $$; exec sleep 100')
    started = on_terminal(starts, "run", program=waiting)
    if started.read(b"\n"):
        program = int(started.shown.split()[0])
        started.give(b"\x03")
        ended = started.end()
        is_ended = until(lambda: not is_alive(program), LIMIT)
        starts.tried.holds("the interrupt of a terminal ends the program", ended.status == -signal.SIGINT and is_ended, ended)
    else:
        started.end()


def statuses(starts):
    for extras in ("0", "1"):
        env = environment(TESSLA_TERMINAL=extras)
        for status in (0, 1, 9, 125, 255):
            ended = starts.plain("run", program=starts.script("status", f"exit {status}"), env=env)
            starts.tried.ended(f"the status {status}, additions {extras}", ended, status, "", "")
        for number in (signal.SIGTERM, signal.SIGSEGV, signal.SIGKILL):
            ended = starts.plain("run", program=starts.script("killed", f"ulimit -c 0; kill -{int(number)} $$"), env=env)
            starts.tried.ended(f"{signal.Signals(number).name} in the program, additions {extras}", ended, -number)


# ---- Without python3


def without_python(starts):
    """The program runs as before, and that the rest is missing is said on a terminal alone."""
    tools = os.path.join(starts.room, "tools.without")
    os.mkdir(tools)
    for name in ("sh", "dirname", "readlink", "cat", "tr", "sed", "find", "sort", "cksum"):
        os.symlink(shutil.which(name), os.path.join(tools, name))
    tried, said = starts.tried, b"tessla: without python3 "
    ended = starts.plain("run", "q.tsl", "fault.trace", env={"PATH": tools})
    tried.ended("without python3 a run", ended, 1, "1: q = 20\n", "2: fault DivideByZero at 2:10\n")
    ended = on_terminal(starts, "run", "q.tsl", "fault.trace", PATH=tools).end()
    is_said = ended.status == 1 and ended.out.count(said) == 1 and b"1: q = 20\n" in ended.out
    tried.holds("without python3 it is said once on a terminal", is_said, ended)
    ended = starts.plain("install", starts.room, env={"PATH": tools})
    tried.holds("without python3 a further word says so", ended.status == 125 and b"python3" in ended.err, ended)


def talking(starts):
    write_files(starts)
    explains(starts)
    names_what_failed(starts)
    adds_nothing(starts)
    escapes(starts)
    turns(starts)
    terminals(starts)
    streams_on_terminal(starts)
    streams_elsewhere(starts)
    bounded(starts)
    files_of_the_input(starts)


def closing(starts):
    write_files(starts)
    closed_descriptors(starts)
    fills_closed_descriptors(starts)
    signals(starts)
    interrupt(starts)
    statuses(starts)
    without_python(starts)
