"""The word `explain`: the tree of a derivation, what stands beside it, how wide it is, and what is said where there is none."""

import os
import re

from starts import LAUNCHER, TOP, Terminal, controls_in, environment
from talking import write_files

FIRST = "in i: Events[Int]\ndef p := last(i, i)\nout p\n"
FIRST_TRACE = "# two numbers\n1: i = 4\n 3: i = 9 \n"
FIRST_WHY = "#0 %0 i at 1 = 4\n#1 gap 2 to 2\n#2 %0 i silent 2 to 2 by #1\n#3 %0 i at 3 = 9\n#4 %1 p at 3 = 4 by #3 #0 #2\n"
FIRST_SLICE = "%0 i := Input Int\n%1 p := Last %0 %0\nout p %1\n"
FIRST_TREE = """3: p = 4    spec 2: def p := last(i, i)
  3: i = 9  trace 3: 3: i = 9
  1: i = 4  trace 2: 1: i = 4
  2: no event of i
"""
FIRST_WHOLE = FIRST_TREE + "    2: nothing happens\n"

TIMEOUT_WHY = """#0 %0 request at 20 = 2
#1 %5 at 20 = 10 by #0
#2 %2 at 20 = 20 by #0
#3 %4 either at 20 = 20 by #2
#4 %6 timeout pending after 20: 30 by #1 #3
#5 gap 21 to 29 by #4
#6 %6 timeout pending after 29: 30 by #5 #4
#7 %6 timeout at 30 = () by #6
#8 %0 request silent 21 to 29 by #5
#9 %7 unanswered at 30 = 2 by #7 #0 #8
"""
TIMEOUT_SLICE = """%0 request := Input Int
%1 answer := Input Unit
%2 := Time %0
%3 := Time %1
%4 either := Merge %2 %3
%5 := Lift 10 %0
%6 timeout := Delay %5 %4
%7 unanswered := Last %0 %6
out unanswered %7
"""
TIMEOUT_TREE = """30: unanswered = 2
  30: timeout = ()
    20: timeout is set for 30, and is not set anew
      20: request = 2
      20: either = 20
        20: request = 2
  20: request = 2
  21 to 29: no event of request
"""
TIMEOUT_WHOLE = """30: unanswered = 2
  30: timeout = ()
    29: timeout is set for 30
      21 to 29: nothing happens
        20: timeout is set for 30
          20: request = 2
          20: either = 20
            20: request = 2
      20: timeout is set for 30 (above)
  20: request = 2
  21 to 29: no event of request
    21 to 29: nothing happens (above)
"""

# A number of events that is kept: what has no name is folded, and how the earlier number came is left out.
COUNT = "in x: Events[Unit]\ndef n: Events[Int] := merge(last(n, x) + 1, 0)\nout n as number\n"
COUNT_TRACE = "5: x\n6: x\n9: x\n"
COUNT_SLICE = "%0 x := Input Unit\n%1 := Last %4 %0\n%2 := Lift add($0, 1) %1\n%3 := Lift 0 %5\n%4 n := Merge %2 %3\n%5 := Unit\nout number %4\n"
COUNT_WHY = """#0 %1 silent 0 to 0
#1 %2 silent 0 to 0 by #0
#2 %5 at 0 = ()
#3 %3 at 0 = 0 by #2
#4 %4 n at 0 = 0 by #1 #3
#5 gap 1 to 4
#6 %4 n silent 1 to 4 by #5
#7 %0 x at 5 = ()
#8 %1 at 5 = 0 by #7 #4 #6
#9 %2 at 5 = 1 by #8
#10 %4 n at 5 = 1 by #9
#11 %0 x at 6 = ()
#12 %1 at 6 = 1 by #11 #10
#13 %2 at 6 = 2 by #12
#14 %4 n at 6 = 2 by #13
"""
COUNT_TREE = """6: number = 2  spec 3: out n as number
  6: n = 2     spec 2: def n: Events[Int] := merge(last(n, x) + 1, 0)
    6: x = ()  trace 2: 6: x
    5: n = 1 (in the same way, back to 0)
"""
COUNT_WHOLE = """6: number = 2    spec 3: out n as number
  6: n = 2       spec 2: def n: Events[Int] := merge(last(n, x) + 1, 0)
    6: x = ()    trace 2: 6: x
    5: n = 1
      5: x = ()  trace 1: 5: x
      0: n = 0
      1 to 4: no event of n
        1 to 4: nothing happens
"""
# An output that has the name of an input.
NAMED = "in i: Events[Int]\ndef x := i + 1\nout x as i # known as i\n"
NAMED_TREE = """1: i = 6      spec 3: out x as i # known as i
  1: x = 6    spec 2: def x := i + 1
    1: i = 5  trace 1: 1: i = 5
"""
UNNAMED = "in i: Events[Int]\nout i + 1 as i\n"
UNNAMED_TREE = """1: i = 6    spec 2: out i + 1 as i
  1: i = 5  trace 1: 1: i = 5
"""
HIDDEN = "in i: Events[Int]\ndef j := i + 1\nout j + i as j\n"
HIDDEN_TREE = """1: j = 11     spec 3: out j + i as j
  1: j = 6    spec 2: def j := i + 1
    1: i = 5  trace 1: 1: i = 5
  1: i = 5
"""
# What has no name uses one number twice, and so on: so many ways lead to the number that no one walks them all.
WAYS = "in i: Events[Int]\ndef f(x: Events[Int]): Events[Int] := x + (x + 1)\ndef y := " + 40 * "f(" + "i" + 40 * ")" + "\nout y\n"
WAYS_TREE = """1: y = 6597069766655  spec 3: def y := f(f(f(f(f(f(f(f(f(f(f(f(f(f(f(f(f(f(f(f(f(f(f(f(f(f(f(f(f(f..
  1: i = 5            trace 1: 1: i = 5
"""
# A text that a terminal would act on, and a value that is wide.
MEAN = '\u001b[2J\u009b' + "x" * 300
MEAN_WHY = f'#0 %0 s at 1 = "{MEAN}"\n'


def answering_with(starts, name, why, part, status=0, err=""):
    """A program that answers so, whatever it is asked of."""
    for kind, text in (("why", why), ("slice", part), ("err", err)):
        starts.write(f"{name}.{kind}", text)
    return starts.script(f"{name}.program", f'cat {name}.err >&2; cat "{name}.$1"; exit {status}')


def trees(starts):
    """The trees of derivations that are given."""
    kinds = (
        ("first", FIRST, FIRST_TRACE, "p 3", FIRST_WHY, FIRST_SLICE, FIRST_TREE, FIRST_WHOLE),
        ("timeout", "", "", "unanswered 30", TIMEOUT_WHY, TIMEOUT_SLICE, TIMEOUT_TREE, TIMEOUT_WHOLE),
        ("count", COUNT, COUNT_TRACE, "number 6", COUNT_WHY, COUNT_SLICE, COUNT_TREE, COUNT_WHOLE),
    )
    for name, source, trace, asked, why, part, tree, whole in kinds:
        starts.write(f"{name}.tsl", source)
        starts.write(f"{name}.trace", trace)
        program, words = answering_with(starts, name, why, part), [f"{name}.tsl", f"{name}.trace", *asked.split()]
        starts.tried.ended(f"the tree of {name}", starts.plain("explain", *words, program=program), 0, tree, "")
        starts.tried.ended(f"the whole tree of {name}", starts.plain("explain", "--all", *words, program=program), 0, whole, "")
    starts.write("long.trace", f"1: i = 4\n{5000 * '0'}3: i = 9\n{5000 * '9'}: i = 1\n")
    ended = starts.plain("explain", "first.tsl", "long.trace", "p", "3", program=answering_with(starts, "long", FIRST_WHY, FIRST_SLICE))
    wanted = FIRST_TREE.replace("trace 3: 3: i = 9", f"trace 2: {77 * '0'}..").replace("trace 2: 1", "trace 1: 1")
    starts.tried.ended("times of many digits", ended, 0, wanted, "")
    many = "".join(f"#{k} %{k} i{k} at 1 = {k}\n" for k in range(20))
    many += f"#20 %20 at 1 = 0 by{''.join(f' #{k}' for k in range(20))}\n#21 %21 o at 1 = 0 by #20\n"
    ended = starts.plain("explain", "first.tsl", "first.trace", "o", "1", program=answering_with(starts, "many", many, "out o %21\n"))
    wanted = "1: o = 0\n" + "".join(f"  1: i{k} = {k}\n" for k in range(11)) + "  and 9 more facts, back to 1\n"
    starts.tried.ended("what stands below many", ended, 0, wanted, "")
    deep = "#0 %0 d0 at 0 = 0\n" + "".join(f"#{k} %{k} d{k} at 0 = 0 by #{k - 1}\n" for k in range(1, 3000))
    program = answering_with(starts, "deep", deep, "out d2999 %2999\n")
    ended = starts.plain("explain", "first.tsl", "first.trace", "d2999", "0", program=program, env={"COLUMNS": "60"})
    lines = ended.out.decode().split("\n")[:-1]
    is_right = len(lines) == 3000 and lines[10] == 20 * " " + "0: d2989 = 0" and lines[-1] == 20 * " " + "[2999] 0: d0 = 0"
    starts.tried.holds("what stands deep", ended.status == 0 and is_right, ended)


def widths(starts):
    """Lines are as wide as is asked for, on a terminal as it is, and elsewhere 100 characters. What is longer is cut."""
    tried, program = starts.tried, answering_with(starts, "mean", MEAN_WHY, "%0 s := Input String\nout s %0\n")
    starts.write("mean.tsl", "in s: Events[String]\nout s\n")
    starts.write("mean.trace", f'1: s = "{MEAN}"\n')
    words = ("explain", "mean.tsl", "mean.trace", "s", "1")
    for columns, most in (("40", 40), ("77", 77), ("1", 30), ("0", 100), ("x", 100), ("", 100), ("9999999", 100), ("900", 900)):
        ended = starts.plain(*words, program=program, env={"COLUMNS": columns})
        lines = ended.out.decode().split("\n")[:-1]
        is_right = ended.status == 0 and not controls_in(ended.out) and max(map(len, lines)) <= most and lines[0].startswith('1: s = "\\x1b[2J\\x9b')
        tried.holds(f"{columns or 'no'} columns", is_right and (most < 900 or lines[0].endswith('x"')), ended)
    env = environment(TESSLA_PROGRAM=program, TERM="xterm")
    env.pop("NO_COLOR", None), env.pop("COLUMNS", None)
    ended = Terminal(starts, [LAUNCHER, *words], env=env).end()
    tried.holds("on a terminal what stands beside is dim", ended.out.count(b"\033[2m") == ended.out.count(b"\033[0m") == 1, ended)
    for more in ({"NO_COLOR": "1"}, {"TERM": "dumb"}):
        ended = Terminal(starts, [LAUNCHER, *words], env={**env, **more}).end()
        tried.holds(f"nothing is dim with {more}", not controls_in(ended.out) and b"  trace 1: 1: s = " in ended.out, ended)


def no_trees(starts):
    """Where there is no derivation, the status and the message are those of the program."""
    tried = starts.tried
    for words in ((), ("first.tsl",), ("first.tsl", "first.trace", "p"), ("first.tsl", "first.trace", "p", "3", "4"), ("first.tsl", "", "p", "3")):
        ended = starts.plain("explain", *words)
        is_told = ended.status == 125 and not ended.out and ended.err.startswith(b"tessla: explain needs ") and ended.err.count(b"\n") == 1
        tried.holds(f"explain with {len(words)} words", is_told, ended)
    for text in ("", "#0 nothing\n", "#0 %0 i at 1 = 4 by #0\n", FIRST_WHY.replace("#3 #0 #2", "#3 #9"), "\0\n"):
        ended = starts.plain("explain", "first.tsl", "first.trace", "p", "3", program=answering_with(starts, "none", text, FIRST_SLICE))
        tried.ended(f"no derivation: {text[:30]!r}", ended, 125, "", "tessla: the program has written what is no derivation\n")
    for status, message in ((1, "3: fault DivideByZero at 2:10\n"), (5, "outside: a call failed\n"), (6, "out of memory\n"), (10, "no event of p at 2\n")):
        ended = starts.plain("explain", "first.tsl", "first.trace", "p", "2", program=answering_with(starts, "ends", "", "", status, message))
        tried.ended(f"the status {status} of why", ended, status, "", message)
    ended = starts.plain("explain", "absent.tsl", "first.trace", "p", "2", program=answering_with(starts, "said", "", "", 5, "a\033[2Jb\n"))
    tried.ended("a message that means harm", ended, 5, "", "a\\x1b[2Jb\n")
    ended = starts.plain("explain", "first.tsl", "first.trace", "p", "2", program=starts.script("killed.why", "kill -9 $$"))
    tried.ended("a program that is killed", ended, 137, "")
    if os.path.exists("/dev/full"):
        with open("/dev/full", "wb") as full:
            ended = starts.plain("explain", "first.tsl", "first.trace", "p", "3", program=os.path.join(starts.room, "first.program"), stdout=full)
        tried.holds("a tree on a full device", ended.status == 125 and ended.err.startswith(b"tessla: the standard output: "), ended)
    else:
        tried.leave_out("/dev/full", can_be_had=False)


def by_a_pipe(start, *words):
    """A start where an empty word stands for the first trace by a pipe that is not the standard input."""
    read, write = os.pipe()
    os.write(write, FIRST_TRACE.encode())
    os.close(write)
    ended = start(*(it or f"/dev/fd/{read}" for it in words), pass_fds=(read,))
    os.close(read)
    return ended


def by_the_program(starts):
    """By the program itself: the first and the last event of each output of the examples, and files of the standard input."""
    folder = os.path.join(TOP, "examples")
    for name in ("retry", "timeout", "budget", "deadline", "watchdog"):
        source, trace = (os.path.join(folder, f"{name}.{kind}") for kind in ("tsl", "trace"))
        with open(trace, encoding="utf-8") as file:
            given = [line.strip() for line in file]
        with open(os.path.join(folder, f"{name}.output"), encoding="utf-8") as file:
            events = [line.rstrip("\n") for line in file]
        events = [it for it in events if int(it.split(":")[0]) <= int(given[-1].split(":")[0])]
        for event in {events[0], events[-1]}:
            time, output = re.match(r"([0-9]+): (\S+)", event).groups()
            ended = starts.plain("explain", source, trace, output, time)
            lines = ended.out.decode().split("\n")[:-1]
            told = [re.search(r"  trace ([0-9]+): (.*)$", it) for it in lines]
            is_right = ended.status == 0 and lines[0].startswith(event) and max(map(len, lines)) <= 100 and any(told)
            wrong = [it[0] for it in told if it and given[int(it[1]) - 1] != it[2]]
            starts.tried.holds(f"explain {name} {output} {time}", is_right and not wrong, wrong, ended)
    tree = starts.plain("explain", "first.tsl", "first.trace", "p", "3")
    starts.tried.ended("the tree of the value before", tree, 0, FIRST_TREE, "")
    starts.write("five.trace", "1: i = 5\n")
    kinds = (("named", "i", NAMED, NAMED_TREE), ("unnamed", "i", UNNAMED, UNNAMED_TREE), ("hidden", "j", HIDDEN, HIDDEN_TREE), ("ways", "y", WAYS, WAYS_TREE))
    for name, output, source, tree in kinds:
        starts.write(f"{name}.tsl", source)
        for words in ((), ("--all",)):
            ended = starts.plain("explain", f"{name}.tsl", "five.trace", output, "1", *words)
            starts.tried.ended(" ".join(("the tree of", name, *words)), ended, 0, tree, "")
    without_lines = re.sub(r" +trace .*", "", FIRST_TREE).replace("3: p = 4    spec", "3: p = 4  spec")
    starts.tried.ended("with a trace by a pipe", starts.plain("explain", "first.tsl", "-", "p", "003", given=FIRST_TRACE.encode()), 0, without_lines, "")
    starts.tried.ended("with a trace by another pipe", by_a_pipe(starts.plain, "explain", "first.tsl", "", "p", "3"), 0, without_lines, "")
    ended = by_a_pipe(starts.extras, "explain", "first.tsl", "", "p", "2")
    starts.tried.ended("no event with a trace by another pipe", ended, 10, "", "no event of p at 2\n")
    starts.tried.ended("with a specification by a pipe", starts.plain("explain", "-", "first.trace", "p", "3", given=FIRST.encode()), 0, FIRST_TREE, "")
    ended = starts.plain("explain", "--strict", "first.tsl", "--instants", "3", "--bytes=99", "--", "first.trace", "p", "3")
    starts.tried.ended("with the options of why", ended, 0, FIRST_TREE, "")
    ended = starts.plain("explain", "first.tsl", "first.trace", "p", "3", "--instants=2")
    starts.tried.ended("past the limit", ended, 7, "", "limit: 2 instants before time 3\n")
    ended = starts.plain("explain", "first.tsl", "first.trace", "p", "3", "--stats")
    starts.tried.ended("with an option that why has not", ended, 2, "", "words not accepted\n")
    ended = starts.extras("explain", "name.tsl", "first.trace", "p", "3")
    starts.tried.holds("a refusal has its place", ended.status == 3 and b"\nname.tsl:2:6: UnknownName\n" in ended.err and not ended.out, ended)


def explaining(starts):
    write_files(starts)
    trees(starts)
    widths(starts)
    no_trees(starts)
    by_the_program(starts)
