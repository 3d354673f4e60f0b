"""Messages that point: at the token at hand, at its file, at the word, and at what stands in the trace."""

import contextlib
import os
import re
import sys

from starts import LAUNCHER, TOP, Terminal, controls_in, environment
from talking import HOSTILE, explained, write_files

sys.path.insert(0, os.path.join(TOP, "tools"))
from messages_parts.declared import ELSEWHERE  # noqa: E402

INPUTS = "in i: Events[Int]\nin b: Events[Bool]\nin e: Events[Unit]\n"
# What is written, what it is refused as, what stands there, and what to write.
SLIPS = (
    ("out i + 1.5 as x", "Unexpected", "1.5 is a fraction", "1500 thousandths"),
    ("out .5 as x", "Unexpected", ".5 is a fraction", "finer unit"),
    ("out b and b as x", "Unexpected", "and is no operator", "write &&"),
    ("out b or b as x", "Unexpected", "or is no operator", "write ||"),
    ("out not b as x", "Unexpected", "not is no operator", "write !b"),
    ("in k: Events[int]\nout k", "Unexpected", "int is no type", "write Int"),
    ("in k: Events[Map[string, Int]]\nout k", "Unexpected", "string is no type", "write String"),
    ("in k: Events[Float]\nout k", "Unexpected", "Float is no type", "finer unit"),
    ("in k: events[Int]\nout k", "Unexpected", "events is no type", "write Events"),
    ("// text\nout i", "Unexpected", "// begins no comment", "-- or #"),
    ("out i // text", "Unexpected", "// begins no comment", "-- or #"),
    ("out i /* text */", "Unexpected", "/* begins no comment", "-- or #"),
    ('import "a.tsl"\nout i', "Unexpected", "import is not there", "one file"),
    ('include "a.tsl"\nout i', "Unexpected", "include is not there", "one file"),
    ("module A { }\nout i", "Unexpected", "module is not there", "one file"),
    ("out *", "Unexpected", "`out *` is not there", "for each stream"),
    ("out i.b as x", "Unexpected", "i.b", "i_b"),
    ("out Set.union(i, i) as x", "Unexpected", "Set.union is not there", "contains"),
    ("out Set.contain(i, i) as x", "Unexpected", "Set.contain is not there", "write Set.contains"),
    ("out Queue.push(Queue.empty[Int], i) as x", "Unexpected", "Queue.push is not there", "enqueue"),
    ("def q: Events[Queue] := Queue.empty[Int]\nout q", "Unexpected", "Queue needs the types", "Queue[Int]"),
    ("in k: Events[queue[Int]]\nout k", "Unexpected", "queue is no type", "write Queue"),
    ("out Queue.empty as q", "Unexpected", "Queue.empty needs its types", "Queue.empty[Int]"),
    ("def f[A](x: Events[A]) := x\nout i", "Unexpected", "generic", "for each type"),
    ("out lift(i, (x) => x) as x", "Unexpected", "functions without a name", "def f(x: Option[Int])"),
    ("out lift(i, (x: Option[Int]) => x) as x", "Unexpected", "functions without a name", "def f(x: Option[Int])"),
    ("out lift(i, b, (x: Option[Int], y: Option[Bool]) => x) as x", "Unexpected", "functions without a name", "def f(x: Option[Int])"),
    ("out lift(i, x => x) as x", "Unexpected", "functions without a name", "def f(x: Option[Int])"),
    ("out merge(i, i, i + 1) as x", "WrongArity", "merge has two arguments, and here are 3", "write merge(i, merge(i, i + 1))"),
    ("out last(i) as x", "WrongArity", "last has two arguments", "last(i, i)"),
    ("out Queue.enqueue(Queue.empty[Int]) as q", "WrongArity", "Queue.enqueue has two arguments, and here are 1", "write Queue.enqueue(q, v)"),
    ("def f(a: Int, c: Int): Int := a + c\nout f(i) as x", "WrongArity", "f has two arguments, and here are 1", "write f(a, c)"),
    ("out delay(10ms, i) as x", "Unexpected", "10ms has a unit", "write 10"),
    ("out delay(10 ms, i) as x", "Unexpected", "10 ms has a unit", "write 10"),
    ("out 0x10 as x", "Unexpected", "0x10 is not decimal", "decimal"),
    ("out const((), i) as x", "WrongType", "() is no literal", "const(true, i)"),
    ("def limit := 5\nout const(limit, i) as x", "WrongType", "limit is a stream", "limit + const(0, i)"),
    ("def on := true\nout const(on, i) as x", "WrongType", "on is a stream", "on && const(true, i)"),
    ("out const(1 + 2, b) as x", "WrongType", "1 + 2 is no literal", "its value"),
    ("out const(i, b) as x", "WrongType", "i is a stream", "last(i, b)"),
    ("out const(Queue.empty[Int], e) as x", "WrongType", "Queue.empty[Int] is a stream", "last(Queue.empty[Int], e)"),
    ("out const(Set.empty[Int], e) as x", "WrongType", "Set.empty[Int] is a stream", "last(Set.empty[Int], e)"),
    ("out i = i as x", "Unexpected", "= defines", "write =="),
    ("out i =< 5 as x", "Unexpected", "=< is no operator", "write <="),
    ("out b -> b as x", "Unexpected", "-> is no operator", "write !a || b"),
    ("out time() as x", "Unexpected", "time is called with nothing", "time(e)"),
    ("out i + 1) as x", "Unexpected", "this ) closes nothing", "take it away"),
    ("out merge(i, 5)) as x", "Unexpected", "this ) closes nothing", "take it away"),
    ("out (if b then i) as x", "Unexpected", "an if has no else", "else"),
    ("assert i > 5\nout i", "Unexpected", "assert begins no item", "in, def or out"),
    ("out average(i) as x", "UnknownName", "average is not there", "the recipe average of the cookbook"),
    ("out every(10) as x", "UnknownName", "every is not there", "def tick: Events[Unit]"),
    ("out always(b) as x", "UnknownName", "always is not there", "out filter(c, !c)"),
    ("def f(x: Int): Int := { x }\nout f(i) as z", "WrongType", "braces stand around the body of a macro alone", "without them"),
    ("def f(x: Int): Events[Int] := x\nout f(i) as z", "WrongType", "f is a function of values, and gives a value", "write Int as the type"),
    ("def f(x: Events[Int]): Int := x\nout f(i) as z", "WrongType", "a macro gives a stream, and its result is written as Int", "write Events[Int]"),
    ("out delay(e, const(10, e)) as x", "WrongType", "delay takes how long it waits first", "delay(const(10, e), e)"),
    ("out Set.contains(i, Set.empty[Int]) as x", "WrongType", "this is one of Int", "is the first argument: Set.contains(s, k)"),
    ("out e == 5 as x", "WrongType", "a stream of Unit is meant", "const(1, e) has a number"),
    ("out b & b as x", "BadCharacter", "& is no operator", "write &&"),
    ("out b | b as x", "BadCharacter", "| is no operator", "write ||"),
    ("out i <> i as x", "Unexpected", "<> is no operator", "write !="),
    ("out i === i as x", "Unexpected", "=== is no operator", "write =="),
    ("out i !== i as x", "Unexpected", "!== is no operator", "write !="),
    ("out i ≠ i as x", "BadCharacter", "≠ is no operator", "write !="),
    ("def a i + 1\nout a", "Unexpected", ":= is missing in the definition of a", "def a :="),
    ("def a: Events[Int] i\nout a", "Unexpected", ":= is missing in the definition of a", "def a :="),
    ("out 'text' as x", "BadCharacter", "' begins no text", "double quotes"),
    ("out “text” as x", "BadCharacter", "“ begins no text", "double quotes"),
    ("in my-name: Events[Int]\nout i", "Unexpected", "my-name has a dash", "my_name"),
    ("out i as my-name", "Unexpected", "my-name has a dash", "my_name"),
    ("out i + my-name as x", "UnknownName", "my-name is a difference", "my_name"),
    ("in k\nout k", "Unexpected", "the type of the input k is missing", "in k: Events[Int]"),
    ("out if b then i as x", "Unexpected", "an if has no else", "else"),
    ("out i; out b", "BadCharacter", "items end without a ;", "leave it out"),
    ("out i + 1\nout b", "Unexpected", "has none", "out i + 1 as NAME"),
    ("def a := i\n- 1\nout a", "Unexpected", "a - that begins a line", "end of the line before"),
    ("def f(a) := a\nout i", "Unexpected", "the type of the parameter a is missing", "a: Int"),
    ("out (i, b) as x", "Unexpected", "tuples are not there", "for each part"),
    ("in x: Events[Int], y: Events[Int]\nout x", "Unexpected", "no call is open here", "begin each item"),
    ("out i < i < i as x", "Unexpected", "< is a second one", "&&"),
    ("def last := i\nout i", "DefinedTwice", "last belongs to the language", "another name"),
    ("in Queue: Events[Int]\nout i", "DefinedTwice", "Queue belongs to the language", "another name"),
    ("def i := 1\nout i", "DefinedTwice", "i is declared at 1:4", "another name"),
    ("out prev(i) as x", "UnknownName", "prev is not there", "last(i, i)"),
    ("out count(e) as x", "UnknownName", "count is not there", "merge(merge(last(n, e), 0) + const(1, e), 0)"),
    ("out rising(b) as x", "UnknownName", "rising is not there", "the macro rising of the page MACROS.md"),
    ("out time as x", "UnknownName", "time belongs to the language, and is not called", "write time(e)"),
    ("def f(x: Events[Int]) := x\nout f[Int](i) as x", "Unexpected", "a call names no types", "leave them out"),
    ("def f(a: Int): Int := a\nout f as x", "UnknownName", "f is a function, and is not called", "f(a)"),
    ("def n := merge(last(n, i) + 1, 0)\nout n", "NeedsType", "n needs itself, and has no written type", "def n: Events[..]"),
    ("def n := merge(m, 0)\ndef m := last(n, i) + 1\nout n", "NeedsType", "n needs m, m needs n, and none has a written type", "def n: Events[..]"),
    ("def f(x: Events[Int]) := {\n  def n := merge(m, 0)\n  def m := last(n, x) + 1\n  n\n}\nout f(i) as x", "NeedsType", "n needs m, m needs n, and", "def n:"),
    ("def n := m + 1\ndef m := last(i, n)\nout n", "NeedsType", "in m the second argument of last is asked now; a type does not help", "event that n is made of"),
    ("def p := delay(const(5, i), q)\ndef q := filter(i, i > 3) + time(p)\nout q", "NeedsType", "in p the second argument of delay is asked now; a type", "last(q, e)"),
    ("def taken := filter(i, !held)\ndef held := merge(const(true, taken), false)\nout taken", "NeedsType", "filter asks for held as it is now; a type", "last(held, i)"),
    ("def g(x: Int): Int := x + 1\ndef a := g(c)\ndef c := g(a)\nout a", "NeedsType", "a needs c, c needs a at the same time; a type does not help", "last(a, e)"),
    ("def g(x: Events[Int]): Events[Int] := last(x, i)\ndef a := g(c)\ndef c := g(a)\nout a", "NeedsType", "and none has a written type", "def a: Events[..]"),
    ("in k: Events[Option[Int]]\nout k", "BadType", "an event has a value", "a Bool beside it"),
    ("def m := Map.empty[Unit, Int]\nout m", "BadType", "keys are Int, Bool or String", "choose"),
    ("def m := Map.empty[Int, Set[Int]]\nout m", "BadType", "a set, map or queue stands in no other one", "one key of both"),
    ("def q := Queue.empty[Queue[Int]]\nout q", "BadType", "a set, map or queue stands in no other one", "one for each part"),
    ("def q := Queue.empty[Option[Int]]\nout q", "BadType", "no streams, keys or values of Option", "no event come"),
    ("out Map.get(Set.empty[Int], i) as x", "WrongType", "this is one of Set[Int]", "it may be any map"),
    ("out Queue.front(Set.empty[Int]) as x", "WrongType", "this is one of Set[Int]", "it may be any queue"),
    ("def f(q: Queue[Int]): Int := Queue.size(Queue.dequeue(q))\nout i", "WrongType", "a stream of any queue is meant", "outside, among streams"),
    ("def f(m: Map[Int, Bool]): Int := Map.size(Map.add(m, 1, true))\nout i", "WrongType", "a stream of any map is meant", "outside, among streams"),
    ("out delay(const(9, e), merge(e, i)) as x", "WrongType", "merge has streams of one type", "only when they come counts here: write merge(time(e), time(i))"),
    ("out last(b, merge(i, b)) as x", "WrongType", "merge has streams of one type", "only when they come counts here: write merge(time(i), time(b))"),
    ("def a := merge(e, i)\nout a", "WrongType", "one is Events[Unit] and the other Events[Int]", "where only their times count"),
    ("def limit := 5\ndef f(a: Int): Int := a + limit\nout f(i) as x", "UnknownName", "limit is a stream, and f a function of values", "parameter"),
)  # fmt: skip
# Whether a stream or a value is meant.
MEANT = (
    ("def f(a: Int) := last(a, a)\nout f(i) as x", "a stream is meant", "macro"),
    ("def f(a: Int): Int := time(a)\nout f(i) as x", "a stream is meant", "macro"),
    ("def f(a: Int): Int := getSome(a)\nout f(i) as x", "an option is meant", "as it is"),
    ("out isSome(i) as x", "a value is meant", "lift(e, f)"),
    ("def f(a: Int): Int := a\nout lift(i, f) as x", "a plain value", "write f(i)"),
    ("out i + b as x", "a stream of Int is meant", "if c then 1 else 0"),
    ("out i && b as x", "a stream of Bool is meant", "x != 0"),
)


def at_hand(starts):
    for number, (source, kind, cause, remedy) in enumerate((*SLIPS, *((it, "WrongType", *more) for it, *more in MEANT))):
        name = f"slip.{number}.tsl"
        starts.write(name, f"{INPUTS}{source}\n")
        ended = starts.extras("check", name)
        said = ended.err.decode().splitlines()
        place = re.fullmatch(r"spec ([0-9]+:[0-9]+): (\w+)(?:: .*)?", said[0] if said else "")
        points = place and place[2] == kind and said[1] == f"{name}:{place[1]}: {kind}" and len(said) == 6
        is_told = points and cause in said[4] and said[4].startswith("  cause:  ") and remedy in said[5] and said[5].startswith("  remedy: ")
        is_short = all(len(it) < 160 for it in said[4:])
        starts.tried.holds(f"what stands there, and what to write: {source!r}", ended.status == 3 and is_told and is_short, ended)


def of_macros(starts):
    """The macros and recipes that a remedy says to copy are there, and what it says to write is accepted, and not silently wrong."""
    for name, helps in ELSEWHERE.items():
        if page := re.search("the macro (\\w+) of the page MACROS.md", helps):
            with open(os.path.join(TOP, "docs", "MACROS.md"), encoding="utf-8") as opened:
                heads = re.findall("^## (.*)$", opened.read(), re.M)
            starts.tried.holds(f"the macro for {name}", any(page[1] in head.split() for head in heads), heads)
        elif definition := re.match("write (def (\\w+): .*)", helps):
            starts.write(f"{name}.tsl", f"in x: Events[Int]\n{definition[1]}\nout {definition[2]}\nout x\n")
            ended = starts.extras("check", f"{name}.tsl")
            starts.tried.holds(f"what helps with {name} is accepted", ended.status == 0 and not ended.err, ended)
        for recipe in re.findall("the recipe (\\w+) of the cookbook", helps):
            starts.tried.holds(f"the recipe for {name}", os.path.isfile(os.path.join(TOP, "examples", f"{recipe}.tsl")), recipe)


def no_slip(starts):
    """Where nothing is known of what stands there, the manual answers."""
    starts.write("deep.tsl", "out " + "(" * 65 + "1" + ")" * 65 + " as x\n")
    deep = starts.extras("check", "deep.tsl")
    starts.tried.holds("the manual answers for the rest", deep.status == 3 and b"64 parentheses" in deep.err, deep)


# What is refused as a cycle, the cause, and what to write.
CYCLES = (
    ("def n: Events[Int] := merge(n + 1, i)\nout n", "n needs itself at the same time; %", "write last(n, e)"),
    ("def n: Events[Int] := n\nout n", "n needs itself at the same time\n", "write last(n, e)"),
    ("def n: Events[Int] := merge(last(i, n) + 1, 0)\nout n", "in n the second argument of last is asked now", "the event that n is made of"),
    ("def n: Events[Unit] := merge(e, delay(const(5, e), n))\nout n", "in n the second argument of delay is asked now", "last(n, e)"),
    ("def a: Events[Int] := merge(1 + c, i)\ndef c := a * 2 + 3\nout c", "c needs a, a needs c at the same time; %3 is a part without a name", "last(c, e)"),
    ("def x: Events[Int] := y + z\ndef y: Events[Int] := z + 1\ndef z: Events[Int] := x * 2\nout x", "at the same time", "write last("),
    (
        "def taken := filter(i, !held)\ndef held: Events[Bool] := merge(const(true, taken), const(false, ended))\n"
        "def ended := delay(const(30, taken), taken)\nout taken",
        "filter asks for held as it is now",
        "last(held, i)",
    ),
)


def of_cycles(starts):
    starts.write("parts.tsl", "in i: Events[Int]\ndef a: Events[Int] := merge(1 + b, i)\ndef b := a * 2 + 3\nout b\n")
    wanted = (
        "spec 2:29: cycle %1 -> a -> %3 -> b -> %1\nparts.tsl:2:29: cycle\n    def a: Events[Int] := merge(1 + b, i)\n"
        "                                ^\n  parts.tsl:2:5: a, with its part %1\n  parts.tsl:3:5: b, with its part %3\n"
    )
    explained(starts, "a cycle has its definitions, and what has no name", starts.extras("check", "parts.tsl"), 3, "", wanted, "last")
    for number, (source, cause, remedy) in enumerate(CYCLES):
        starts.write(f"cycle.{number}.tsl", f"{INPUTS}{source}\n")
        ended = starts.extras("check", f"cycle.{number}.tsl")
        said = ended.err.decode()
        is_told = ended.status == 3 and cause in said.partition("  cause:  ")[2] and remedy in said.partition("  remedy: ")[2]
        starts.tried.holds(f"a cycle: {source!r}", is_told, ended)


# ---- Traces


LINES = (
    ("1: temp", "wrong value for temp", "temp is an input of Int, and has no value here", "temp = 5"),
    ("1: temp = 1.5", "wrong value for temp", "1.5 is a fraction", "--scale"),
    ("1: ok = True", "wrong value for ok", "True is no truth value", "ok = true"),
    ("1: s = text", "wrong value for s", "text stands in no quotes", "double quotes"),
    ("1: beat = 4", "wrong value for beat", "beat is an input of Unit", "without a value"),
    ("1.5: temp = 4", "not a trace line", "the time is a fraction", "--scale"),
    ("1 temp = 4", "not a trace line", "no colon", "TIME: NAME = VALUE"),
    ("1: baet", "unknown stream", "baet is no input", "beat"),
)


def of_lines(starts):
    starts.write("four.tsl", "in beat: Events[Unit]\nin temp: Events[Int]\nin ok: Events[Bool]\nin s: Events[String]\nout temp\n")
    for number, (line, kind, cause, remedy) in enumerate(LINES):
        name = f"line.{number}.trace"
        starts.write(name, f"{line}\n")
        ended = starts.extras("run", "four.tsl", name, "--strict")
        said = ended.err.decode().splitlines()
        is_told = len(said) == 5 and said[1] == f"{name}:1:1: {kind}" and cause in said[3] and remedy in said[4]
        starts.tried.holds(f"what stands in the line, and what to write: {line!r}", ended.status == 4 and is_told, ended)


def of_names(starts):
    """After a run that ended well, one line on names that are no input's."""
    tried = starts.tried
    starts.write("odd.trace", "1: temp = 5\n# 2: no\n2: beats\n3: baet = 7\n4:\n5: door = true\n")
    told = "tessla: 3 lines have names that no input has: the first is beats in line 3; the nearest input is beat\n"
    tried.ended("names that no input has", starts.extras("run", "four.tsl", "odd.trace"), 0, "1: temp = 5\n", told)
    with open(os.path.join(starts.room, "odd.trace"), "rb") as given:
        tried.ended("the same of a file as standard input", starts.extras("run", "four.tsl", given=given), 0, "1: temp = 5\n", told)
    tried.ended("nothing of a pipe", starts.extras("run", "four.tsl", given=b"1: temp = 5\n2: beats\n"), 0, "1: temp = 5\n", "")
    tried.ended("nothing where it is not asked for", starts.plain("run", "four.tsl", "odd.trace"), 0, "1: temp = 5\n", "")
    starts.write("same.trace", "1: temp = 5\n2: beat\n3: s = \"1: door\"\n4:\n")
    tried.ended("nothing where all are inputs", starts.extras("run", "four.tsl", "same.trace"), 0, "1: temp = 5\n", "")
    starts.write("hostile.name.trace", f"1: temp = 5\n2: be\033]0;t\007at\n")
    ended = starts.extras("run", "four.tsl", "hostile.name.trace")
    tried.holds("a hostile name in a trace is visible", b"be\\x1b]0;t\\x07at" in ended.err and not controls_in(ended.err), ended)
    with open(os.path.join(starts.room, "long.names.trace"), "w", encoding="utf-8") as long:
        long.writelines(f"{number}: beats\n" for number in range(300_000))
    started = os.times().elapsed
    ended = starts.extras("run", "four.tsl", "long.names.trace")
    took = os.times().elapsed - started
    is_part = re.search(rb"lines have names that no input has of its first 2 MB: the first is beats in line 1; the nearest", ended.err)
    tried.holds("of a long trace the first part is looked through", ended.status == 0 and is_part and took < 12, took, ended)


# ---- What is silent


def of_silence(starts):
    """Below a check that accepts, what is silently wrong."""
    tried = starts.tried
    starts.write("never.tsl", "in a: Events[Unit]\nin b: Events[Unit]\nin c: Events[Unit]\nout delay(const(5, a), b) as late\n")
    ended = starts.extras("check", "never.tsl")
    said = ended.err.decode().splitlines()
    is_told = len(said) == 2 and said[0].startswith("note: the delay late is set only where") and said[1] == "note: no output needs the input c"
    tried.holds("a check tells a delay that is hardly ever set", ended.status == 0 and ended.out == b"ok 4 0\n" and is_told, ended)
    tried.ended("and nothing where it is not asked for", starts.plain("check", "never.tsl"), 0, "ok 4 0\n", "")
    with open(os.path.join(starts.room, "never.tsl"), "rb") as given:
        tried.ended("nor of the standard input", starts.extras("check", "-", given=given), 0, "ok 4 0\n", "")
    tried.ended("nor where nothing is wrong", starts.extras("check", "q.tsl"), 0, "ok 2 0\n", "")
    starts.write("-dash.tsl", "out merge(nil[Int], nil[Int]) as never\n")
    ended = starts.extras("check", "--", "-dash.tsl")
    tried.holds("a name that begins with a dash", ended.status == 0 and ended.err == b"note: the output never never has an event\n", ended)
    starts.write("many.tsl", "".join(f"in i{number}: Events[Unit]\n" for number in range(20)) + "out i0\n")
    said = starts.extras("check", "many.tsl").err.decode().splitlines()
    tried.holds("of many notes the first ones", len(said) == 9 and said[8] == "note: 11 more; tessla lint tells all", said)


# ---- Words


WORDS = (
    ("run --untill 5 q.tsl", "run has no option `--untill`; the nearest is --until", "run SPEC [TRACE]"),
    ("run q.tsl --until", "--until needs a number after it", "run SPEC [TRACE]"),
    ("run q.tsl --until soon", "--until takes a number of digits alone, and `soon` is none", "run SPEC [TRACE]"),
    ("run q.tsl --bytes 0", "--bytes is from 1 to 1099511627776, and `0` is not", "run SPEC [TRACE]"),
    ("run q.tsl --until 9223372036854775808", "--until is from 0 to 9223372036854775807", "run SPEC [TRACE]"),
    ("run q.tsl --until 5 --until=6", "--until stands twice", "run SPEC [TRACE]"),
    ("run q.tsl --strict=1", "--strict takes no value", "run SPEC [TRACE]"),
    ("run", "run needs the name of a specification", "run SPEC [TRACE]"),
    ("run a b c", "`c` is one word too many for run", "run SPEC [TRACE]"),
    ("check --strict q.tsl", "check takes no options, and `--strict`", "check SPEC"),
    ("check -5", "`-5` begins with a dash, and is no name so: `./-5` is", "check SPEC"),
    ("run q.tsl -t", "`-t` begins with a dash", "run SPEC [TRACE]"),
    ("chek q.tsl", "there is no command `chek`; the nearest is check", "check SPEC"),
    ("instal x", "there is no command `instal`; the nearest is install", "install PREFIX"),
    ("q.tsl", "`q.tsl` is a file and no command", "run SPEC [TRACE]"),
    ("slice q.tsl", "slice needs the name of an output after the specification, NAME", "slice SPEC NAME"),
    ("slice q.tsl q r", "`r` is one word too many for slice", "slice SPEC NAME"),
    ("slice q.tsl q --strict", "slice takes no options, and `--strict`", "slice SPEC NAME"),
    ("why", "why needs the name of a specification", "why SPEC TRACE NAME TIME"),
    ("why q.tsl", "why needs a trace after the specification, TRACE", "why SPEC TRACE NAME TIME"),
    ("why q.tsl fault.trace", "why needs the name of an output after the trace, NAME", "why SPEC TRACE NAME TIME"),
    ("why q.tsl fault.trace q", "why needs a time after the output, TIME", "why SPEC TRACE NAME TIME"),
    ("why q.tsl fault.trace q 1 2", "`2` is one word too many for why", "why SPEC TRACE NAME TIME"),
    ("why q.tsl fault.trace q x", "the time takes a number of digits alone, and `x` is none", "why SPEC TRACE NAME TIME"),
    ("why q.tsl fault.trace q -1", "`-1` begins with a dash", "why SPEC TRACE NAME TIME"),
    ("why q.tsl fault.trace q 9223372036854775808", "the time is from 0 to 9223372036854775807", "why SPEC TRACE NAME TIME"),
    ("why q.tsl fault.trace q 1 --until 5", "why has no option `--until`: the end of the trace closes", "why SPEC TRACE NAME TIME"),
    ("why q.tsl fault.trace q 1 --stric", "why has no option `--stric`; the nearest is --strict", "why SPEC TRACE NAME TIME"),
    ("why q.tsl fault.trace q 1 --instants 0", "--instants is from 1 to 1000000000000", "why SPEC TRACE NAME TIME"),
    ("wy q.tsl", "there is no command `wy`; the nearest is why", "why SPEC TRACE NAME TIME"),
    ("compile", "compile needs the name of a specification", "compile SPEC FILE"),
    ("compile q.tsl", "compile needs the name of a file to be made after the specification, FILE", "compile SPEC FILE"),
    ("compile q.tsl a b", "`b` is one word too many for compile", "compile SPEC FILE"),
    ("compil q.tsl a", "there is no command `compil`; the nearest is compile", "compile SPEC FILE"),
    ("exec", "exec needs the name of a file that compile has made", "exec FILE [TRACE]"),
    ("exec q.code --untill 5", "exec has no option `--untill`; the nearest is --until", "exec FILE [TRACE]"),
    ("exec q.code --stats=1", "--stats takes no value", "exec FILE [TRACE]"),
    ("exec a b c", "`c` is one word too many for exec", "exec FILE [TRACE]"),
    ("exac a", "there is no command `exac`; the nearest is exec", "exec FILE [TRACE]"),
    ("run q.tsl --save", "--save needs the name of a file after it", "run SPEC [TRACE]"),
    ("run q.tsl --resume=", "--resume has an empty name", "run SPEC [TRACE]"),
    ("run q.tsl --save -s", "`-s` begins with a dash, and is no name so: `./-s` is", "run SPEC [TRACE]"),
    ("run q.tsl --save s --save=s", "--save stands twice", "run SPEC [TRACE]"),
    ("run q.tsl --save s --until 5", "--until does not stand beside --save: a run that is saved closes nothing", "run SPEC [TRACE]"),
    ("run q.tsl --strict --resume s", "--strict does not stand beside --resume: a run that goes on keeps those", "run SPEC [TRACE]"),
    ("exec q.code --resume s --bytes 5", "--bytes does not stand beside --resume", "exec FILE [TRACE]"),
    ("run q.tsl --resumes s", "run has no option `--resumes`; the nearest is --resume", "run SPEC [TRACE]"),
    ("check q.tsl --save s", "check takes no options, and `--save`", "check SPEC"),
    ("run q.tsl fault.trace --until", "--until needs a number after it", "run SPEC [TRACE]"),
    ("run q.tsl fault.trace --save", "--save needs the name of a file after it", "run SPEC [TRACE]"),
    ("run q.tsl fault.trace --resume", "--resume needs the name of a file after it", "run SPEC [TRACE]"),
    ("run q.tsl fault.trace --save --resume", "`--resume` begins with a dash", "run SPEC [TRACE]"),
    ("run --bytes", "--bytes needs a number after it", "run SPEC [TRACE]"),
    ("run --save", "--save needs the name of a file after it", "run SPEC [TRACE]"),
    ("run --resume -", "run needs the name of a specification", "run SPEC [TRACE]"),
    ("check q.tsl --resume", "check takes no options, and `--resume`", "check SPEC"),
    ("exec --resume", "--resume needs the name of a file after it", "exec FILE [TRACE]"),
    ("--save s run", "--save stands after the command: tessla run SPEC --save", "run SPEC [TRACE]"),
    ("gen sen 5", "`sen` is no kind: it is seen or copy; the nearest is seen", "gen KIND N"),
    ("gen seen 0", "the number of lines is from 1 to 1000000", "gen KIND N"),
)


def of_words(starts):
    for words, what, use in WORDS:
        ended = starts.extras(*words.split())
        said = ended.err.decode().splitlines()
        is_told = len(said) == 3 and said[0] == "words not accepted" and what in said[1] and said[2].startswith(f"use: tessla {use}")
        starts.tried.holds(f"the word that is wrong: {words}", ended.status == 2 and is_told, ended)
    ended = starts.extras("run", f"--{HOSTILE}")
    starts.tried.holds("a hostile word is visible", ended.status == 2 and not controls_in(ended.err) and b"\\x1b]0;title" in ended.err, ended)


def of_outputs(starts):
    """Where no output has a name, it is told what has it, and what outputs there are."""
    starts.write("named.tsl", "in beat: Events[Int]\ndef gap := beat - last(beat, beat)\nout gap as distance\nout filter(gap, gap > 30) as late\n")
    kinds = (
        ("distanse", "no output is called distanse", "the nearest is distance"),
        ("gap", "gap is declared, and is the name of no output", "write out gap; outputs are distance, late"),
        ("beat", "beat is declared, and is the name of no output", "write out beat; outputs are distance, late"),
        ("x\033", "no output is called x\\x1b", "outputs are distance, late"),
    )
    for name, cause, helps in kinds:
        ended = starts.extras("slice", "named.tsl", name)
        shown = name.replace("\033", "\\x1b")
        wanted = f"no output {shown}\n  cause:  {cause}\n  remedy: {helps}\n"
        starts.tried.ended(f"no output of that name: {shown}", ended, 10, "", wanted)
    with open(os.path.join(starts.room, "named.tsl"), "rb") as given:
        starts.tried.ended("no output of the standard input", starts.extras("slice", "-", "gap", given=given), 10, "", "no output gap\n")


def of_no_events(starts):
    """Where an output has no event at a time, its nearest ones are told, as far as the files can be read once more."""
    starts.write("event.tsl", "in i: Events[Int]\nout last(i, i) as p\nout filter(i, i > 99) as high\n")
    starts.write("event.trace", "1: i = 4\n3: i = 9\n6: i = 1\n9: i = 2\n")
    kinds = (
        ("p 4", "p has events at other times", "the nearest are at 3 before it and at 6 after it"),
        ("p 1", "p has events at other times", "the nearest is at 3 after it"),
        ("p 12", "p has events at other times", "the nearest is at 9 before it"),
        ("p 008 --instants 4", "p has events at other times", "the nearest is at 6 before it"),
        ("high 3", "high has no event in this trace, as far as it goes", "a delay that is due later needs a later line TIME: at its end"),
    )
    for words, cause, helps in kinds:
        name, time = words.split()[0], int(words.split()[1])
        wanted = f"no event of {name} at {time}\n  cause:  {cause}\n  remedy: {helps}\n"
        for command in ("why", "explain"):
            starts.tried.ended(f"{command} {words}", starts.extras(command, "event.tsl", "event.trace", *words.split()), 10, "", wanted)
    with open(os.path.join(starts.room, "event.trace"), "rb") as given:
        starts.tried.ended("no event by the standard input", starts.extras("why", "event.tsl", "-", "p", "4", given=given), 10, "", "no event of p at 4\n")
    starts.write("event2.tsl", "in i: Events[Int]\ndef p := last(i, i)\nout p as of\n")
    ended = starts.extras("why", "event2.tsl", "event.trace", "p", "3")
    wanted = "no output p\n  cause:  p is declared, and is the name of no output\n  remedy: write out p; outputs are of\n"
    starts.tried.ended("no output of why", ended, 10, "", wanted)


def of_codes(starts):
    """What a code file is that is refused, and why; of one that runs no place is shown, since its source is elsewhere."""
    tried = starts.tried
    tried.ended("a code file is made", starts.extras("compile", "q.tsl", "q.code"), 0, "", "")
    with open(os.path.join(starts.room, "q.code"), "rb") as opened:
        code = opened.read()
    tried.ended("a code file runs", starts.extras("exec", "q.code", given=b"1: i = 5\n"), 0, "1: q = 20\n", "")
    fault = "2: fault DivideByZero at 2:10\n"
    explained(starts, "a fault of a code file", starts.extras("exec", "q.code", "fault.trace"), 1, "1: q = 20\n", fault, "divisor")
    named = "trace 2: wrong value for i\nline.trace:2:2: wrong value for i\n     2: i = x\n"
    explained(starts, "a refused line of a code file", starts.extras("exec", "q.code", "line.trace"), 4, "", named, "fraction")
    kinds = (
        ("empty.code", b"", "the file is empty", "compile SPEC FILE"),
        ("begun.code", code[:5], "the file ends within its first line", "compile SPEC FILE"),
        ("cut.code", code[:-1], "something is cut off", "compile SPEC FILE"),
        ("q.tsl", None, "this is a specification, and no code file", "tessla run"),
        ("other.code", b"\x7fELF\n\0", "it does not begin as a code file does", "compile SPEC FILE"),
    )
    for name, data, cause, helps in kinds:
        if data is not None:
            starts.write(name, data)
        ended = starts.extras("exec", name, "fault.trace")
        begins = f"code: wrong form\n{name}: wrong form\n  cause:  ".encode()
        is_told = ended.status == 9 and not ended.out and ended.err.startswith(begins) and cause.encode() in ended.err and helps.encode() in ended.err
        tried.holds(f"a code file that is refused: {name}", is_told, ended)
    # The input has the type Bool, and the equation after it divides by it.
    starts.write("typed.code", code[:14] + b"\2" + code[15:])
    explained(starts, "a wrong type in a code file", starts.extras("exec", "typed.code", "fault.trace"), 9, "",
              "code: wrong types in equation 1\ntyped.code: wrong types in equation 1\n", "compile SPEC FILE")
    ended = starts.extras("exec", "-", "fault.trace", given=b"in i: Events[Int]\n")
    explained(starts, "a refused code of a pipe", ended, 9, "", "code: wrong form\n", "compile SPEC FILE")
    ended = starts.extras("check", "q.code")
    tried.holds("a code file as a specification", ended.status == 3 and ended.err.endswith(b"  remedy: run it by tessla exec\n"), ended)
    ended = starts.extras("exec", "hostile\033.code")
    tried.holds("a code file that is absent, of a hostile name", ended.status == 5 and b"  hostile\\x1b.code: No such file" in ended.err, ended)


def of_states(starts):
    """What a state is that is refused, and why."""
    tried = starts.tried
    starts.write("first.trace", "1: i = 5\n2: i = 4\n3: i")
    tried.ended("a run is saved", starts.extras("run", "q.tsl", "first.trace", "--save", "q.state"), 0, "1: q = 20\n", "")
    tried.ended("and goes on", starts.extras("run", "q.tsl", "--resume", "q.state", given=b" = 2\n"), 0, "2: q = 25\n3: q = 50\n", "")
    with open(os.path.join(starts.room, "q.state"), "rb") as opened:
        state = opened.read()
    kinds = (
        ("empty.state", b"", "the file is empty", "run --save"),
        ("begun.state", state[:5], "the file ends within its first line", "the state before it"),
        ("cut.state", state[:-1], "something is cut off", "the state before it"),
        ("q.tsl", None, "this is a specification, and no state", "run --save"),
        ("fault.trace", None, "this is a trace, and no state", "run --save"),
        ("elf.state", b"\x7fELF\n\0", "it does not begin as a state does", "run --save"),
    )
    for name, data, cause, helps in kinds:
        if data is not None:
            starts.write(name, data)
        ended = starts.extras("run", "q.tsl", "fault.trace", "--resume", name)
        begins = f"state: wrong form\n{name}: wrong form\n  cause:  ".encode()
        is_told = ended.status == 8 and not ended.out and ended.err.startswith(begins) and cause.encode() in ended.err and helps.encode() in ended.err
        tried.holds(f"a state that is refused: {name}", is_told, ended)
    starts.write("other.tsl", "in i: Events[Int]\nout 100 / i as r\n")
    told = "state: other program\nq.state: other program\n  cause:  the state's code has %1 q := Lift div(100, $0) %0"
    ended = starts.extras("run", "other.tsl", "fault.trace", "--resume=q.state")
    tried.holds("a state of other code", ended.status == 8 and ended.err.decode().startswith(told) and b", and the other has not\n" in ended.err, ended)
    starts.plain("compile", "other.tsl", "other.code")
    ended = starts.extras("exec", "other.code", "fault.trace", "--resume=q.state")
    explained(starts, "a state of other code than a code file has", ended, 8, "", "state: other program\nq.state: other program\n", "whole trace")
    ended = starts.extras("run", "q.tsl", "fault.trace", "--resume", "-", given=b"x")
    explained(starts, "a refused state of a pipe", ended, 8, "", "state: wrong form\n", "the state before it")


def of_parts(starts):
    """The lines of a trace that goes on are counted from the first one of the first run, and a file is named that can't be read or made."""
    tried = starts.tried
    starts.write("next.trace", " = x\n")
    named = "trace 3: wrong value for i\nnext.trace:1:1: wrong value for i\n    3: i = x\n"
    explained(starts, "the first line of a trace that goes on", starts.extras("run", "q.tsl", "next.trace", "--resume", "q.state"), 4, "", named, "write TIME: i = 5")
    starts.write("next.trace", " = 2\n\n  4 i = 5\n# more\n# more\n")
    named = "trace 5: not a trace line\nnext.trace:3:3: not a trace line\n      4 i = 5\n"
    ended = starts.extras("run", "q.tsl", "next.trace", "--resume", "q.state")
    explained(starts, "a further line of a trace that goes on", ended, 4, "2: q = 25\n", named, "TIME: NAME = VALUE")
    ended = starts.extras("run", "q.tsl", "--resume", "q.state", given=b" = 2\n1: i = 3\n")
    explained(starts, "a line of a pipe that goes on", ended, 4, "2: q = 25\n", "trace 4: time 1 after 3\n", "")
    ended = starts.extras("run", "q.tsl", "next.trace", "--resume", "/dev/stdin", given=read(starts, "q.state"))
    explained(starts, "a line behind a state of a pipe", ended, 4, "2: q = 25\n", "trace 5: not a trace line\n", "TIME: NAME = VALUE")
    fails = (
        ("--resume", "hostile\033.state", "  hostile\\x1b.state: No such file or directory\n"),
        ("--resume", ".", "  .: Is a directory\n"),
        ("--save", ".", "  .: Is a directory\n"),
        ("--save", "absent/s", "  absent/s: No such file or directory\n"),
        ("--save", "/dev/full", "  /dev/full: it cannot be written\n"),
    )
    for option, name, told in fails:
        ended = starts.extras("run", "q.tsl", "first.trace", option, name)
        tried.holds(f"{option} {told.strip()}", ended.status == 5 and ended.err.decode().endswith(f"outside: a call failed\n{told}"), ended)


def of_strange_parts(starts):
    """Which names of a part are no input's: its first line goes on where the state ends, and a state may stand where the trace stood."""
    tried, told = starts.tried, "tessla: 1 line has a name that no input has: "
    starts.write("strange.trace", "1: j = 5\n2: k")
    of_first = f"{told}j in line 1; inputs are i\n"
    tried.ended("of a part its whole lines are told", starts.extras("run", "q.tsl", "strange.trace", "--save", "s.state"), 0, "", of_first)
    starts.write("noted.trace", "# at ")
    starts.plain("run", "q.tsl", "noted.trace", "--save", "noted.state")
    kinds = (
        ("a name that the state has", "s.state", " = 5\n", f"{told}k in line 1; inputs are i\n"),
        ("a name that the state begins", "s.state", "k = 5\n3: i = 5\n", f"{told}kk in line 1; inputs are i\n"),
        ("a comment that the state begins", "noted.state", "1: j = 5\n3: i = 5\n", ""),
        ("a line behind the first one", "noted.state", "1: j = 5\n3: k = 5\n", f"{told}k in line 2; inputs are i\n"),
    )
    for what, state, data, wanted in kinds:
        starts.write("more.trace", data)
        for name, given in ((state, b""), ("/dev/stdin", read(starts, state))):
            ended = starts.extras("run", "q.tsl", "more.trace", "--resume", name, given=given)
            tried.ended(f"{what}, of {name}", ended, 0, None, wanted if name == state or "line 1" not in wanted else "")
        starts.write("place.state", read(starts, state))
        tried.ended(f"{what}, of a state that is saved anew", starts.extras("run", "q.tsl", "more.trace", "--resume", "place.state", "--save=place.state"), 0, None, wanted)
    sources = {"set.tsl": "in i: Events[Int]\ndef s: Events[Set[Int]] := merge(Set.add(last(s, i), i), Set.empty[Int])\nout Set.size(s) as n\n", "text.tsl": "in s: Events[String]\nout last(s, s) as p\n"}
    for spec, trace, saved in (("set.tsl", "1: i = 5\n", "set.tsl"), ("set.tsl", "1: i = 5\n", "./link"), ("text.tsl", '1: s = "\\n1: j = 5\\n"\n', "part.trace")):
        starts.write(spec, sources[spec])
        starts.write("part.trace", trace)
        with contextlib.suppress(FileExistsError):
            os.symlink("set.tsl", os.path.join(starts.room, "link"))
        ended = starts.extras("run", spec, "part.trace", "--save", saved)
        tried.holds(f"a state of {spec} in the place of {saved}", ended.status == 0 and not ended.err and read(starts, saved).startswith(b"TSLSTA1\n"), ended)


def tells_states(starts):
    """What `tessla state` tells of a state, and of other files."""
    tried = starts.tried
    starts.write("two.trace", "1: i = 5\n7: i = 4\n8")
    starts.plain("run", "q.tsl", "two.trace", "--save", "told.state", "--strict", "--bytes=100")
    told = "bytes 19\nlines 2\nrest 1\ntime 7\ninstants 2\noptions --instants 1000000000000 --bytes 100 --strict\n"
    tried.ended("what a state has", starts.plain("state", "told.state"), 0, told, "")
    tried.ended("what the state of the standard input has", starts.plain("state", "-", given=read(starts, "told.state")), 0, told, "")
    tried.ended("the code of a state", starts.plain("state", "told.state", "--code"), 0, starts.plain("code", "q.tsl").out.decode(), "")
    starts.plain("run", "q.tsl", "--save", "none.state", given=b"")
    tried.ended("what the state of an empty trace has", starts.plain("state", "none.state"), 0,
                "bytes 0\nlines 0\nrest 0\ntime none\ninstants 0\noptions --instants 1000000000000 --bytes 1099511627776\n", "")
    starts.write("part.state", read(starts, "told.state")[:60])
    refused = (("part.state", "it ends too early: a part of it is cut off"), ("q.tsl", "it does not begin as a state does"), ("/dev/null", "it is empty"))
    for name, why in refused:
        said = f"tessla: {name} is no state that a run has saved: {why}\n"
        tried.ended(f"no state: {name}", starts.plain("state", name), 8, "", said)
    tried.ended("no state, of a hostile name", starts.plain("state", "x\033"), 5, "", "tessla: x\\x1b: No such file or directory\n")
    large = starts.write("large.state", b"TSLSTA1\n" + (1 << 30).to_bytes(8, "big"))
    os.truncate(large, 16 + (1 << 30))
    env = environment(TESSLA_PROGRAM=starts.program)
    ended = starts.start(["sh", "-c", 'ulimit -v 300000 && exec "$@"', "sh", LAUNCHER, "state", large], env=env)
    os.unlink(large)
    tried.ended("a state with more code than memory", ended, 6, "", "tessla: out of memory\n")
    for words in ((), ("a", "b"), ("a", "--code", "--code"), ("",)):
        ended = starts.plain("state", *words)
        tried.holds(f"state with {words}", ended.status == 125 and ended.err.startswith(b"tessla: state needs the name of a file"), ended)
    tried.ended("a state is read without a program", starts.plain("state", "told.state", program="/dev/null/absent"), 0, told, "")


def read(starts, name):
    with open(os.path.join(starts.room, name), "rb") as opened:
        return opened.read()


# ---- On a terminal


def of_nothing(starts):
    """A run that prints nothing on a terminal tells what may be wrong; one that prints something does not."""
    tried = starts.tried
    starts.write("never.trace", "1: a\n2: b\n9:\n")
    ended = terminal(starts, "run", "never.tsl", "never.trace").end()
    tried.holds("a run that prints nothing", ended.status == 0 and ended.out.startswith(b"note: the delay late is set only where"), ended)
    starts.write("met.trace", "1: a\n1: b\n9:\n")
    tried.ended("a run that prints something", terminal(starts, "run", "never.tsl", "met.trace").end(), 0, "6: late = ()\n")
    starts.write("end.trace", "1: a\n9:\n")
    starts.write("end.tsl", "in a: Events[Unit]\nout delay(const(10, a), a) as late\n")
    ended = terminal(starts, "run", "end.tsl", "end.trace", "--until", "10").end()
    tried.ended("and where the end is told, nothing more", ended, 0, "")
    told = "tessla: late has an event at 11, after the end of the trace: run with --until 11\n"
    tried.ended("what is due after the end", terminal(starts, "run", "end.tsl", "end.trace").end(), 0, told)
    starts.write("clock.tsl", "in a: Events[Unit]\ndef t: Events[Unit] := delay(const(1, merge(a, t)), a)\nout filter(time(t), time(t) < 0) as never\n")
    tried.ended("a clock that ticks for ever", terminal(starts, "run", "clock.tsl", "end.trace").end(), 0, "")
    tried.ended("where the output goes elsewhere", starts.extras("run", "never.tsl", "never.trace"), 0, "", "")


def terminal(starts, *words, streams=(0, 1, 2), **more):
    env = environment(TESSLA_PROGRAM=starts.program, **{"TERM": "xterm", **more})
    env.pop("NO_COLOR", None)
    return Terminal(starts, [LAUNCHER, *words], streams, env={**env, **more})


def waits(starts):
    """A run that waits for the terminal says so, and one that ends at once does not."""
    tried, hint = starts.tried, b"tessla: the trace is read from the terminal"
    started = terminal(starts, "run", "q.tsl")
    tried.holds("a run that waits for lines of the terminal says so", started.read(b"ends it\n") and started.shown.startswith(hint), started.shown)
    started.give(b"1: i = 5\n2: i = 4\n")
    tried.holds("and goes on", started.read(b"1: q = 20\n"), started.shown)
    started.give(b"\x04")
    ended = started.end()
    tried.holds("and ends as it does", ended.status == 0 and ended.out.count(hint) == 1 and ended.out.endswith(b"2: q = 25\n"), ended)
    for what, words in (("with a trace", ("q.tsl", "fault.trace")), ("that is refused", ("name.tsl",))):
        ended = terminal(starts, "run", *words).end()
        tried.holds(f"a run {what} waits for nothing", b"from the terminal" not in ended.out, ended)
    starts.plain("compile", "q.tsl", "q.code")
    started = terminal(starts, "exec", "q.code")
    tried.holds("a run of a code file that waits says so", started.read(b"ends it\n") and started.shown.startswith(hint), started.shown)
    started.give(b"1: i = 5\n\x04")
    tried.holds("and it goes on", started.end().out.endswith(b"1: q = 20\n"), started.shown)
    started = terminal(starts, "exec", "-")
    tried.holds("a code file of the terminal", started.read(b"ends it\n") and b"a code file is read from the terminal" in started.shown, started.shown)
    started.give(b"x\n\x04")
    tried.holds("and it is refused", started.end().status == 9, started.shown)
    started = terminal(starts, "run", "q.tsl", "fault.trace", "--resume", "-")
    tried.holds("a state of the terminal", started.read(b"ends it\n") and b"a state is read from the terminal" in started.shown, started.shown)
    started.give(b"x\n\x04")
    tried.holds("and that is refused", started.end().status == 8, started.shown)
    started = terminal(starts, "check", "-")
    tried.holds("a specification of the terminal", started.read(b"ends it\n") and b"the specification is read" in started.shown, started.shown)
    started.give(b"out 1 as x\n\x04")
    tried.ended("and it is checked", started.end(), 0)


RED, PLAIN = b"\033[1;31m", b"\033[0m"


def colours(starts):
    """Colour is on a terminal alone, and on little."""
    tried, marked = starts.tried, b"q.tsl:2:10: " + RED + b"DivideByZero" + PLAIN + b"\n"
    ended = terminal(starts, "run", "q.tsl", "fault.trace").end()
    is_sparing = ended.out.count(RED) == 2 and marked in ended.out and RED + b"^" + PLAIN in ended.out
    tried.holds("the kind and the caret have a colour on a terminal", is_sparing, ended)
    ended = terminal(starts, "run", "q.tsl", "fault.trace", NO_COLOR="").end()
    tried.holds("an empty NO_COLOR asks for nothing", marked in ended.out, ended)
    for name, value in (("NO_COLOR", "1"), ("NO_COLOR", "0"), ("TERM", "dumb"), ("TERM", "")):
        ended = terminal(starts, "run", "q.tsl", "fault.trace", **{name: value}).end()
        tried.holds(f"none with {name}={value}", b"q.tsl:2:10: DivideByZero\n" in ended.out and b"\033" not in ended.out, ended)
    ended = starts.extras("run", "q.tsl", "fault.trace", env={"TERM": "xterm"})
    tried.holds("none where no terminal is", b"q.tsl:2:10: DivideByZero\n" in ended.err and b"\033" not in ended.err, ended)
    started = terminal(starts, "run", "q.tsl", "fault.trace", streams=(0, 1), TESSLA_TERMINAL="1")
    said = started.child.stderr.read()
    started.end()
    tried.holds("none where the messages go elsewhere", b"q.tsl:2:10: DivideByZero\n" in said and b"\033" not in said, said)


def hostile(starts):
    """Nothing of a source, a trace or a name does anything, in what is told of the token at hand either."""
    sources = (f"out a{HOSTILE}-b as x", f'out const("{HOSTILE}" , i, i) as x', f"def f(a: Int) := last(a,\033[2J a)\nout f(1) as x", f"in \u009b: int\nout 1.5{HOSTILE}")
    for number, source in enumerate(sources):
        name = f"hostile.{number}\033[2J.tsl"
        starts.write(name, f"{INPUTS}{source}\n")
        ended = starts.extras("check", name)
        is_clean = ended.status == 3 and not controls_in(ended.err) and b"\\x1b[2J.tsl:" in ended.err
        starts.tried.holds(f"a hostile source is visible ({number})", is_clean, ended)
    # On a terminal there is the colour and nothing else.
    ended = terminal(starts, "check", name).end()
    ended.out = ended.out.replace(RED, b"").replace(PLAIN, b"")
    starts.tried.holds("a hostile source on a terminal", b"BadCharacter" in ended.out and not controls_in(ended.out), ended)


def is_soon(starts):
    """A source of a megabyte is answered within the time that is given to it."""
    starts.write("large.tsl", "in i: Events[Int]\n" + "out i -- ((((((((((((\n" * 40_000 + "out i = i as x\n")
    started = os.times().elapsed
    ended = starts.extras("check", "large.tsl")
    took = os.times().elapsed - started
    starts.tried.holds("a large source has its excerpt soon", ended.status == 3 and b"large.tsl:" in ended.err and took < 10, took, ended)


def asked_for(starts):
    """What is added where it is asked for changes nothing of the standard output or the status."""
    for words in (("run", "q.tsl", "fault.trace"), ("check", "name.tsl"), ("run", "four.tsl", "odd.trace"), ("flat", "q.tsl"), ("slice", "q.tsl", "q"), ("slice", "q.tsl", "i"), ("why", "q.tsl", "fault.trace", "q", "1"), ("why", "q.tsl", "fault.trace", "q", "2"), ("gen", "seen", "3")):
        plain, extras = starts.plain(*words), starts.extras(*words)
        same = (plain.status, plain.out) == (extras.status, extras.out) and extras.err.startswith(plain.err)
        starts.tried.holds(f"what is asked for comes below: {' '.join(words)}", same, plain, extras)


def pointing(starts):
    write_files(starts)
    at_hand(starts)
    of_macros(starts)
    no_slip(starts)
    of_cycles(starts)
    of_lines(starts)
    of_names(starts)
    of_silence(starts)
    of_words(starts)
    of_outputs(starts)
    of_no_events(starts)
    of_codes(starts)
    of_states(starts)
    of_parts(starts)
    of_strange_parts(starts)
    tells_states(starts)
    of_nothing(starts)
    waits(starts)
    colours(starts)
    hostile(starts)
    is_soon(starts)
    asked_for(starts)
