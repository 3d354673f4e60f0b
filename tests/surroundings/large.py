"""Sources as long as a source may be, that go as deep or as far as one can. None may overflow the stack or take for ever. And files as long as a code
file may be, and longer."""

import os

LONG = 190000
# A code file may have so many bytes.
LONGEST_CODE = 1 << 30


def refused(place, text):
    return b"", 3, f"spec {place[0]}:{place[1]}: {text}\n".encode()


def chained(count, line, last):
    """Lines for the numbers from `count` down to 1, each of which uses the one below it."""
    rows = [line.replace("$k", str(k)).replace("$j", str(k - 1)) for k in range(count, 0, -1)]
    return "in i: Events[Int]\n" + "\n".join(rows) + "\n" + last


def large_sources():
    """The name, the source, and output, status and message of `check`."""
    first = "in i: Events[Int]\n"
    names = "".join(f"in a{k}: Unit\n" for k in range(60000))
    many = ", ".join(f"a{k}: Int" for k in range(70000))
    typed, too_deep = "def f$k(a: Int): Int := f$j(a)", refused((2, 5), "CallsTooDeep")
    merges = chained(30000, "def a$k := a$j", "def a0 := i\nout a30000\n")
    # The equation of number 4096 is that of the line after as many others, and its place is the name that is used.
    merge_place = (4097, 1 + len(f"def a{30000 - 4095} := "))
    cycle = [f"def c{k}: Events[Int] := c{(k + 1) % 3000}\n" for k in range(3000)]
    named = " -> ".join(f"c{k}" for k in [0, *range(2999, -1, -1)])
    return [
        ("sums", first + "def a := i" + " + 1" * LONG + "\nout a\n", refused((2, 10), "TooManyEquations")),
        ("sums_of_values", first + "def f(a: Int): Int := a" + " + 1" * LONG + "\nout f(i) as o\n", refused((2, 5), "BodyTooLarge")),
        ("conjunctions", first + "def a := true" + " && true" * (LONG // 2) + "\nout a\n", refused((2, 10), "TooManyEquations")),
        ("brackets", "out " + "(" * LONG, refused((1, 69), "TooDeep")),
        ("denials", "out " + "!" * LONG, refused((1, 69), "TooDeep")),
        ("negations", "out " + "- " * LONG, refused((1, 133), "TooDeep")),
        ("choices", "out " + "if " * LONG, refused((1, 5 + 3 * 64), "TooDeep")),
        ("types", "in x: " + "Set[" * LONG, refused((1, 7 + 4 * 64 + 3), "TooDeep")),
        ("arguments", "out merge(1" + ", 1" * LONG + ") as o\n", refused((1, 5), "WrongArity")),
        ("parameters", f"def f({many}): Int := 1\nout f(1) as o\n", refused((1, 5), "WrongArity")),
        ("inputs", names + "out a0\n", refused((4097, 4), "TooManyEquations")),
        ("outputs", first + "".join(f"out i as o{k}\n" for k in range(60000)), (b"ok 1 0\n", 0, b"")),
        ("names_of_names", merges, refused(merge_place, "TooManyEquations")),
        ("functions", chained(25000, typed, "def f0(a: Int): Int := a\nout f25000(i) as o\n"), too_deep),
        ("untyped_functions", chained(25000, "def f$k(a: Int) := f$j(a)", "def f0(a: Int) := a\nout f25000(i) as o\n"), too_deep),
        ("macros", chained(15000, "def m$k(a: Events[Int]) := m$j(a)", "def m0(a: Events[Int]) := a\nout m15000(i) as o\n"), too_deep),
        ("cycle_of_functions", chained(25000, typed, "def f0(a: Int): Int := f25000(a)\nout i\n"), refused((2, 5), "FunctionCycle")),
        ("cycle_of_names", chained(30000, "def a$k := a$j", "def a0 := a30000\nout i\n"), refused((2, 5), "NeedsType")),
        ("cycle_of_equations", "".join(cycle) + "out c0\n", refused((1, 1 + len("def c0: Events[Int] := ")), f"cycle {named}")),
        ("comment", "--" + "x" * 1000000 + "\n" + first + "out i\n", (b"ok 1 0\n", 0, b"")),
        ("lines", "\n" * 1000000 + first + "out i\n", (b"ok 1 0\n", 0, b"")),
    ]


def large(room, check, cases, words):
    def trial(one):
        name, source, wanted = one
        assert len(source.encode()) <= 1048576, name
        folder = room.place({"s.tsl": source.encode()})
        ended = room.start(["check", "s.tsl"], folder)
        check.judge(ended.is_as(*wanted), ended, name, source=source.encode())

    list(room.pool.map(trial, large_sources()))
    for size, text in ((LONGEST_CODE, "wrong form"), (LONGEST_CODE + 1, "too long")):
        folder = room.place({"c": b""})
        os.truncate(os.path.join(folder, "c"), size)
        ended = room.start(["exec", "c", "absent"], folder)
        check.judge(ended.is_as(b"", 9, f"code: {text}\n".encode()), ended, f"a code file of {size} bytes")
        os.remove(os.path.join(folder, "c"))
