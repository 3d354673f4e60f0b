"""What the page answers, beside what the program gives."""

import os
import subprocess
import sys
import tempfile
import time

from shown import EXAMPLES, TOP, read

sys.path.insert(0, os.path.join(TOP, "tests", "surroundings"))
from large import large_sources  # noqa: E402

CASES = os.path.join(TOP, "tests", "cases")
WITH_VALUE = (b"--until", b"--instants", b"--bytes", b"--save", b"--resume")
PREVIOUS = "in i: Events[Int]\nout last(i, i) as p\n"
# A run of many lines may take so many times what the program takes.
MOST_TIMES = 3
# The status where a call of the outside failed, which no call of the page does but one that makes a file.
OUTSIDE = 5
CALL_FAILED = b"outside: a call failed\n"
# The statuses of words and of what runs: these come before a state is read.
BEFORE_STATES = (2, 3, 9)
# Cases of the language's limits, which have to be among those that are tried.
LIMITS = {"as_many_levels_as_may_be", "too_many_levels", "levels_of_braces", "levels_of_brackets", "levels_of_choices", "levels_of_mixed_kinds", "levels_of_prefixes"}
LIMITS |= {"line_of_65536_bytes", "line_of_65537_bytes", "text_of_65536_bytes", "text_of_65537_bytes"}


def recipes(page):
    """Each recipe by the menu, and each command over it."""
    names = sorted(it[:-4] for it in os.listdir(EXAMPLES) if it.endswith(".tsl"))
    listed = page.shown.evaluate("[...document.getElementById('recipe').options].map(it => it.value).filter(it => it)")
    page.tally.judge("the recipes of the menu", "" if listed == names else f"{listed}")
    for name in names:
        page.put(recipe=name)
        status, shown = page.of("status"), page.of("output").encode()
        right = status.startswith("status 0:") and shown == read(EXAMPLES, f"{name}.output")
        page.tally.judge(f"recipe {name}", "" if right else f"{status}: {shown[:200]!r}")
        spec, trace = read(EXAMPLES, f"{name}.tsl"), read(EXAMPLES, f"{name}.trace")
        options = read(EXAMPLES, f"{name}.options").split()
        page.judge_same(f"run of {name}", [b"run", b"spec", b"trace", *options], spec, trace)
        for command in (b"check", b"flat", b"show", b"code"):
            page.judge_same(f"{command.decode()} of {name}", [command, b"spec"], spec, b"")
        time, output = shown.split(b" = ")[0].split(b": ")
        page.judge_same(f"slice of {name}", [b"slice", b"spec", output], spec, b"")
        page.judge_same(f"why of {name}", [b"why", b"spec", b"trace", output, time], spec, trace)
    page.put(recipe="seen")
    for command in ("flat", "slice", "why", "show", "code", "check", "run"):
        page.put(command=command, time="2")
        words = [command.encode(), b"spec"] + {"run": [b"trace"], "slice": [b"again"], "why": [b"trace", b"again", b"2"]}.get(command, [])
        wanted = page.native(words, read(EXAMPLES, "seen.tsl"), read(EXAMPLES, "seen.trace"))[1].decode()
        page.tally.judge(f"{command} by the menu", "" if page.of("output") == wanted else repr(page.of("output")[:200]))
    slices(page)
    whys(page)


def whys(page):
    """Why the output that is named has an event, or the first one, at a time or at 0."""
    spec, trace, why = "in i: Events[Int]\nout i as o\nout last(i, i) as p\n", "0: i = 7\n3: i = 9\n", "#0 %0 i at 0 = 7\n"
    page.put(spec=spec, trace=trace, command="why", name="", time="")
    page.tally.judge("why without a name and a time", "" if page.of("output") == why and page.of("status").startswith("status 0:") else repr(page.of("output")))
    page.put(name="o", time="003")
    page.tally.judge("why at a time", "" if page.of("output") == "#0 %0 i at 3 = 9\n" else repr(page.of("output")))
    for name, time, status, message in (("p", "2", "the output has no event then", "no event of p at 2"), ("i", "3", "no output has this name", "no output i")):
        page.put(name=name, time=time)
        right = page.of("status").startswith(f"status 10: {status}") and page.of("message") == message and not page.of("output")
        page.tally.judge(f"why {name} {time}", "" if right else f"{page.of('status')}: {page.of('message')!r}")
    page.put(command="run", name="", time="")


def slices(page):
    """The slice of an output that is named, or of the first one, however that is written."""
    spec = "-- out of\nin i: Events[Int]\nout last(\n  i, i) as p -- out q\nin j: Events[Int] out j\n"
    for name, number, output in (("", 2, "p"), ("p", 2, "p"), ("j", 1, "j")):
        page.put(spec=spec, command="slice", name=name)
        right = page.of("output").endswith(f"out {output} %{number}\n") and page.of("status").startswith("status 0:")
        page.tally.judge(f"the slice of `{name}`", "" if right else f"{page.of('status')}: {page.of('output')!r}")
    page.put(spec="in j: Events[Int] out j", name="")
    page.tally.judge("the slice of the one output", "" if page.of("output") == "%0 j := Input Int\nout j %0\n" else repr(page.of("output")))
    for name in ("i", "--strict"):
        page.put(spec=spec, name=name)
        right = page.of("status").startswith("status 10: no output has this name") and page.of("message") == f"no output {name}"
        page.tally.judge(f"the slice of `{name}`, which is no output", "" if right else f"{page.of('status')}: {page.of('message')!r}")
    page.put(command="run", name="")


def names_in(words):
    """The names of files among the words of a command."""
    names, left, is_plain = [], list(words[1:]), False
    while left:
        word = left.pop(0)
        if is_plain or word == b"-" or not word.startswith(b"--"):
            names.append(word)
        elif word == b"--":
            is_plain = True
        elif word in WITH_VALUE:
            left = left[1:]
    return names


def texts_of(case, words):
    """The specification and the trace of a case, None for a file that is none."""
    stdin, names = read(case, "stdin"), names_in(words)
    # The second name of these is that of an output, or of a file that is made.
    if words and words[0] in (b"slice", b"compile"):
        names = names[:1]
    # Behind the trace stand the name of an output and a time.
    if words and words[0] == b"why":
        names = names[:2]
    spec = (names + [b"-"])[0]
    trace = (names[1:] + [b"-"])[0]
    found = [stdin if it == b"-" else read(case, "files", os.fsdecode(it)) for it in (spec, trace)]
    # The standard input is read once.
    return found if spec != trace or trace != b"-" else [stdin, b""]


def cases(page):
    """Each case gives what its folder says. Those that need a file which can't be read, or a state, are left out: the page opens none. And it makes none."""
    tried, left_out = set(), 0
    for name in sorted(os.listdir(CASES)):
        case = os.path.join(CASES, name)
        words = read(case, "words").split(b"\n")
        words = words[:-1] if words[-1] == b"" else words
        wanted = (int(read(case, "status") or 0), read(case, "stdout"), read(case, "stderr"))
        spec, trace = texts_of(case, words)
        goes_on = any(it.startswith(b"--resume") for it in words) and wanted[0] not in BEFORE_STATES
        is_made = os.path.isdir(os.path.join(case, "made"))
        if goes_on or wanted[0] == OUTSIDE and not is_made or None in (spec, trace):
            left_out += 1
            continue
        if is_made:
            # What is printed comes before.
            wanted = (OUTSIDE, wanted[1], CALL_FAILED)
        tried.add(name)
        got = page.ask(words, spec, trace)
        page.tally.judge(f"case {name}", "" if got == wanted else f"{got[0]}, {got[1][:120]!r}, {got[2][:120]!r}")
    page.tally.judge("cases of the limits", "" if LIMITS <= tried else f"without {sorted(LIMITS - tried)}")
    if left_out:
        page.tally.skips(f"{left_out} cases", "they need a state, or a file that can't be read", left_out)


def deep(page):
    """Sources as long as they may be, which go as deep or as far as one can."""
    for name, source, (out, status, err) in large_sources():
        got = page.ask([b"check", b"spec"], source.encode(), b"")
        page.tally.judge(f"the long source {name}", "" if got == (status, out, err) else f"{got[0]}, {got[1][:120]!r}, {got[2][:120]!r}")


def memory(page):
    """Each limit of memory gives the whole answer, or that memory ran out."""
    spec = b"in i: Events[Int]\ndef s: Events[Set[Int]] := merge(Set.add(last(s, i), i), Set.empty[Int])\nout Set.size(s) as n\n"
    trace = b"".join(b"%d: i = %d\n" % (k, k) for k in range(1, 3001))
    words = (b"run", b"spec", b"trace")
    whole = page.judge_same("with ample memory", words, spec, trace)
    met = set()
    for kilobytes in range(8192, 16384, 256):
        got = page.ask(words, spec, trace, most=kilobytes << 10)
        met.add(got[0])
        if got not in (whole, (6, b"", b"out of memory\n")):
            page.tally.fails(f"with {kilobytes} kB: {got[0]}, {got[1][:100]!r}, {got[2]!r}")
            return
    page.tally.judge("out of memory", "" if met == {0, 6} else f"the statuses {sorted(met)}")


def long_trace(page, lines):
    """Many lines, beside the time that the program takes."""
    got, by_program = [], []
    with tempfile.TemporaryDirectory() as room:
        with open(os.path.join(room, "spec"), "w", encoding="utf-8") as opened:
            opened.write(PREVIOUS)
        with open(os.path.join(room, "trace"), "w", encoding="utf-8") as opened:
            opened.writelines(f"{k}: i = {k}\n" for k in range(1, lines + 1))
        for _ in range(3):
            begun = time.monotonic()
            subprocess.run([page.program, "run", "spec", "trace"], cwd=room, stdin=subprocess.DEVNULL, stdout=subprocess.DEVNULL, check=True)
            by_program.append(time.monotonic() - begun)
            got.append(page.shown.apply("(...given) => runLines(...given)", PREVIOUS, lines))
    right = all(it["status"] == 0 and it["same"] for it in got)
    page.tally.judge(f"{lines} lines", "" if right else f"{got}")
    least = min(by_program), min(it["took"] for it in got) / 1000
    note = f"{lines} lines of `previous`: {least[0]:.2f} s by the program, {least[1]:.2f} s in the page"
    print(note)
    if lines < 100_000:
        page.tally.skips("the time of a long trace", "it is short")
    elif least[1] > MOST_TIMES * least[0] and (os.getloadavg()[0] > os.cpu_count() / 2 or least[1] < 2 * MOST_TIMES * least[0]):
        # One reading on a machine that others use as well scatters: only what is far beyond the limit fails.
        page.tally.skips("the time of a long trace", f"more than {MOST_TIMES} times, which other work explains: {note}")
    else:
        page.tally.judge("the time of a long trace", "" if least[1] <= MOST_TIMES * least[0] else note)
