"""The workloads of tests/speed: specifications, their traces, and what has to be printed, which is worked out here apart from them."""

import os
import sys
from typing import Callable, NamedTuple, Optional, Sequence

HERE = os.path.dirname(os.path.abspath(__file__))
TOP = os.path.dirname(HERE)
sys.path.insert(0, os.path.join(HERE, "surroundings"))

from due import HEARTBEATS, SEEN  # noqa: E402

# Lengths for counting where a line takes many instructions.
FEWER = (1_000, 2_000)

SEEN_BY_MAWK = '{ print $1, "s =", ($4 in came) ? "true" : "false"; came[$4] }'

# A map of numbers that is changed at each line, and the same where a second reader keeps the old map, so that each change copies.
MAP = """in i: Events[Int]
def m := merge(put, Map.empty[Int, Int])
def before := last(m, i)
def put: Events[Map[Int, Int]] := Map.add(before, i, i)
out Map.size(before) as n
"""

KEPT = MAP + """in j: Events[Unit]
def old := last(before, j)
out old
"""

# The sum of what came under each name. The amount comes first, and then the name that it belongs to.
TEXTS = """in name: Events[String]
in amount: Events[Int]
def with(m: Map[String, Int], k: String, v: Int): Int := (if Map.contains(m, k) then Map.get(m, k) else 0) + v
def before := merge(last(sums, name), Map.empty[String, Int])
def sum := with(before, name, last(amount, name))
def sums: Events[Map[String, Int]] := merge(Map.add(before, name, sum), before)
out sum
out Map.size(sums) as names
"""

# A set that grows with each line and is asked for its size at the end.
MILLION = """in i: Events[Int]
in ask: Events[Unit]
def before := merge(last(all, i), Set.empty[Int])
def all: Events[Set[Int]] := merge(Set.add(before, i), before)
out last(Set.size(all), ask) as size
"""

# As many merges as the chain has.
MERGES = 100

# How many updates happen in place beside as many that copy.
UPDATES = 128

# How many names the texts have.
NAMES = 200

# Later than any line of a trace.
FAR = 1_000_000_000


class Workload(NamedTuple):
    """Of each the specification, and what makes the trace and what has to be printed; perhaps a program of mawk, and lengths of its own.

    Where a line takes many instructions, fewer lines suffice to count them.
    """

    specification: Callable
    make: Callable
    mawk: Optional[str] = None
    lengths: Sequence[int] = (10_000, 100_000, 1_000_000)
    counted: Sequence[int] = (10_000, 20_000)


def example(name):
    with open(os.path.join(TOP, name), encoding="utf-8") as file:
        return file.read()


def counted(lines, value):
    """At each time from 1 on an event of i with this value."""
    return [f"{k}: i = {value(k)}" for k in range(1, lines + 1)]


def previous(lines):
    values = [k % 1000 for k in range(lines + 1)]
    return counted(lines, values.__getitem__), [f"{k}: p = {values[k - 1]}" for k in range(2, lines + 1)]


def seen(lines):
    printed = [f"{k}: s = {'true' if k > 1000 else 'false'}" for k in range(1, lines + 1)]
    return counted(lines, lambda k: k % 1000), printed


def different(lines):
    return counted(lines, lambda k: k), [f"{k}: s = false" for k in range(1, lines + 1)]


def changed(lines):
    return counted(lines, lambda k: k % 1000), [f"{k}: n = {min(k - 1, 1000)}" for k in range(1, lines + 1)]


def devices(lines):
    """Twenty devices in turn, one at each time. Every 100 lines all stay away for 60 units of time."""
    now, before, trace, printed = 0, {}, [], ["0: devices = 0"]
    for k in range(1, lines + 1):
        if k % 100 == 0:
            printed.append(f"{now + 50}: quiet = ()")
            now += 60
        else:
            now += 1
        device = k % 20
        trace.append(f"{now}: beat = {device}")
        if now - before.get(device, now) > 30:
            printed.append(f"{now}: late = {device}")
        before[device] = now
        printed.append(f"{now}: devices = {len(before)}")
    return trace, printed


def waiting(lines):
    """A hundred requests, then as many answers, and so on."""
    now, asked, trace, printed = 0, [], [], []
    for k in range(lines):
        now += 1 + k % 3
        if k % 200 < 100:
            trace.append(f"{now}: request")
            asked.append(now)
        else:
            trace.append(f"{now}: answer")
            printed.append(f"{now}: latency = {now - asked.pop(0)}")
    return trace, printed


def heartbeats(lines):
    """Twelve devices, one at each second time, and two of them in each second round alone, which makes them late."""
    now, before, trace, printed = 0, {}, [], ["0: ticks = 0", "0: devices = 0"]
    k = 0
    while len(trace) < lines:
        k += 1
        device, turn = k % 12, k // 12
        if device % 7 == 0 and turn % 2 == 1:
            continue
        if len(trace) % 500 == 499:
            printed.append(f"{now + 50}: quiet = ()")
            now += 75
        else:
            now += 2
        trace.append(f"{now}: beat = {device}")
        if now - before.get(device, now) > 30:
            printed.append(f"{now}: late = {device}")
        before[device] = now
        printed += [f"{now}: ticks = {len(trace)}", f"{now}: devices = {len(before)}"]
    return trace, printed


def watchdog(lines):
    """A heartbeat every 3 units of time, and every fourth one stays away for 15."""
    now, trace, printed = 0, [], []
    for k in range(1, lines + 1):
        if k % 4 == 0:
            printed += [f"{now + 10}: silence = ()", f"{now + 10}: heard = {now}"]
            now += 15
        else:
            now += 3
        trace.append(f"{now}: beat")
    return trace, printed


def texts(lines):
    sums, trace, printed = {}, [], ["0: names = 0"]
    for k in range(1, lines // 2 + 1):
        name, amount = f"sensor-{k * 37 % NAMES:03}", k % 100 - 30
        trace += [f"{2 * k - 1}: amount = {amount}", f'{2 * k}: name = "{name}"']
        sums[name] = sums.get(name, 0) + amount
        printed += [f"{2 * k}: sum = {sums[name]}", f"{2 * k}: names = {len(sums)}"]
    return trace, printed


def chain_of_merges():
    inputs = [f"in i{k}: Events[Int]\n" for k in range(MERGES + 1)]
    merges = [f"def m{k} := merge({f'm{k - 1}' if k > 1 else 'i0'}, i{k})\n" for k in range(1, MERGES + 1)]
    return "".join(inputs + merges) + f"out m{MERGES}\n"


def chain(lines):
    trace = [f"{k}: i{k % (MERGES + 1)} = {k}" for k in range(1, lines + 1)]
    return trace, [f"{k}: m{MERGES} = {k}" for k in range(1, lines + 1)]


def groups(count):
    """Groups that have nothing to do with each other: in each an input is counted, and let through where it is large."""
    parts = [
        f"in i{g}: Events[Int]\n"
        f"def c{g}: Events[Int] := merge(last(c{g}, i{g}) + 1, 0)\n"
        f"def f{g} := filter(i{g}, i{g} > 500)\n"
        f"out c{g}\n"
        f"out f{g}\n"
        for g in range(count)
    ]

    def make(lines):
        came, trace, printed = [0] * count, [], [f"0: c{g} = 0" for g in range(count)]
        for k in range(1, lines + 1):
            g, value = k * 7 % count, k * 13 % 1000
            came[g] += 1
            trace.append(f"{k}: i{g} = {value}")
            printed.append(f"{k}: c{g} = {came[g]}")
            if value > 500:
                printed.append(f"{k}: f{g} = {value}")
        return trace, printed

    return Workload(lambda: "".join(parts), make, counted=FEWER if count > 10 else (10_000, 20_000))


def passed_on(first, last):
    """Events of i that are printed as they are."""
    return [f"{k}: i = {k % 1000}" for k in range(first, last + 1)]


def idle_sets(count):
    """Sets that each have one number, from the first lines, and that no later line touches."""
    parts = [
        f"in j{s}: Events[Int]\n"
        f"def b{s} := merge(last(s{s}, j{s}), Set.empty[Int])\n"
        f"def s{s}: Events[Set[Int]] := merge(Set.add(b{s}, j{s}), b{s})\n"
        f"out Set.size(s{s}) as n{s}\n"
        for s in range(count)
    ]

    def make(lines):
        rest = passed_on(count + 1, lines)
        trace = [f"{s + 1}: j{s} = {s}" for s in range(count)] + rest
        return trace, [f"0: n{s} = 0" for s in range(count)] + [f"{s + 1}: n{s} = 1" for s in range(count)] + rest

    return Workload(lambda: "in i: Events[Int]\nout i\n" + "".join(parts), make, counted=FEWER if count > 10 else (10_000, 20_000))


def idle_delays(count):
    """Delays that the first lines set, each to another time after the end of the trace, and that no later line touches."""
    parts = [f"in j{d}: Events[Unit]\ndef w{d} := delay(const({FAR + d * 37 % count}, j{d}), j{d})\nout w{d}\n" for d in range(count)]

    def make(lines):
        rest = passed_on(count + 1, lines)
        return [f"{d + 1}: j{d}" for d in range(count)] + rest, rest

    return Workload(lambda: "in i: Events[Int]\nout i\n" + "".join(parts), make, counted=FEWER if count > 10 else (10_000, 20_000))


def scattered(k):
    """Other numbers for other numbers, all over the numbers of 64 bits."""
    return (k * 0x9E3779B97F4A7C15 + (1 << 63)) % (1 << 64) - (1 << 63)


def million(lines):
    return counted(lines, scattered) + [f"{lines + 1}: ask"], [f"{lines + 1}: size = {lines}"]


def choosing():
    """256 updates of one set around 200 merges of it. Every second one reads the set that the others change, and so has to copy."""
    rows = ["in i: Events[Int]", "def turn := filter(i, i % 100 == 0)", "def old := merge(last(all, turn), Set.empty[Int])"]
    rows += ["def b0 := old", "def t0 := Set.size(old)", "def f0 := old"]
    for k in range(200):
        rows.append(f"def f{k + 1} := merge(f{k}, old)")
    for k in range(UPDATES):
        rows.append(f"def u{k} := Set.add(b{k}, {2 * k % 4})")
        rows.append(f"def b{k + 1} := merge(u{k}, b{k})")
        rows.append(f"def w{k} := Set.add(old, {1 + 2 * k % 4})")
        rows.append(f"def t{k + 1} := t{k} + Set.size(w{k})")
    rows.append(f"def all: Events[Set[Int]] := merge(b{UPDATES}, old)")
    rows += ["out Set.size(f200) as n", f"out t{UPDATES} as sizes"]
    return "".join(row + "\n" for row in rows)


def chosen(lines):
    """At each 100th line; the set has nothing at 0 and then two numbers, and each that copies has one more."""
    printed = []
    for k in range(0, lines + 1, 100):
        size = 2 if k else 0
        printed += [f"{k}: n = {size}", f"{k}: sizes = {size + UPDATES * (size + 1)}"]
    return counted(lines, lambda k: k), printed


WORKLOADS = {
    "previous": Workload(lambda: example("data/first.tsl"), previous, 'NR > 1 { print $1, "p =", before } { before = $4 }'),
    "seen": Workload(lambda: SEEN, seen, SEEN_BY_MAWK),
    "different": Workload(lambda: SEEN, different, SEEN_BY_MAWK),
    "map": Workload(lambda: MAP, changed),
    "kept": Workload(lambda: KEPT, changed, counted=FEWER),
    "devices": Workload(lambda: example("examples/devices.tsl"), devices),
    "watchdog": Workload(lambda: example("examples/watchdog.tsl"), watchdog),
    "waiting": Workload(lambda: example("examples/waiting.tsl"), waiting),
    "merges": Workload(chain_of_merges, chain),
    "heartbeats": Workload(lambda: HEARTBEATS, heartbeats),
    "texts": Workload(lambda: TEXTS, texts),
    "groups10": groups(10),
    "groups100": groups(100),
    "groups400": groups(400),
    "idle_sets10": idle_sets(10),
    "idle_sets250": idle_sets(250),
    "idle_delays10": idle_delays(10),
    "idle_delays250": idle_delays(250),
    "choosing": Workload(choosing, chosen, lengths=(1_000, 10_000)),
    "million": Workload(lambda: MILLION, million, lengths=(1_000_000,)),
}


def named(word):
    """The workloads of this name, or of this name with a number after it."""
    return [name for name in WORKLOADS if word in (name, name.rstrip("0123456789"))]


# Programs of mawk that make the trace of a workload and what has to be printed of it, with as many lines as n says.
MADE_BY_MAWK = {
    "previous": (
        r'BEGIN { for (k = 1; k <= n; k++) printf "%d: i = %d\n", k, k % 1000 }',
        r'BEGIN { for (k = 2; k <= n; k++) printf "%d: p = %d\n", k, (k - 1) % 1000 }',
    ),
    "seen": (
        r'BEGIN { for (k = 1; k <= n; k++) printf "%d: i = %d\n", k, k % 1000 }',
        r'BEGIN { for (k = 1; k <= n; k++) printf "%d: s = %s\n", k, (k > 1000 ? "true" : "false") }',
    ),
    "devices": (
        r'BEGIN { for (k = 1; k <= n; k++) { now += k % 100 ? 1 : 60; printf "%d: beat = %d\n", now, k % 20 } }',
        r"""BEGIN {
            print "0: devices = 0"
            for (k = 1; k <= n; k++) {
                if (k % 100 == 0) printf "%d: quiet = ()\n", now + 50
                now += k % 100 ? 1 : 60
                d = k % 20
                if (k > 20 && now - before[d] > 30) printf "%d: late = %d\n", now, d
                before[d] = now
                printf "%d: devices = %d\n", now, k < 20 ? k : 20
            }
        }""",
    ),
    "watchdog": (
        r'BEGIN { for (k = 1; k <= n; k++) { now += k % 4 ? 3 : 15; printf "%d: beat\n", now } }',
        r"""BEGIN {
            for (k = 1; k <= n; k++) {
                if (k % 4 == 0) printf "%d: silence = ()\n%d: heard = %d\n", now + 10, now + 10, now
                now += k % 4 ? 3 : 15
            }
        }""",
    ),
}
