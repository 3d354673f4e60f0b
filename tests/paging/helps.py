"""What helps with a message in the page, beside what the launcher tells below it."""

import importlib.machinery
import importlib.util
import os
import sys
import tempfile

from shown import TOP

MANUAL = os.path.join(TOP, "docs", "LANGUAGE.md")
OF_REFUSALS = """sources => sources.map(([spec, err]) => {
    const read = meaningOf(tables, 3, err);
    const { cause, remedy, lines } = { ...read, ...hints.ofRefusal(spec, read.spec, read.kind, read.said) };
    return [cause ?? null, remedy ?? null, lines ?? []];
})"""
OF_LINES = """([spec, lines]) => lines.map(([line, err]) => {
    const read = meaningOf(tables, 4, err);
    const { cause, remedy } = { ...read, ...hints.ofLine(line, read.said, spec) };
    return [cause ?? null, remedy ?? null];
})"""


def of_launcher():
    """The launcher's tool for messages, and the slips of its tests."""
    sys.path[:0] = [os.path.join(TOP, "tools"), os.path.join(TOP, "tests", "launching")]
    loader = importlib.machinery.SourceFileLoader("messages", os.path.join(TOP, "tools", "messages"))
    messages = importlib.util.module_from_spec(importlib.util.spec_from_loader("messages", loader))
    loader.exec_module(messages)
    pointing = importlib.import_module("pointing")
    return messages, pointing


def told(lines):
    """The cause and the remedy among the lines of the launcher."""
    found = ["".join(it) for it in lines]
    return [next((it[10:] for it in found if it.startswith(begins)), None) for begins in ("  cause:  ", "  remedy: ")]


def refusals(page, messages, pointing, room):
    """Each slip, with what the launcher tells of it."""
    sources, wanted = [], []
    path = os.path.join(room, "s.tsl")
    for text in (it[0] for it in (*pointing.SLIPS, *pointing.MEANT, *pointing.CYCLES)):
        source = f"{pointing.INPUTS}{text}\n"
        with open(path, "w", encoding="utf-8") as opened:
            opened.write(source)
        err = page.native(["check", "spec"], source.encode(), b"")[2].decode()
        lines = messages.of_refusal(messages.MESSAGES[3].fullmatch(err.rstrip("\n")), messages.Source(path), MANUAL)
        sources.append([source, err])
        cycle = [it.strip().removeprefix(f"{path}:") for it in map("".join, lines) if it.startswith(f"  {path}:")]
        wanted.append([*told(lines), cycle])
    for (source, _), got, it in zip(sources, page.shown.apply(OF_REFUSALS, sources), wanted):
        page.tally.judge(f"what helps with {source!r}", "" if got == it and all(it[:2]) else f"{got} and not {it}")


def lines_of_traces(page, messages, pointing, room):
    spec = "in beat: Events[Unit]\nin temp: Events[Int]\nin ok: Events[Bool]\nin s: Events[String]\nout temp\n"
    paths = [os.path.join(room, it) for it in ("s.tsl", "t")]
    given, wanted = [], []
    for line, *_ in pointing.LINES:
        for path, text in zip(paths, (spec, f"{line}\n")):
            with open(path, "w", encoding="utf-8") as opened:
                opened.write(text)
        err = page.native(["run", "spec", "trace", "--strict"], spec.encode(), f"{line}\n".encode())[2].decode()
        found = messages.MESSAGES[4].fullmatch(err.rstrip("\n"))
        wanted.append(told(messages.of_line(found, *(messages.Source(it) for it in paths), MANUAL)))
        given.append([line, err])
    for (line, _), got, it in zip(given, page.shown.apply(OF_LINES, [spec, given]), wanted):
        page.tally.judge(f"what helps with the line {line!r}", "" if got == it and all(it) else f"{got} and not {it}")


def helps(page):
    messages, pointing = of_launcher()
    with tempfile.TemporaryDirectory() as room:
        refusals(page, messages, pointing, room)
        lines_of_traces(page, messages, pointing, room)
    page.put(spec="in temperature: Events[Int]\nout temperatur\n", trace="1: temperature = 4\n")
    shown = page.of("message")
    page.tally.judge("a name that is spelt wrong", "" if "the nearest name is temperature" in shown else shown)
    page.put(spec="in temperature: Events[Int]\nout temperature\n", trace="1: temperature = 4\n2: temprature = 5\n")
    shown = page.of("timeline-hint")
    page.tally.judge("a name that no input has", "" if "temprature in line 2; the nearest input is temperature" in shown else shown)
