"""What stands around the answer: marks, the drawing, keys, links, files, screens."""

import os
import time

PREVIOUS = "in i: Events[Int]\nout last(i, i) as p\n"
# What the pictures show: recipes, and then what has an alarm, a fault, and an error in its source.
PICTURED = ("watchdog", "load", "hysteresis", "histogram", "window")
FAULT = {
    "spec": "-- how much each of the workers has to do\nin jobs: Events[Int]\nin workers: Events[Int]\ndef each := jobs / workers\ndef busy := each > 4\nout each\nout busy\n",
    "trace": "0: workers = 3\n2: jobs = 9\n5: jobs = 21\n7: workers = 7\n9: jobs = 14\n11: workers = 0\n13: jobs = 8\n",
}
ERROR = {"spec": "in temperature: Events[Int]\ndef high := temperature > 80\nout hihg\n", "trace": "0: temperature = 75\n10: temperature = 82\n"}


def marks(page):
    page.put(spec="in i: Events[Int]\nout 1 / i as q\n", trace="1: i = 2\n2: i = 0\n3: i = 1\n")
    found = page.shown.evaluate(
        """({ status: document.getElementById('status').textContent, marked: document.querySelector('#spec-box .marked')?.textContent,
        line: document.querySelector('#trace-box .line-marked')?.textContent, fault: document.querySelectorAll('#timeline line.fault').length,
        message: document.getElementById('message').textContent })"""
    )
    right = found["status"].startswith("status 1:") and found["fault"] == 1 and found["marked"] and found["line"] == "2: i = 0"
    page.tally.judge("a fault", "" if right and "test the divisor" in found["message"] else f"{found}")
    page.put(spec="in i: Events[Int]\ndef s := i + true\nout s\n")
    found = page.shown.evaluate("[document.querySelector('#spec-box .marked')?.textContent, document.getElementById('message').textContent]")
    page.tally.judge("a refusal", "" if found[0] == "i" and "spec 2:10: WrongType" in found[1] and "remedy" in found[1] else f"{found}")
    page.put(spec="in i: Events[Int]\nout i\n", trace="1: i = 2\n0: i = 3\n")
    found = page.shown.evaluate("[document.querySelector('#trace-box .line-marked')?.textContent, document.getElementById('message').textContent]")
    page.tally.judge("a refused line", "" if found[0] == "0: i = 3" and "sort the trace" in found[1] else f"{found}")
    page.put(spec="in i: Events[Int]\n\n" + "-- more\n" * 400 + "out ü\n")
    found = page.shown.evaluate("[document.querySelector('#spec-box .marked')?.textContent, sources.spec.editor.area.scrollTop > 1000]")
    page.tally.judge("a place further down", "" if found == ["ü", True] else f"{found}")


def drawing(page):
    page.put(command="flat")
    page.tally.judge("no drawing of a text", "" if page.shown.evaluate("drawing.hidden") else "there is one")
    page.put(command="run", spec="in b: Events[Bool]\nin n: Events[Int]\nin u: Events[Unit]\nout b\nout n\nout u\n", trace="1: b = true\n2: n = 4\n3: u\n4: v = 1\n5: b = false\n6: n = -2\n")
    kinds = (".in .band", ".out .band", ".in .step", ".out .step", ".in .flag", ".out .flag", ".spread", ".stranger .step")
    found = [page.count(f"#timeline {it}") for it in kinds]
    page.tally.judge("bands, steps and flags", "" if found == [1, 1, 1, 1, 1, 1, 0, 1] else f"{found}")
    page.put(trace="".join(f"{k}: n = {k % 7}\n" for k in range(2500)))
    width = page.shown.evaluate("[document.querySelector('#timeline svg').clientWidth > 500, document.getElementById('timeline').clientWidth > 500]")
    page.tally.judge("as wide as its box", "" if width == [True, True] else f"{width}")
    found = [page.count("#timeline .spread"), page.count("#timeline *")]
    page.tally.judge("many events", "" if found[0] == 2 and found[1] < 200 else f"{found}")
    page.put(trace="".join(f"{k}: n{k} = {k % 7}\n" for k in range(5000)))
    found = page.count("#timeline *")
    page.tally.judge("many names", "" if 100 < found < 4500 else f"{found}")
    late = 9223372036854770000
    page.put(spec="in n: Events[Int]\nout n\nout 5 as five\n", trace=f"{late}: n = 1\n{late + 10}: n = 2\n{late + 11}: n = 3\n")
    found = page.shown.evaluate("document.querySelector('#timeline .in .step').getAttribute('d').match(/H[0-9.]+/g).map(it => Math.round(it.slice(1)))")
    right = len(found) == 3 and found[0] - found[1] < -10 and found[0] > 400
    page.tally.judge("late times", "" if right else f"{found}")


def keys(page):
    page.open()
    page.shown.evaluate("document.querySelector('#timeline svg').focus()")
    for _ in range(2):
        page.shown.press("ArrowRight")
    page.shown.wait("document.getElementById('at-time').textContent.startsWith('line')")
    told = page.of("at-time")
    page.tally.judge("a time by the arrow keys", "" if told == "line 2: 8: beat" else repr(told))
    page.shown.evaluate("document.activeElement.blur()")
    reached = set()
    for _ in range(20):
        page.shown.press("Tab")
        reached.add(page.shown.evaluate("document.activeElement.id || document.activeElement.tagName"))
    wanted = {"recipe", "command", "name", "until", "strict", "stats", "limit", "share", "spec-open", "spec", "trace-open", "trace", "svg", "save", "output"}
    page.tally.judge("all by the Tab key", "" if wanted <= reached else f"without {sorted(wanted - reached)}")
    page.shown.evaluate("const box = sources.trace.editor.area; box.focus(); box.setSelectionRange(0, box.value.length); document.getElementById('status').textContent = ''")
    page.shown.type("0: beat\n7: beat\n30:\n")
    page.wait_answer()
    page.tally.judge("as one types", "" if page.of("output") == "17: silence = ()\n17: heard = 7\n" else repr(page.of("output")))
    page.shown.apply("() => { recipe.value = 'seen'; recipe.dispatchEvent(new Event('change')); }")
    page.shown.wait("sources.trace.text.includes('i =')")
    page.shown.apply("() => { recipe.value = ''; recipe.dispatchEvent(new Event('change')); }")
    page.tally.judge("what one typed comes back", "" if page.shown.evaluate("sources.trace.text") == "0: beat\n7: beat\n30:\n" else "another text")


def link(page):
    page.open()
    page.put(spec="in i: Events[Int]\nout i * 2 as twice\n", trace="1: i = 21\n", command="run", until="5")
    page.shown.evaluate("document.getElementById('share').click()")
    page.shown.wait("location.hash.length > 4")
    fragment = page.shown.evaluate("location.hash")
    page.open(fragment)
    found = page.shown.evaluate("[sources.spec.text, sources.trace.text, document.getElementById('until').value, document.getElementById('output').textContent]")
    right = found == ["in i: Events[Int]\nout i * 2 as twice\n", "1: i = 21\n", "5", "1: twice = 42\n"]
    page.tally.judge("a link", "" if right else f"{found}")
    page.put(command="why", name="twice", time="1", until="")
    page.shown.evaluate("document.getElementById('share').click()")
    page.shown.apply("fragment => { window.earlier = fragment; }", fragment)
    page.shown.wait("location.hash !== window.earlier")
    page.open(page.shown.evaluate("location.hash"))
    page.tally.judge("a link with a time", "" if page.of("output").endswith(" twice at 1 = 42 by #0\n") else repr(page.of("output")))
    page.put(command="slice", name="twice", time="")
    fragment = page.shown.evaluate("location.hash")
    page.shown.evaluate("document.getElementById('share').click()")
    page.shown.apply("fragment => { window.earlier = fragment; }", fragment)
    page.shown.wait("location.hash !== window.earlier")
    page.open(page.shown.evaluate("location.hash"))
    page.tally.judge("a link with the name of an output", "" if page.of("output").endswith("out twice %1\n") else repr(page.of("output")))
    page.put(command="run", name="")
    page.go("#1.no-such-thing")
    right = page.of("status").startswith("status 0:") and "can't be read" in page.of("notice")
    page.tally.judge("a link that is none", "" if right else page.of("status") + page.of("notice"))


def drops(page):
    page.open()
    for target, name, content in (("timeline", "a.tsl", PREVIOUS), ("trace", "b.tsl", "1: i = 4\n2: i = 5\n")):
        page.drop(target, name, content.encode())
    page.tally.judge("files that are dropped", "" if page.of("output") == "2: p = 4\n" else repr(page.of("output")))
    page.drop("trace", "long", "".join(f"{k}: i = {k}\n" for k in range(1, 60001)).encode())
    found = page.shown.evaluate("[document.getElementById('output').textContent.includes('5000: p = 4999'), output.length > 9e5, sources.trace.editor.area.readOnly, sources.trace.text.length < 30000]")
    page.tally.judge("a long file", "" if found == [True, True, True, True] else f"{found}")
    page.shown.evaluate("document.getElementById('status').textContent = ''; document.getElementById('trace-forget').click()")
    page.wait_answer()
    found = page.shown.evaluate("[output.length > 100000, sources.trace.editor.area.readOnly]")
    page.tally.judge("its beginning alone", "" if found == [False, False] else f"{found}")


def screens(page):
    page.open()
    colours = []
    for is_dark in (False, True):
        page.shown.set_dark(is_dark)
        colours.append(page.shown.evaluate("getComputedStyle(document.body).backgroundColor"))
    page.shown.set_dark(False)
    page.tally.judge("a dark screen", "" if len(set(colours)) == 2 else f"{colours}")
    page.shown.resize(360, 740)
    page.open()
    width = page.shown.evaluate("document.documentElement.scrollWidth")
    page.tally.judge("a narrow screen", "" if width <= 360 else f"it is {width} wide")
    page.shown.resize(1280, 900)


def limits(page):
    """The limit of time, and the bar of a long run."""
    page.open()
    how = page.shown.apply("(...given) => askProgram(...given)", "YmVuY2gAY29weQAxMDAwMDAwAA==", "", "", {"seconds": 0.2})
    page.tally.judge("the limit of time", "" if how.get("stopped") else f"{str(how)[:200]}")
    page.tally.judge("after it", "" if page.ask((b"check", b"s"), PREVIOUS.encode(), b"")[:2] == (0, b"ok 2 0\n") else "another answer")
    page.shown.evaluate("window.bars = []; new MutationObserver(() => bars.push(progress.hidden)).observe(progress, { attributes: true })")
    page.drop("spec", "s.tsl", PREVIOUS.encode())
    page.drop("trace", "long", "".join(f"{k}: i = {k}\n" for k in range(1, 400001)).encode())
    found = page.shown.evaluate("[bars.includes(false), progress.hidden, document.getElementById('status').textContent.slice(0, 9)]")
    page.tally.judge("the bar of a long run", "" if found == [True, True, "status 0:"] else f"{found}")


def pictures(page, folder):
    page.shown.resize(1280, 860)

    def picture(name):
        time.sleep(0.2)
        page.shown.screenshot(os.path.join(folder, f"{name}.png"))

    for name in PICTURED:
        page.open()
        page.put(recipe=name, limit="10")
        picture(name)
    for name, fields in (("fault", FAULT), ("error", ERROR)):
        page.open()
        page.put(**fields, limit="10")
        picture(name)
    page.shown.set_dark(True)
    picture("error-dark")
    page.put(recipe="window")
    picture("window-dark")
    page.shown.set_dark(False)
    page.shown.resize(360, 740)
    page.put(recipe="watchdog")
    picture("narrow")
    page.shown.resize(1280, 900)
