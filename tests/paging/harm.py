"""What means harm to the page: texts that would be scripts, signs that are not seen, links that are bombs, files of any bytes."""

import base64
import json
import zlib

from shown import read

SIGNS = "</textarea></pre></code></script><script>window.hit=1</script><img src=x onerror=window.hit=2><svg/onload=window.hit=3>{{script}}<!--"
NAME = "<img/src=x/onerror=window.hit=4>"
PREVIOUS = b"in i: Events[Int]\nout last(i, i) as p\n"
# So much of an output is shown.
MOST_SHOWN = 100_000
OF_TEXTS = b"in s: Events[String]\nout s\n"


def fragment_of(state):
    packed = zlib.compressobj(9, zlib.DEFLATED, -15)
    data = packed.compress(state if isinstance(state, bytes) else json.dumps(state).encode()) + packed.flush()
    return "#1." + base64.urlsafe_b64encode(data).decode().rstrip("=")


def is_unharmed(page, what):
    found = page.shown.evaluate("[window.hit ?? 0, document.querySelectorAll('img, main script, main svg svg').length, document.querySelectorAll('script').length]")
    page.tally.judge(what, "" if found == [0, 0, read(page.path).count(b"<script")] else f"{found}")


def scripts(page):
    """Texts that would be scripts, wherever they are shown."""
    page.open()
    quoted = SIGNS.replace('"', '\\"')
    spec = f'-- {SIGNS}\nin s: Events[String]\nout s\nout String.concat(s, "{quoted}") as t\n'
    trace = f'1: s = "{quoted}"\n2: other = {SIGNS}\n3: s = "x"\n'
    page.put(spec=spec, trace=trace)
    wanted = page.native(["run", "spec", "trace"], spec.encode(), trace.encode())[1].decode()
    page.tally.judge("a text that would be a script", "" if page.of("output") == wanted and "<img" in wanted else repr(page.of("output")[:300]))
    page.shown.evaluate("document.querySelector('#timeline svg').focus()")
    for _ in range(3):
        page.shown.press("ArrowRight")
    is_unharmed(page, "it is none in the page")
    page.put(spec=f"in {SIGNS}", trace=SIGNS)
    is_unharmed(page, "nor where it is refused")
    page.put(spec="in i: Events[Int]\nout i\n", trace=f"1: i = 1\n1: {NAME}\n1: {SIGNS}\n", strict=True)
    is_unharmed(page, "nor in a message")
    page.go(fragment_of({it: SIGNS for it in ("spec", "trace", "command", "until", "strict", "stats", "recipe", "__proto__")}))
    is_unharmed(page, "nor in a link")
    for script in ("const it = document.createElement('script'); it.textContent = 'window.hit = 5'; document.body.append(it); it.remove()",
                   "document.body.insertAdjacentHTML('beforeend', '<p id=bad onclick=\"window.hit = 6\">'); bad.click(); bad.remove()"):
        page.shown.evaluate(script)
    is_unharmed(page, "the page runs no other script")


def links(page):
    """Links that are as no page makes them."""
    page.open()
    for what, fragment in {
        "a link that unpacks to much": fragment_of(b'{"spec":"' + b" " * 20_000_000 + b'","trace":""}'),
        "a link of other types": fragment_of({"spec": 5, "trace": ["x"]}),
        "a link of no JSON": fragment_of(b"{"),
        "a link of no text": fragment_of(b'{"spec":"\xff","trace":""}'),
        "a link of nothing": fragment_of(b"null"),
        "a link of another form": "#2.abc",
        "an address with signs": f"#{NAME}",
    }.items():
        page.go(fragment)
        right = page.of("status").startswith("status 0:") and "can't be read" in page.of("notice")
        page.tally.judge(what, "" if right else f"{page.of('status')} {page.of('notice')}")
        is_unharmed(page, f"{what}: the page")


def unseen(page):
    """Signs that are not seen, or turn the direction of a text."""
    page.put(spec=OF_TEXTS.decode(), trace='1: s = "a\u202e\u2066b\x1b[2J\x07"\n')
    page.tally.judge("signs that are not seen", "" if page.of("output") == '1: s = "a\\u202e\\u2066b\\x1b[2J\\x07"\n' else repr(page.of("output")))
    page.go(fragment_of({"spec": OF_TEXTS.decode() + "-- \u202e\n", "trace": ""}))
    page.tally.judge("a link with a text that turns", "" if "turn" in page.of("notice") else repr(page.of("notice")))


def files(page):
    """Files of any bytes are run as they are."""
    long_line = b"1: i" + b" " * 60000 + b"= 5\n2: i = 6\n3: i " + b" " * 60000 + b"x\n"
    longest = PREVIOUS + b"-" * ((1 << 20) - len(PREVIOUS))
    for what, spec, trace in (
        ("line ends of two signs", PREVIOUS.replace(b"\n", b"\r\n"), b"1: i = 4\r\n2: i = 5\r\n"),
        ("line ends of another sign", PREVIOUS, b"1: i = 4\r2: i = 5\n"),
        ("a mark of the order of bytes", b"\xef\xbb\xbf" + PREVIOUS, b"\xef\xbb\xbf1: i = 4\n"),
        ("zero bytes", PREVIOUS + b"\0", b"1: i = 4\n2: i = \0\n"),
        ("zero bytes in a text", OF_TEXTS, b'1: s = "a\0b"\n2: s = "c"\n'),
        ("no UTF-8 in a specification", b"-- \xff\xfe\n" + PREVIOUS, b"1: i = 4\n"),
        ("no UTF-8 in a trace", OF_TEXTS, b'1: s = "ok"\n2: s = "\xff\xc0\x80"\n'),
        ("blanks without an end", PREVIOUS, long_line),
        ("a specification of 1 MiB", longest, b"1: i = 4\n2: i = 5\n"),
        ("a specification beyond that", longest + b"-", b"1: i = 4\n"),
        ("one line of 1 MiB", b"in i: Events[Int] out i " + b'def a := "\\n\\q" ' * 60000, b"1: i = 4\n"),
        ("a trace of 10 MB", PREVIOUS, b"".join(b"%d: i = %d\n" % (k, k) for k in range(1, 600000))),
        ("3 MB of blanks", PREVIOUS, b"1: a" + b" " * 3_000_000 + b"b\n"),
        ("3 MB of zero bytes", PREVIOUS, bytes(3_000_000)),
        ("lines of blanks", PREVIOUS, b"".join(b"%d: a%sb\n" % (k, b" " * 60000) for k in range(50))),
        ("nothing", b"", b""),
    ):
        judge_file(page, what, spec, trace)


def judge_file(page, what, spec, trace):
    status, out, err = page.native(["run", "spec", "trace"], spec, trace)
    page.drop("spec", "s.tsl", spec)
    page.drop("trace", "t.trace", trace)
    given = [page.of("status"), page.of("output"), page.of("message")]
    shown = page.shown.apply("text => visible(text)", out.decode("utf-8", "replace")[:MOST_SHOWN])
    is_out = given[1] == shown or (len(out) > MOST_SHOWN and given[1].startswith(shown))
    right = given[0].startswith(f"status {status}:") and is_out and given[2].startswith(err.decode("utf-8", "replace").rstrip("\n"))
    page.tally.judge(f"a file with {what}", "" if right else f"{given[0]}, {given[1][:200]!r}, {given[2][:200]!r} and not {status}, {err!r}")


SENDING = """() => {
    window.held = [];
    addEventListener('securitypolicyviolation', it => held.push(it.effectiveDirective));
    const at = 'http://127.0.0.1:9/';
    fetch(at).catch(() => {});
    new WebSocket('ws://127.0.0.1:9/').onerror = () => {};
    navigator.sendBeacon(at, 'text');
    new Image().src = at;
    const frame = document.createElement('iframe');
    frame.src = at;
    document.body.append(frame);
    frame.remove();
}"""


def alone(page):
    """Nothing is loaded, and nothing can be sent."""
    page.shown.apply(SENDING)
    page.shown.wait("held.length > 4")
    held = sorted(page.shown.evaluate("held"))
    page.tally.judge("what would be sent is held back", "" if held == ["connect-src"] * 3 + ["frame-src", "img-src"] else f"{held}")
    asked = {it for it in page.shown.asked_for() if not it.startswith((f"file://{page.path}", "blob:", "data:", "about:", "http://127.0.0.1:9/"))}
    page.tally.judge("nothing is loaded", "" if not asked else f"{sorted(asked)[:5]}")
