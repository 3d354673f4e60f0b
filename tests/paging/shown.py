"""A page that is open in a browser, and what a program gives beside it."""

import base64
import os
import subprocess
import tempfile

TOP = os.path.dirname(os.path.dirname(os.path.dirname(os.path.abspath(__file__))))
EXAMPLES = os.path.join(TOP, "examples")

FILL = """fields => {
    document.getElementById('status').textContent = '';
    for (const [id, value] of Object.entries(fields)) {
        const box = document.getElementById(id);
        if (box.type === 'checkbox') box.checked = value;
        else box.value = value;
        if (box.tagName === 'SELECT') box.dispatchEvent(new Event('change', { bubbles: true }));
        box.dispatchEvent(new Event('input', { bubbles: true }));
    }
}"""
DROP = """(id, name, content) => {
    document.getElementById('status').textContent = '';
    const given = new DataTransfer();
    const bytes = Uint8Array.fromBase64?.(content) ?? Uint8Array.from(atob(content), it => it.charCodeAt(0));
    given.items.add(new File([bytes], name));
    document.getElementById(id).dispatchEvent(new DragEvent('drop', { dataTransfer: given, bubbles: true, cancelable: true }));
}"""
ANSWERED = "/^(status|stopped|the )/.test(document.getElementById('status').textContent)"


def read(*names):
    """The bytes of a file, none where there is no such file, and None of a folder."""
    try:
        with open(os.path.join(*names), "rb") as opened:
            return opened.read()
    except FileNotFoundError:
        return b""
    except (IsADirectoryError, NotADirectoryError):
        return None


def text(data):
    return base64.b64encode(data).decode()


class Page:
    """A page that is open in a browser."""

    def __init__(self, shown, path, program, tally):
        self.shown, self.path, self.program, self.tally = shown, path, program, tally
        self.address = f"file://{path}"
        shown.resize(1280, 900)

    def open(self, fragment=""):
        self.shown.open("about:blank")
        self.shown.open(self.address + fragment)
        # A machine that is busy is not tried here.
        self.shown.evaluate("document.getElementById('limit').value = '0'")
        self.wait_answer()

    def go(self, fragment):
        """Another fragment of its address, as by a link."""
        self.shown.apply("fragment => { document.getElementById('status').textContent = ''; location.hash = fragment; }", fragment)
        self.wait_answer()

    def wait_answer(self):
        """Waits until what stands in the boxes is answered."""
        self.shown.wait(ANSWERED)

    def put(self, **fields):
        """Fills boxes as by keys, and waits for the answer."""
        self.shown.apply(FILL, fields)
        self.wait_answer()

    def drop(self, target, name, data):
        """Drops a file on what has this name, and waits for the answer."""
        self.shown.apply(DROP, target, name, text(data))
        self.wait_answer()

    def of(self, name):
        return self.shown.evaluate(f"document.getElementById('{name}').textContent")

    def count(self, selector):
        return self.shown.apply("selector => document.querySelectorAll(selector).length", selector)

    def ask(self, words, spec, trace, **how):
        """The status and what is written, past the boxes."""
        given = [text(b"".join(it + b"\0" for it in words)), text(spec), text(trace)]
        got = self.shown.apply("(...given) => askProgram(...given)", *given, how)
        if "out" not in got:
            return str(got)[:300], b"", b""
        return got["status"], base64.b64decode(got["out"]), base64.b64decode(got["err"])

    def native(self, words, spec, trace):
        """The same of the program, with the texts as files of these names."""
        with tempfile.TemporaryDirectory() as room:
            for name, data in (("spec", spec), ("trace", trace)):
                with open(os.path.join(room, name), "wb") as opened:
                    opened.write(data)
            ended = subprocess.run([self.program, *words], cwd=room, stdin=subprocess.DEVNULL, capture_output=True, check=False)
            return ended.returncode, ended.stdout, ended.stderr

    def judge_same(self, what, words, spec, trace):
        """Holds the page to what the program gives."""
        got, wanted = self.ask(words, spec, trace), self.native(words, spec, trace)
        self.tally.judge(what, "" if got == wanted else f"{got[0]}, {got[1][:120]!r}, {got[2][:120]!r} and not {wanted[0]}, {wanted[2]!r}")
        return wanted
