// A specification or a trace: what stands in its box, or a file whose bytes the box does not have.

/** A longer file is not put into its box. */
const MOST_TYPED = 500_000;
/** So much of it is shown. */
const MOST_BEGUN = 20_000;

const decoder = new TextDecoder("utf-8", { ignoreBOM: true });

/** Some bytes as a text, all of whose characters are there. */
export function decode(bytes) {
  return decoder.decode(bytes);
}

export function encode(text) {
  return new TextEncoder().encode(text);
}

function same(a, b) {
  return a.length === b.length && a.every((it, k) => it === b[k]);
}

/** The first lines of a long file, or what fits of one line. */
function begun(bytes) {
  const end = bytes.lastIndexOf(10, MOST_BEGUN) + 1;
  return decode(bytes.subarray(0, end || MOST_BEGUN));
}

export class Source {
  /** `editor` is its box; `hint` and `button` stand above it: what the box shows, and what gives a file up for the text that is shown. */
  constructor(editor, hint, button) {
    Object.assign(this, { editor, hint, button, file: null });
    this.put("");
  }

  get text() {
    return this.editor.text;
  }

  /** What is run: the bytes of the file, or the text. */
  get bytes() {
    return this.file ?? encode(this.editor.text);
  }

  /** All of it as a text, also where it is a file. */
  get whole() {
    return this.file ? decode(this.file) : this.editor.text;
  }

  put(text) {
    this.editor.text = text;
    this.forget();
  }

  forget() {
    this.keep(null, "type, or drop a file");
  }

  keep(file, hint) {
    this.file = file;
    this.editor.area.readOnly = file !== null;
    this.button.hidden = file === null;
    this.hint.textContent = hint;
  }

  /** Takes the bytes of a file as they are: where the box would give others back, such as those of line ends or of no text, they are kept beside it. */
  take(name, bytes) {
    const size = `${bytes.length.toLocaleString("en")} bytes`;
    if (bytes.length > MOST_TYPED) {
      this.editor.text = begun(bytes);
      this.keep(bytes, `the beginning of ${name}, ${size}, all of which are run`);
      return;
    }
    this.put(decode(bytes));
    if (!same(this.bytes, bytes)) this.keep(bytes, `${name}, ${size}, which are run as they are: they are no text that can be edited here`);
  }
}
