// The text of a specification, as far as a message needs it: what stands around a place, and what is declared.
//
// It is that of tools/messages_parts/source.py. It decides nothing: what is not found is not said.

const NAME = "[\\p{L}_][\\p{L}\\p{N}_]*";
const TOKEN = new RegExp(`(?:--|#)[^\\n]*|"(?:\\\\.|[^"\\\\\\n])*"?|${NAME}|[0-9]+|:=|==|!=|<=|>=|&&|\\|\\||\\S`, "gu");
const COMMENT = /("(?:\\.|[^"\\\n])*"?)|(?:--|#)[^\n]*/g;
const CALLED = new RegExp(`${NAME}(?:\\.${NAME})?`, "uy");
const CLOSING = { "(": ")", "[": "]", "{": "}" };
/** So much is read around a place, and of a whole source. */
const AROUND = 2000;
export const WHOLE = 1 << 18;

export function isName(text) {
  return new RegExp(`^${NAME}$`, "u").test(text);
}

/** An item of a specification: its word, its name, where that begins, and the text of its parameters, null where it has none. */
class Item {
  constructor(word, name, at, parameters, is_inner) {
    Object.assign(this, { word, name, at, parameters, is_inner });
  }

  /** Whether it is a function of values. */
  isOfValues() {
    return Boolean(this.parameters) && !this.parameters.includes("Events");
  }

  names() {
    return [...(this.parameters ?? "").matchAll(new RegExp(`(${NAME})\\s*:`, "gu"))].map(it => it[1]);
  }
}

/** A source, and a place in it. */
class Text {
  constructor(text, line = 1, column = 1) {
    this.text = text;
    this.line_start = 0;
    for (let k = 1; k < line; k++) this.line_start = text.indexOf("\n", this.line_start) + 1;
    this.at = this.line_start;
    for (let k = 1; k < column && this.at < text.length; k++) this.at += text.codePointAt(this.at) > 0xffff ? 2 : 1;
  }

  after() {
    return this.text.slice(this.at, this.at + AROUND);
  }

  /** What stands before the place, from the beginning of a line, without comments and the blanks at its end. */
  before() {
    const from = Math.max(0, this.at - AROUND);
    const start = from ? this.text.lastIndexOf("\n", from - 1) + 1 : 0;
    return this.text.slice(start, this.at).replace(COMMENT, (_, quoted) => quoted ?? "").trimEnd();
  }

  /** Whether the place follows what is before it without a blank. */
  isTight() {
    return this.at > 0 && !/\s/.test(this.text[this.at - 1]);
  }

  beginsLine() {
    return !this.text.slice(this.line_start, this.at).trim();
  }

  /** The items, in order. Of a source that is too long to look at there are none. */
  items() {
    this.all ??= this.text.length <= WHOLE ? itemsOf(this.text) : [];
    return this.all;
  }

  /** The item that the place is in, or null. */
  around() {
    return this.items().findLast(it => it.at <= this.at && !it.is_inner) ?? null;
  }

  /** The items of that name. */
  named(name) {
    return this.items().filter(it => it.name === name && it.word !== "out");
  }

  declared() {
    return new Set(this.items().filter(it => it.word !== "out").map(it => it.name));
  }

  placeOf(at) {
    const start = at ? this.text.lastIndexOf("\n", at - 1) + 1 : 0;
    return [this.text.slice(0, at).split("\n").length, [...this.text.slice(start, at)].length + 1];
  }

  called() {
    CALLED.lastIndex = this.at;
    return CALLED.exec(this.text);
  }

  nameHere() {
    return this.called()?.[0] ?? "";
  }

  /** The arguments of the call that begins at the place, or null where none does. */
  arguments() {
    const found = this.called();
    if (!found) return null;
    const between = /(?:\s*\[[^\]]*\])?[ \t]*/y;
    between.lastIndex = found.index + found[0].length;
    between.exec(this.text);
    return this.text[between.lastIndex] === "(" ? partsOfCall(this.text, between.lastIndex) : null;
  }
}

/** What stands between a bracket and the one that closes it, parted by commas, or null where it is not closed soon. */
function partsOfCall(text, open) {
  const parts = [];
  let depth = 0;
  let start = open + 1;
  for (const token of text.slice(open, open + AROUND).matchAll(TOKEN)) {
    const [sign, at] = [token[0], open + token.index];
    if (sign in CLOSING) depth++;
    else if (Object.values(CLOSING).includes(sign) && --depth === 0) {
      const last = text.slice(start, at).trim();
      return last || parts.length ? [...parts, last] : [];
    } else if (sign === "," && depth === 1) {
      parts.push(text.slice(start, at).trim());
      start = at + 1;
    }
  }
  return null;
}

export function tokensOf(text) {
  return [...text.matchAll(TOKEN)].filter(it => !/^(?:--|#)/.test(it[0]));
}

function itemsOf(text) {
  const tokens = tokensOf(text);
  const items = [];
  let depth = 0;
  tokens.forEach((here, k) => {
    const [following, third] = [tokens[k + 1], tokens[k + 2]];
    if (here[0] === "{") depth++;
    else if (here[0] === "}") depth--;
    else if (["in", "def", "out"].includes(here[0]) && following && isName(following[0])) {
      const parts = third?.[0] === "(" && here[0] === "def" ? partsOfCall(text, third.index) : null;
      items.push(new Item(here[0], following[0], following.index, parts && parts.join(", "), depth > 0));
    }
  });
  return items;
}

/** The inputs of a source, with what stands where the type of each is. */
export function inputsOf(text) {
  const tokens = text.length <= WHOLE ? tokensOf(text) : [];
  const found = new Map();
  for (let k = 0; k + 3 < tokens.length; k++) {
    if (tokens[k][0] !== "in") continue;
    const kind = tokens.slice(k + 3, k + 6).map(it => it[0]);
    found.set(tokens[k + 1][0], kind[0] === "Events" ? (kind[2] ?? "") : kind[0]);
  }
  return found;
}

/** The name of the first output of a source: what stands after its `as`, or all that it is. Empty where there is none. */
export function firstOutputOf(text) {
  const tokens = text.length <= WHOLE ? tokensOf(text).map(it => it[0]) : [];
  const first = tokens.indexOf("out");
  const after = tokens.slice(first + 1).findIndex(it => ["in", "def", "out"].includes(it));
  const output = first < 0 ? [] : tokens.slice(first + 1, after < 0 ? undefined : first + 1 + after);
  return output.length === 1 || output.at(-2) === "as" ? output.at(-1) : "";
}

export function textAt(text, { line, column }) {
  return new Text(text, line, column);
}
