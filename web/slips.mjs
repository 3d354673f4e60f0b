// What is written elsewhere and not in this language: for the token that a specification is refused at, what stands there and what to write.
//
// The rules are those of tools/messages_parts/slips.py, whose tables are a part of the page. A rule looks at the text before the place, without
// the comments and blanks at its end, and at the text from there on.
import { nearest, part } from "./spelling.mjs";

const W = "[\\p{L}\\p{N}_]";
const WORD = `[\\p{L}_]${W}*`;
const START = `(?<!${W})`;
const END = `(?!${W})`;

export function answer(cause, remedy) {
  return { cause, remedy };
}

function search(source, text) {
  return new RegExp(source, "su").exec(text);
}

/** A match at the beginning. */
function match(source, text) {
  return new RegExp(`^(?:${source})`, "u").exec(text);
}

/** A text with what was found in it. */
function filled(text, found) {
  return text.replace(/\{(\w+)\}/g, (_, name) => found[name]);
}

/** A fraction in thousandths, where it is a number of these. */
function thousandths(whole, fraction) {
  return fraction.length <= 3 ? String(Number(whole.slice(-15)) * 1000 + Number(fraction.padEnd(3, "0"))) : "a number of";
}

/** Only what is the word's own, and nothing that each object has. */
function of(table, name) {
  return Object.hasOwn(table, name) ? table[name] : undefined;
}

export class Slips {
  /** The tables of slips.py; a row's expressions are compiled once. */
  constructor(tables) {
    this.tables = tables;
    this.rows = tables.TABLE.map(([b, a, cause, helps]) => ({ before: new RegExp(b, "su"), after: new RegExp(`^(?:${a})`, "u"), cause, helps }));
  }

  ofUnexpected(text) {
    const [before, after] = [text.before(), text.after()];
    for (const rule of [this.ofNumber, ofName, this.ofDot, this.ofType, this.ofWord]) {
      const found = rule.call(this, text, before, after);
      if (found) return found;
    }
    // What a line begins with goes on with nothing before it.
    const goesOn = !text.beginsLine() || after[0] === "/";
    return (goesOn && (ofEquals(before, after) ?? this.ofTable(before, after))) || (ofItem(text, before, after, this.tables) ?? this.ofTable(before, after));
  }

  ofTable(before, after) {
    for (const row of this.rows) {
      const [b, a] = [row.before.exec(before), row.after.exec(after)];
      if (!b || !a) continue;
      const found = {};
      b.slice(1).forEach((it, k) => (found[`b${k + 1}`] = part(it ?? "")));
      a.slice(1).forEach((it, k) => (found[`a${k + 1}`] = part(it ?? "")));
      if (row.helps.includes("{thousandths}")) found.thousandths = thousandths(b[1], a[1].slice(1));
      return answer(filled(row.cause, found), filled(row.helps, found));
    }
    return null;
  }

  /** Letters right after a number. */
  ofNumber(text, before, after) {
    const [digits, letters] = [search(`(?<![\\p{L}\\p{N}_.])[0-9]+$`, before)?.[0], match(`${W}+`, after)?.[0]];
    if (!digits || !letters) return null;
    const unit = number => answer(`${part(number)} has a unit, and numbers have none`, `write ${part(digits)}, in the unit of the trace's times`);
    if (!text.isTight()) return this.tables.UNITS.includes(letters) ? unit(`${digits} ${letters}`) : null;
    const number = digits + letters;
    if (/^0[xob][\p{L}\p{N}_]+$/iu.test(number)) return answer(`${part(number)} is not decimal`, "write the number in decimal digits");
    if (number.includes("_") || /^[0-9]+e[0-9]+$/.test(number)) return answer(`${part(number)} has more than digits`, "write all digits, and nothing between them");
    return unit(number);
  }

  /** A dotted name that is not there. */
  ofDot(_text, before, after) {
    const [module, name] = [search(`${START}(Set|Map|Queue|String)\\.$`, before)?.[1], match(WORD, after)?.[0]];
    if (module && name) {
      const there = this.tables.FUNCTIONS[module];
      const near = nearest(name, there);
      return answer(`${module}.${part(name)} is not there`, `${module} has ${there.join(", ")}${near ? `: write ${module}.${near}` : ""}`);
    }
    const [owner, field] = [search(`${START}(${WORD})$`, before)?.[1], match(`\\.(${WORD})`, after)?.[1]];
    if (!owner || !field || of(this.tables.FUNCTIONS, owner)) return null;
    const dotted = part(`${owner}.${field}`);
    return answer(`${dotted}: names have no dots, and streams no fields`, `write a name such as ${part(dotted.replaceAll(".", "_"))}, with an input for each field`);
  }

  /** A word where a type belongs. */
  ofType(_text, before, after) {
    const name = match(WORD, after)?.[0];
    if (!name || !search(`(?:${WORD}\\)?:|${START}(?:Events|Option|Set|Map|Queue|empty|nil|None)\\[(?:[^\\[\\]]*,)?)\\s*$`, before)) return null;
    const { FRACTIONS, TYPES, ALL_TYPES } = this.tables;
    if (FRACTIONS.includes(name.toLowerCase())) return answer(`${part(name)} is no type: numbers are whole`, "write Int, and count in a finer unit");
    const type = of(TYPES, name.toLowerCase());
    if (type) return answer(`${name} is no type`, `write ${type}`);
    const near = nearest(name, new Set(Object.values(TYPES)));
    return answer(`${part(name)} is no type`, near ? `write ${near}` : ALL_TYPES);
  }

  /** A word of another language. */
  ofWord(text, before, after) {
    const name = match(WORD, after)?.[0];
    if (search(`${START}not$`, before)) return answer("not is no operator", name ? `write !${part(name)}` : "write !");
    if (!name) return null;
    const { WORDS, BEGINNINGS, NO_MODULES } = this.tables;
    const rest = after.slice(name.length);
    const word = of(WORDS, name);
    if (word && search(`[\\p{L}\\p{N}_)"]$`, before)) return answer(`${name} is no operator`, `write ${word}`);
    const begins = text.beginsLine() || search(`[\\p{L}\\p{N}_)"\\]]$`, before) || !before;
    if (!begins || !/^\s/.test(rest)) return null;
    if (["import", "include", "module", "extern", "package", "use"].includes(name)) return answer(`${name} is not there: a specification is one file`, NO_MODULES);
    if (name === "type") return answer("types have no names of their own", "write the type where it is needed");
    if (name === "liftable") return answer("liftable is no word of the language", "leave it out: each function of values can be called with streams");
    const beginning = of(BEGINNINGS, name);
    return beginning && match(`\\s+${WORD}`, rest) ? answer(`${name} begins no item`, `write ${beginning}`) : null;
  }

  ofCharacter(text) {
    const before = text.before();
    const sign = String.fromCodePoint(...[text.after().codePointAt(0)].filter(it => it !== undefined));
    const { SIGNS, QUOTES, UNSEEN, OTHERS } = this.tables;
    if (of(SIGNS, sign)) return answer(`${sign} is no operator`, `write ${SIGNS[sign]}`);
    if (sign && QUOTES.includes(sign)) return answer(`${sign} begins no text`, 'write texts between double quotes: "..."');
    if (sign && UNSEEN.includes(sign)) return answer("a character that is not seen, or that looks like a blank", "take it away, or write a plain blank");
    if (of(OTHERS, sign)) return answer(...OTHERS[sign]);
    if (search(`${START}(?:in|def|as) ${WORD}$`, before) && text.isTight()) return answer("a name has letters, digits and _", "choose another name");
    return null;
  }
}

/** A dash in a name that is declared. */
function ofName(text, before, after) {
  const [declared, rest] = [search(`${START}(?:in|def|as) (${WORD})$`, before)?.[1], match(`(?:-${W}+)+`, after)?.[0]];
  if (!declared || !rest || !text.isTight()) return null;
  const name = declared + rest;
  return answer(`${part(name)} has a dash, and a name has none`, `write ${part(name.replaceAll("-", "_"))}`);
}

/** A single = in an expression. */
function ofEquals(before, after) {
  if (!/^=(?![=<>])/.test(after) || !search(`[\\p{L}\\p{N}_)"\\]]$`, before) || search(`${START}def ${WORD}$`, before)) return null;
  return answer("= defines, and compares nothing", "write ==");
}

function count(text, sign) {
  return text.split(sign).length - 1;
}

/** An item that is not complete, where the next one begins, or the text ends. */
function ofItem(text, before, after, { KEYWORDS }) {
  const next = (words, also = "") => match(`(?:${words})${END}|$${also}`, after);
  const missing = search(`${START}def (${WORD})(?:\\([^()]*\\))?(?: *: *[\\p{L}\\p{N}_\\[\\], ]+)?$`, before)?.[1];
  if (missing && match(`[\\p{L}\\p{N}_"(]`, after) && !match(`(?:in|def|out|as|then|else)${END}`, after))
    return answer(`:= is missing in the definition of ${part(missing)}`, `write def ${part(missing)} := ..`);
  const last = before.split(new RegExp(`${START}(?=(?:in|def|out) )`, "u")).at(-1);
  const found = ofChoice(last, after, next) ?? ofCall(last, after, next) ?? ofOutput(last, next);
  if (found) return found;
  if (text.beginsLine() && before && /^[-(]/.test(after))
    return answer(`a ${after[0]} that begins a line begins something new`, `put the ${after[0]} at the end of the line before`);
  const word = match(WORD, after)?.[0];
  const goesOn = word && !KEYWORDS.includes(word) && search(`[\\p{L}\\p{N}_)"\\]]$`, before);
  if (goesOn && text.beginsLine())
    return answer(`${part(word)} begins no item`, "begin an item with in, def or out; where a line goes on, an operator or a comma stands between");
  if (goesOn)
    return answer(`${part(word)} follows what is complete`, "an operator or a comma is missing before it, or it is an item and begins with in, def or out");
  return null;
}

function ofChoice(last, after, next) {
  const times = word => [...last.matchAll(new RegExp(`${START}${word}${END}`, "gu"))].length;
  if (times("if") <= times("else") || /^(?:then|else)/.test(after)) return null;
  const has_then = last.slice(last.lastIndexOf("if") + 2).includes("then");
  if (!has_then && next("as|in|def|out|else")) return answer("then is missing after if", "write if c then a else b");
  const is_closed = count(last, "(") <= count(last, ")") + (after.startsWith(")") ? 1 : 0);
  return next("as|in|def|out", "|\\)") && is_closed ? answer("an if has no else", "write if c then a else b: each if has both; filter(e, c) lets through") : null;
}

function ofCall(last, after, next) {
  if (count(last, "(") <= count(last, ")") || !next("as|in|def|out")) return null;
  return answer("a parenthesis is not closed", `write ) before ${after.trim() ? part(after.trim().split(/\s+/)[0]) : "the end"}`);
}

function ofOutput(last, next) {
  if (!last.startsWith("out ") || count(last, "(") !== count(last, ")") || search(`^out +${WORD}$|${START}as${END}`, last)) return null;
  if (!next("in|def|out", `|${W}`) || search(`(?:[-+*/%(,!]|&&|\\|\\||[<>=])$`, last)) return null;
  return answer("this output is no name alone, and has none", `write ${part(last)} as NAME`);
}
