// Which definitions of a specification need which others, and how: as tools/messages_parts/needs.py tells it.
import { part } from "./spelling.mjs";
import { answer } from "./slips.mjs";
import { isName, tokensOf, WHOLE } from "./text.mjs";

const OWN_CALLS = ["merge", "default", "const", "time", "filter", "lift", "last", "delay"];
const OPENS = ["(", "[", "{"];
const CLOSES = [")", "]", "}"];
const KEYWORDS_OF_ITEMS = ["in", "def", "out", "as", "if", "then", "else", "true", "false"];
/** Of a longer way so many names are told. */
const MOST_OF_WAY = 6;

function isOperand(sign) {
  return sign[0] === '"' || /^[0-9]+$/.test(sign) || isName(sign);
}

/** The definitions of a source. Of one that is too long to look at there are none. */
class Needs {
  constructor(text) {
    this.text = text;
    this.definitions = [];
    this.places = new Map();
    this.parents = new Map([[0, null]]);
    this.open = [];
    this.owner = null;
    this.block = 0;
    this.tokens = text.length <= WHOLE ? tokensOf(text).map(it => ({ sign: it[0], at: it.index, end: it.index + it[0].length })) : [];
    this.read();
  }

  sign(number) {
    return this.tokens[number]?.sign ?? "";
  }

  read() {
    for (let number = 0; number < this.tokens.length; number++) {
      const sign = this.sign(number);
      if (this.beginsResult(number)) this.owner = this.open.at(-1).owner;
      if (["in", "out"].includes(sign)) this.owner = null;
      else if (sign === "def") number = this.define(number + 1) - 1;
      else if (OPENS.includes(sign)) this.enter(number);
      else if (CLOSES.includes(sign)) this.leave();
      else if (sign === "," && this.open.length) {
        const top = this.open.at(-1);
        top.place++;
        top.end ??= this.tokens[number].at;
      } else if (this.owner && isName(sign) && !KEYWORDS_OF_ITEMS.includes(sign) && this.sign(number - 1) !== ".") this.owner.needs.push(this.need(sign));
    }
  }

  /** Whether the result of a macro begins here: an operand right in its block that follows another one. */
  beginsResult(number) {
    if (this.open.at(-1)?.sign !== "{" || !number) return false;
    const [before, sign, at] = [this.sign(number - 1), this.sign(number), this.tokens[number].at];
    const isFirst = () => !this.text.slice(this.text.lastIndexOf("\n", at - 1) + 1, at).trim();
    const begins = ["(", "-"].includes(sign) ? isFirst() : sign === "if" || (!KEYWORDS_OF_ITEMS.includes(sign) && isOperand(sign));
    return begins && ([")", "]", "true", "false"].includes(before) || (!KEYWORDS_OF_ITEMS.includes(before) && isOperand(before)));
  }

  /** Takes the name, the parameters and the type of a definition. Returns where its body begins. */
  define(number) {
    if (!isName(this.sign(number))) return number;
    const [name, at] = [this.sign(number), this.tokens[number].at];
    const own = { name, at, block: this.block, hasType: false, isMacro: false, parameters: new Set(), needs: [] };
    this.owner = own;
    this.definitions.push(own);
    const place = `${this.block} ${name}`;
    if (!this.places.has(place)) this.places.set(place, own);
    let depth = 0;
    for (number++; number < this.tokens.length && !(depth === 0 && [":=", "=", "in", "def", "out"].includes(this.sign(number))); number++) {
      const sign = this.sign(number);
      depth += OPENS.includes(sign) - CLOSES.includes(sign);
      if (sign === ":" && depth === 0) own.hasType = true;
      else if (sign === ":" && depth === 1) own.parameters.add(this.sign(number - 1));
      else if (sign === "Events" && depth >= 1 && !own.hasType) own.isMacro = true;
    }
    return number;
  }

  enter(number) {
    const [sign, start] = [this.sign(number), this.tokens[number].end];
    let called = number && sign === "(" && isName(this.sign(number - 1)) ? this.sign(number - 1) : "";
    if (called && this.sign(number - 2) === ".") called = `${this.sign(number - 3)}.${called}`;
    this.open.push({ sign, called, start, owner: this.owner, end: null, place: 0 });
    if (sign !== "{") return;
    this.parents.set(start, this.block);
    this.block = start;
  }

  leave() {
    if (this.open.pop()?.sign !== "{") return;
    // What stands behind the block belongs to nothing, and its last expression to the macro.
    this.owner = null;
    this.block = this.parents.get(this.block);
  }

  /** What is needed here, by the calls that are open. */
  need(name) {
    const found = { name, how: "now", first: "", called: [] };
    for (const it of [...this.open].reverse()) {
      if (it.sign === "{") break;
      const isPast = ["last", "delay"].includes(it.called);
      if (isPast && it.place === 0) return { ...found, how: "before" };
      if (found.how === "now" && isPast) found.how = it.called;
      else if (found.how === "now" && it.called === "filter" && it.place === 1) {
        found.how = "condition";
        found.first = this.text.slice(it.start, it.end).trim();
      } else if (it.called && !OWN_CALLS.includes(it.called) && !it.called.includes(".")) found.called.push(it.called);
    }
    return found;
  }

  /** The definition that a name means in a block, or null. */
  named(name, block) {
    for (let it = block; it !== null; it = this.parents.get(it)) {
      const found = this.places.get(`${it} ${name}`);
      if (found) return found;
    }
    return null;
  }

  /** The one definition of that name, or null. */
  only(name) {
    const found = this.definitions.filter(it => it.name === name);
    return found.length === 1 ? found[0] : null;
  }

  /** Whether it is needed at the same time. A macro may ask for what it is called with as it was before. */
  isNow(definition, need) {
    const called = need.called.map(it => this.named(it, definition.block));
    return need.how !== "before" && called.every(it => it && !it.isMacro);
  }

  /** The shortest way from a definition back to it, as pairs of a definition and how it needs the next one; null where there is none. */
  way(start, isTaken) {
    const [todo, seen] = [[[start, []]], new Set([start])];
    for (const [at, before] of todo) {
      for (const need of at.needs) {
        const found = at.parameters.has(need.name) ? null : this.named(need.name, at.block);
        if (!found || !isTaken(at, found, need)) continue;
        const way = [...before, [at, need]];
        if (found === start) return way;
        if (!seen.has(found)) todo.push([found, way]);
        seen.add(found);
      }
    }
    return null;
  }
}

/** A definition that needs itself and has no written type: the way, or that a type does not help. */
export function ofNeedsType(text) {
  const needs = new Needs(text.text);
  const start = needs.definitions.find(it => it.at === text.at);
  if (!start) return null;
  const atOnce = needs.way(start, (at, _, need) => needs.isNow(at, need));
  if (atOnce) {
    const stream = atOnce.find(([it]) => !it.parameters.size)?.[0] ?? start;
    const { cause, remedy } = ofWay(atOnce.map(([it, need]) => [it.name, need]), stream.name);
    return answer(`${cause}; a type does not help here`, remedy);
  }
  const way = needs.way(start, (_, found) => !found.hasType);
  if (!way) return null;
  const names = way.map(([it]) => part(it.name));
  if (names.length === 1) return answer(`${names[0]} needs itself, and has no written type`, `write its type: def ${names[0]}: Events[..] := ..`);
  return answer(`${chain(names)}, and none has a written type`, `write the type of one of them: def ${names[0]}: Events[..] := ..`);
}

/** That each of these needs the next one, and the last one the first. */
function chain(names) {
  if (names.length > MOST_OF_WAY) return `${names[0]} needs ${names[1]}, and so on over ${names.length - 2} more back to ${names[0]}`;
  if (names.length === 1) return `${names[0]} needs itself`;
  return names.map((it, k) => `${it} needs ${names[(k + 1) % names.length]}`).join(", ");
}

/** Streams that wait for each other at one time: what one asks of another now, and how it is asked for as it was before. */
export function ofOwnCycle(text, told) {
  const nodes = told.slice("cycle ".length).split(" -> ").slice(0, -1);
  // Each needs the one before it.
  const names = nodes.filter(it => !it.startsWith("%")).reverse();
  const numbered = nodes.find(it => it.startsWith("%"));
  if (!names.length) return null;
  const needs = new Needs(text.text);
  const way = names.map((name, k) => {
    const other = names[(k + 1) % names.length];
    const found = needs.only(name)?.needs.find(it => it.name === other && it.how !== "before");
    return [name, found ?? { name: other, how: "now" }];
  });
  const { cause, remedy } = ofWay(way, names[0]);
  return answer(cause + (numbered ? `; ${numbered} is a part without a name` : ""), remedy);
}

/** The cause and the remedy, where each name of a way needs the next one at the same time; `own` is that of a stream among them. */
function ofWay(way, own) {
  const cause = `${chain(way.map(([name]) => part(name)))} at the same time`;
  for (const [name, need] of way) {
    const other = part(need.name);
    if (need.how === "last")
      return answer(
        `${cause}: in ${part(name)} the second argument of last is asked now`,
        `take the state at the event that ${other} is made of; of last the first argument alone is from before`,
      );
    if (need.how === "delay")
      return answer(
        `${cause}: in ${part(name)} the second argument of delay is asked now`,
        `let ${other} stand in the first argument of the delay alone, or ask for it as it was before: last(${other}, e)`,
      );
    if (need.how === "condition")
      return answer(
        `${cause}: filter asks for ${other} as it is now`,
        `ask for it as it was before: last(${other}, ${part(need.first)}), with a start by merge(.., START)`,
      );
  }
  const helps = `write last(${part(own)}, e) for its value before, where e is what changes it; of last and delay the first argument alone may need ${part(own)}`;
  return answer(cause, helps);
}
