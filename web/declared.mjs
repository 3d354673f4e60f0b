// What helps with names, arguments and types that are not as the specification declares them: as tools/messages_parts/declared.py does.
import { nearest, part } from "./spelling.mjs";
import { answer } from "./slips.mjs";

const NAMED = /^[\p{L}_][\p{L}\p{N}_]*$/u;
const OWN = ["unit", "nil", "lift", "None", "Set", "Map", "Queue", "String"];

function entry(table, name) {
  return Object.hasOwn(table, name) ? table[name] : undefined;
}

function isStream(kind) {
  return kind.startsWith("Events[");
}

export class Declared {
  constructor(tables) {
    this.tables = tables;
  }

  /** Another number of arguments than the function has. */
  ofArity(text) {
    const [name, given] = [text.nameHere(), text.arguments()];
    const items = text.named(name);
    const wanted = entry(this.tables.BUILT_IN, name) ?? (items.length === 1 && items[0].parameters !== null ? items[0].names() : null);
    if (!given || !wanted || given.length === wanted.length) return null;
    const parts = given.map(part);
    let form = `${name}(${wanted.join(", ")})`;
    if (["merge", "default"].includes(name) && parts.length > 2 && parts.length <= 8)
      form = `${name}(${parts.slice(0, -1).join(", merge(")}, ${parts.at(-1)}${")".repeat(parts.length - 1)}`;
    else if (name === "last" && parts.length === 1) form = `last(${parts[0]}, ${parts[0]}) for the value before, or last(${parts[0]}, r) for the one at r`;
    const counted = this.tables.COUNTED[wanted.length] ?? `${wanted.length} arguments`;
    return answer(`${part(name)} has ${counted}, and here are ${given.length}`, `write ${form}`);
  }

  /** A name that is not declared here. */
  ofName(text) {
    const name = text.nameHere();
    if (!name) return null;
    const { BUILT_IN, ELSEWHERE } = this.tables;
    const whole = /^[\p{L}\p{N}_]+(?:-[\p{L}_][\p{L}\p{N}_]*)+/u.exec(text.after())?.[0];
    const [items, around] = [text.named(name), text.around()];
    if (items.length) return ofDeclared(name, items[0], around?.isOfValues() ? around : null);
    if (whole && !whole.split("-").some(it => text.named(it).length))
      return answer(`${part(whole)} is a difference of names that are not declared`, `where it is one name, write ${part(whole).replaceAll("-", "_")}`);
    const known = nearest(name, new Set([...(around?.names() ?? []), ...text.declared()]));
    if (known === null && entry(BUILT_IN, name) && text.arguments() === null)
      return answer(`${name} belongs to the language, and is not called`, `write ${name}(${BUILT_IN[name].join(", ")})`);
    if (known === null && entry(ELSEWHERE, name)) return answer(`${name} is not there`, ofArgument(ELSEWHERE[name], text.arguments()));
    const near = known ?? nearest(name, Object.keys(BUILT_IN));
    return near ? answer(`${part(name)} is not declared`, `the nearest name is ${near}`) : null;
  }

  /** A name that is declared already. */
  ofTwice(text) {
    const first = text.after().trim().split(/\s+/)[0];
    const name = text.nameHere() || part(first);
    if (entry(this.tables.BUILT_IN, name) || OWN.includes(name)) return answer(`${name} belongs to the language`, "choose another name");
    const other = text.named(name).find(it => it.at !== text.at);
    if (!other || other.at >= text.at) return null;
    return answer(`${part(name)} is declared at ${text.placeOf(other.at).join(":")} already`, "choose another name");
  }

  /** A part of another type than its place asks for. */
  ofType(text, told) {
    const found = /^WrongType: have (.*?), want (.*)$/.exec(told);
    if (!found) return null;
    const [, have, want] = found;
    if (want === "literal") return ofLiteral(text, have);
    if (have === "function")
      return answer("braces stand around the body of a macro alone", "write the expression without them, and its parts as definitions of their own");
    const [name, around] = [text.nameHere(), text.around()];
    if (around?.isOfValues() && text.at > around.at) return this.ofValueFunction(name, around, have, want);
    return this.ofStream(text, name, have, want);
  }

  ofValueFunction(name, item, have, want) {
    const { OF_STREAMS, OF_OPTIONS } = this.tables;
    if (OF_STREAMS.includes(name)) {
      const helps = `write ${name} outside, among streams, or Events[..] for the parameters: then it is a macro`;
      const kind = ["one of Set[Int]", "one of Map[Int, Int]", "one of Queue[Int]"].includes(want) ? ` of ${anyOf(want)}` : "";
      return answer(`a stream${kind} is meant: ${name} takes streams, and ${part(item.name)} is a function of values`, helps);
    }
    if (OF_OPTIONS.includes(name)) {
      const helps = "use the value as it is, or let the parameter be an Option[..]";
      return answer(`an option is meant: ${name} asks whether a value is there, and this is a value: ${have}`, helps);
    }
    if (want.startsWith("one of")) {
      const helps = `compare numbers, truth values, texts; ask an option by isSome, getSome (${have} stands here)`;
      return answer(`a value is meant, of another type: this is in the function of values ${part(item.name)}`, helps);
    }
    if (want === `Option[${have}]`) return answer(`a value that may be absent is meant, and this is ${have}`, "write Some(..) around it");
    if (have === `Option[${want}]`) return answer(`a value is meant, and this may be absent: ${have}`, "write getSome(..) where isSome(..) holds");
    if (want === `Events[${have}]`) {
      const helps = `write ${have} as the type of its result, or Events[..] for its parameters: then it is a macro`;
      return answer(`${part(item.name)} is a function of values, and gives a value`, helps);
    }
    return ofTexts(have, want);
  }

  ofStream(text, name, have, want) {
    if (this.tables.OF_OPTIONS.includes(name) || name === "Some") {
      const helps = "write a function of options, def f(x: Option[..]): Option[..] := .., and lift(e, f)";
      return answer(`a value is meant, as in a function of values, and this is a stream: ${have}`, helps);
    }
    const given = text.arguments();
    if (name === "lift" && !isStream(have) && want.startsWith("Option[")) {
      const f = given?.length && NAMED.test(given.at(-1)) ? part(given.at(-1)) : "f";
      const streams = part((given ?? []).slice(0, -1).join(", ")) || "..";
      const helps = `write ${f}(${streams}), which calls it event by event; lift is for functions of Option[..] to Option[..]`;
      return answer(`${f} takes or gives ${have}, a plain value, and lift asks for options`, helps);
    }
    if (isStream(have) && want.startsWith("Option[")) {
      const streams = part((given?.length ? given : [".."]).join(", "));
      return answer(`${part(name)} takes options, and this is a stream: ${have}`, `write lift(${streams}, ${part(name)})`);
    }
    if (["merge", "default"].includes(name) && isStream(have) && want !== have && isStream(want) && given?.length === 2) return ofMerge(text, have, want);
    if (want.startsWith("one of")) {
      const inner = isStream(have) ? have.slice("Events[".length, -1) : have;
      const form = want.includes(",") ? null : entry(this.tables.BUILT_IN, name);
      const first = form ? `, and is the first argument: ${name}(${form.join(", ")})` : "";
      return answer(`a stream of another type is meant: this is one of ${part(inner)}`, `it may be ${anyOf(want)}${first}`);
    }
    if (have === `Events[${want}]`) return answer(`a macro gives a stream, and its result is written as ${part(want)}`, `write ${part(have)}`);
    if (name === "delay" && want === "Events[Int]")
      return answer(`delay takes how long it waits first, a stream of Int, and this is ${part(have)}`, "write delay(const(10, e), e)");
    return ofTexts(have, want);
  }
}

/** What may stand there: a message has one set for all sets, one map for all maps, and one queue for all queues. */
function anyOf(want) {
  const kinds = want.slice("one of ".length).replaceAll("Set[Int]", "any set").replaceAll("Map[Int, Int]", "any map").replaceAll("Queue[Int]", "any queue");
  return kinds.includes(",") ? `one of ${kinds}` : kinds;
}

/** A merge of streams of two types, of which perhaps the times alone count. */
function ofMerge(text, have, want) {
  const cause = `merge has streams of one type, and here one is ${part(want)} and the other ${part(have)}`;
  const [first, second] = text.arguments().map(part);
  const times = `merge(time(${first}), time(${second}))`;
  if (/(?<![\p{L}\p{N}_])(?:last|delay)\s*\((?:[^()]|\([^()]*\))*,\s*$/u.test(text.before())) return answer(cause, `only when they come counts here: write ${times}`);
  return answer(cause, `change one of them; where only their times count, as for a delay, write ${times}`);
}

/** A type that may not stand here. */
export function ofBadType(text) {
  const [name, before] = [text.nameHere(), text.before()];
  if (name === "Option") {
    const helps = "let no event come where there is none; for no one keep a Bool beside it, or a value that never comes, as -1";
    return answer("an event has a value, so there are no streams, keys or values of Option", helps);
  }
  if (name === "Unit" && /(?<![\p{L}\p{N}_])(?:Set|Map)(?:\.empty)?\s*\[$/u.test(before)) return answer("keys are Int, Bool or String, and not Unit", "choose one of these");
  if (["Set", "Map", "Queue"].includes(name) && /(?<![\p{L}\p{N}_])(?:Set|Map|Queue)(?:\.empty)?\s*\[[^\]]*$/u.test(before))
    return answer("a set, map or queue stands in no other one", "keep one for each part, or make one key of both: a * 1000 + b, or String.concat(a, b)");
  return null;
}

/** What helps, of the stream that the call has. */
function ofArgument(helps, given) {
  return given?.length === 1 && NAMED.test(given[0]) ? helps.replace(/\bx\b/g, () => given[0]) : helps;
}

function ofDeclared(name, item, around) {
  if (around && !item.isOfValues())
    return answer(`${part(name)} is a stream, and ${part(around.name)} a function of values`, `give it as a parameter to ${part(around.name)}, or write the literal there`);
  if (item.parameters === null) return null;
  const called = `write ${part(name)}(${part(item.names().join(", "))})`;
  return answer(`${part(name)} is a function, and is not called`, item.isOfValues() ? called : `${called}: it is a macro of streams`);
}

/** Numbers, truth values and texts in each other's place. */
function ofTexts(have, want) {
  const kinds = [have, want].map(it => /^(?:Events\[(Unit|Int|Bool|String)\]|(Unit|Int|Bool|String))$/.exec(it));
  if (!kinds.every(Boolean) || isStream(have) !== isStream(want)) return null;
  const [found, asked] = kinds.map(it => it[1] ?? it[2]);
  const what = isStream(have) ? "stream" : "value";
  const helps = {
    "String Int": "change the part; texts are joined by String.concat(a, b)",
    "Bool Int": "change the part, or write if c then 1 else 0 of it",
    "Int Bool": "change the part, or compare it: x != 0",
  }[`${found} ${asked}`];
  const ofUnit = "a Unit only comes, and has nothing to calculate with: const(1, e) has a number wherever e comes";
  const told = [found, asked].includes("Unit") ? ofUnit : (helps ?? "change the part");
  return answer(`a ${what} of ${asked} is meant, and a part of this operation is a ${what} of ${found}`, told);
}

/** The first argument of const, which is no literal. */
function ofLiteral(text, have) {
  const given = text.arguments();
  if (text.nameHere() !== "const" || given?.length !== 2) return null;
  const [value, event] = given.map(part);
  if (!/[\p{L}_]/u.test(value) && value !== "()") return answer(`${value} is no literal`, "write its value as one literal");
  if (["()", "unit"].includes(value)) return answer(`${value} is no literal`, `write const(true, ${event}), or ${event} alone where it has no value to matter`);
  if (/^(?:Set|Map|Queue)\.empty(?![\p{L}\p{N}_])/u.test(value)) {
    const helps = `write last(${value}, ${event}), which has it at each event of ${event} after 0`;
    return answer(`${value} is a stream with one event at 0, and no literal`, helps);
  }
  const form = {
    "Events[Int]": `write ${value} + const(0, ${event})`,
    "Events[Bool]": `write ${value} && const(true, ${event})`,
    "Events[String]": `write String.concat(${value}, const("", ${event}))`,
  }[have];
  if (form && isConstant(text, value)) return answer(`${value} is a stream with one event at 0, and const takes a literal`, `${form}, or the literal itself`);
  return answer(`${value} is a stream, and const takes a literal`, `write last(${value}, ${event}) for its last value before ${event}`);
}

/** Whether the name is that of a literal. */
function isConstant(text, name) {
  const quoted = name.replace(/[.*+?^${}()|[\]\\/]/g, "\\$&");
  return new RegExp(`(?<![\\p{L}\\p{N}_])def\\s+${quoted}\\s*(?::[^=\\n]*)?:?=\\s*(?:-?[0-9]+|true|false|".*")\\s`, "u").test(text.text);
}

/** The definitions on a cycle, with their places. */
export function ofCycle(text, told) {
  const nodes = told.slice("cycle ".length).split(" -> ").slice(0, -1);
  const names = [...new Set(nodes.filter(it => !it.startsWith("%")))];
  const lines = [];
  for (const name of names.slice(0, 8)) {
    const items = text.named(name);
    if (items.length !== 1) continue;
    const parts = partsBefore(nodes, name);
    const more = parts.length ? `, with its part${parts.length > 1 ? "s" : ""} ${parts.join(", ")}` : "";
    lines.push(`${text.placeOf(items[0].at).join(":")}: ${name}${more}`);
  }
  return names.length > 8 ? [...lines, `and ${names.length - 8} definitions more`] : lines;
}

/** The parts without names that stand right before a name on a cycle. */
function partsBefore(nodes, name) {
  const parts = [];
  for (let at = nodes.indexOf(name) - 1; nodes.at(at)?.startsWith("%") && parts.length < 8; at--) parts.unshift(nodes.at(at));
  return parts;
}
