// What helps with a refused line of a trace, and names that are no input's: as tools/messages_parts/traces.py does.
import { answer } from "./slips.mjs";
import { nearest, part } from "./spelling.mjs";

const EXAMPLES = { Int: "5", Bool: "true", String: '"text"' };

/** What helps with a refused line, or null. `inputs` has the type of each input. */
export function ofLine(line, told, inputs) {
  if (told === "unknown stream") return ofStranger(line, inputs);
  if (told === "not a trace line") return ofForm(line);
  const wrong = /^wrong value for (.*)$/.exec(told)?.[1];
  const rest = /^[ \t]*[0-9]+[ \t]*:[ \t]*[^\s=]+[ \t]*/.exec(line)?.[0];
  if (wrong === undefined || rest === undefined) return null;
  const value = line.slice(rest.length);
  if (value.trim() && value[0] !== "=") return null;
  return ofValue(part(wrong), value.trim() ? value.slice(1).trim() : null, inputs.get(wrong));
}

function ofStranger(line, inputs) {
  const name = /^[ \t]*[0-9]+[ \t]*:[ \t]*([^\s=#-][^\s=]*)/.exec(line)?.[1];
  const near = name ? nearest(name, inputs.keys()) : null;
  return near ? answer(`${part(name)} is no input`, `the nearest input is ${near}`) : null;
}

function ofForm(line) {
  if (/^[ \t]*[0-9]*\.[0-9]+[ \t]*:/.test(line)) return answer("the time is a fraction, and times are whole", "count in a finer unit: tools/log2trace with --scale does");
  if (/^[ \t]*-[0-9]+[ \t]*:/.test(line)) return answer("the time is negative", "times begin at 0: count from the beginning of the trace");
  if (/^[ \t]*[0-9]+[ \t]+[^\s:=]+[ \t]*=/.test(line)) return answer("no colon stands after the time", "write TIME: NAME = VALUE");
  if (/^[ \t]*[0-9]+[ \t]*:[ \t]*[^\s=]+[ \t]*=[ \t]*$/.test(line)) return answer("no value stands after =", "write it, or leave the = out for an input of Unit");
  return null;
}

function ofValue(name, value, kind) {
  if (!Object.hasOwn(EXAMPLES, kind) && kind !== "Unit") return null;
  if (kind === "Unit") return answer(`${name} is an input of Unit, and ${part(value ?? "")} is no value of it`, `write TIME: ${name}, without a value`);
  if (value === null) return answer(`${name} is an input of ${kind}, and has no value here`, `write TIME: ${name} = ${EXAMPLES[kind]}`);
  const [truth, low] = [["true", "1", "yes"], value.toLowerCase()];
  if (kind === "Int" && /^-?[0-9]*\.[0-9]+(?:[eE][-+]?[0-9]+)?$/.test(value))
    return answer(`${part(value)} is a fraction, and ${name} is an input of Int`, "count in a finer unit: tools/log2trace with --scale does");
  if (kind === "Int" && /^-?[0-9]{19,}$/.test(value)) return answer(`${part(value)} has more than 64 bits`, "choose a coarser unit");
  if (kind === "Bool" && [...truth, "false", "0", "no"].includes(low))
    return answer(`${part(value)} is no truth value`, `write TIME: ${name} = ${truth.includes(low)}`);
  if (kind === "String" && !value.startsWith('"')) return answer(`${name} is an input of String, and ${part(value)} stands in no quotes`, 'write it between double quotes: "..."');
  if (/#|--/.test(value) && !value.startsWith('"')) return answer("a comment stands after the value", "put it on a line of its own");
  return answer(`${name} is an input of ${kind}, and ${part(value)} is no value of it`, `write TIME: ${name} = ${EXAMPLES[kind]}, for one`);
}

/** One line on the names in a trace that are no input's, or an empty text. `lines` has for each name its number of lines and the first of them. */
export function strangersOf(names, inputs) {
  const strangers = names.filter(([name]) => !inputs.has(name));
  if (!strangers.length || !inputs.size) return "";
  const count = strangers.reduce((a, [, events]) => a + events.length, 0);
  const [name, events] = strangers.reduce((a, b) => (a[1][0].line <= b[1][0].line ? a : b));
  const near = nearest(name, inputs.keys());
  const closest = near ? `the nearest input is ${near}` : `inputs are ${part([...inputs.keys()].join(", "))}`;
  const first = `${count === 1 ? "" : "the first is "}${part(name)} in line ${events[0].line}`;
  return `${count === 1 ? "1 line has a name" : `${count} lines have names`} that no input has: ${first}; ${closest}`;
}
