// What a message means, and the place that it names.

/** The messages of the statuses that name a place, as the launcher reads them. */
const MESSAGES = {
  1: /^([0-9]+): fault (\w+) at ([0-9]{1,9}):([0-9]{1,9})$/,
  3: /^spec ([0-9]{1,9}):([0-9]{1,9}): (.*)$/,
  4: /^trace ([0-9]{1,15}): (.*)$/,
};

/** A text of a refused line, as the manual's table has it. */
function kindOfLine(text) {
  if (/^time [0-9]/.test(text)) return "time NOW after BEFORE";
  if (text.startsWith("wrong value for ")) return "wrong value for NAME";
  if (text.endsWith(" twice at one time")) return "NAME twice at one time";
  return text;
}

/** The line that tells how the program ended: the last one. */
function lastLine(err) {
  return err.replace(/\n$/, "").split("\n").at(-1);
}

const READ = {
  1: told => ({ section: "Faults", kind: told[2], time: told[1], spec: { line: +told[3], column: +told[4] } }),
  3: told => ({ section: "Refusals of a specification", kind: told[3].split(/[: ]/)[0], said: told[3], spec: { line: +told[1], column: +told[2] } }),
  4: told => ({ section: "Refused lines of a trace", kind: kindOfLine(told[2]), said: told[2], trace: { line: +told[1] } }),
};

/**
 * What a status and the standard error say: the places to be marked in the specification and in the trace, the time of a fault, and by the
 * tables of the manual the cause and the remedy.
 */
export function meaningOf(tables, status, err) {
  const told = MESSAGES[status]?.exec(lastLine(err));
  if (!told) return {};
  const read = READ[status](told);
  const row = tables[read.section]?.[read.kind];
  return { ...read, cause: row?.cause, remedy: row?.remedy };
}

/** A status in words. */
export const STATUSES = {
  0: "done",
  1: "a fault",
  2: "the words are not accepted",
  3: "the specification is refused",
  4: "a line of the trace is refused",
  5: "a call failed",
  6: "out of memory",
  7: "the limit of instants was passed",
  10: "no output has this name",
};
