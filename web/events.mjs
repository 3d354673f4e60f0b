// The events that stand in the text of a trace or of an output.

/** So many lines of a text are read. */
const MOST_LINES = 200_000;
/** A time has at most so many digits: a line with more is refused, and has no place. */
const MOST_DIGITS = 19;

function* linesOf(text) {
  let from = 0;
  for (let n = 0; from < text.length && n < MOST_LINES; n++) {
    const end = text.indexOf("\n", from);
    yield text.slice(from, end < 0 ? text.length : end);
    if (end < 0) return;
    from = end + 1;
  }
}

/** A time without zeros in front. */
function plain(digits) {
  return digits.replace(/^0+(?=.)/, "");
}

/** The time of a line, its name and its value, as far as it has them; null of a line without a time. */
export function partsOfLine(line) {
  const colon = line.indexOf(":");
  const digits = line.slice(0, Math.max(colon, 0)).trim();
  if (!/^[0-9]+$/.test(digits)) return null;
  const rest = line.slice(colon + 1);
  const equals = rest.indexOf("=");
  const name = (equals < 0 ? rest : rest.slice(0, equals)).trim();
  return { time: plain(digits), name, value: equals < 0 ? "()" : rest.slice(equals + 1).trim() };
}

/** The events of a text by their names, each with its time, its value and the number of its line; the last time; and whether more lines follow. */
export function eventsOf(text) {
  const streams = new Map();
  let number = 0;
  let last = null;
  for (const line of linesOf(text)) {
    number++;
    const parts = partsOfLine(line);
    if (!parts || parts.time.length > MOST_DIGITS) continue;
    last = parts.time;
    if (!parts.name) continue;
    if (!streams.has(parts.name)) streams.set(parts.name, []);
    streams.get(parts.name).push({ time: parts.time, value: parts.value, line: number });
  }
  return { streams, last, cut: number >= MOST_LINES };
}
