// Highlighting by a TextMate grammar: that of the editors, in `highlighting/`.

/** A grammar made ready: its patterns, with their expressions compiled. */
export function grammarOf(json) {
  const patterns = list => list.flatMap(it => (it.include ? patterns(json.repository[it.include.slice(1)].patterns) : [patternOf(it, patterns)]));
  return patterns(json.patterns);
}

function patternOf(it, patterns) {
  const compiled = source => source && { match: new RegExp(source, "dgu") };
  const inner = it.patterns ? patterns(it.patterns) : [];
  return { kind: kindOf(it.name), ...compiled(it.match ?? it.begin), end: compiled(it.end), captures: it.captures, inner };
}

/** What a style knows of a scope: its first word. */
function kindOf(scope) {
  return scope?.split(".")[0];
}

/** What patterns match in a line. A pattern is tried again only from places past its last match, so that a long line takes no long time. */
class Matches {
  constructor(line) {
    this.line = line;
    this.last = new Map();
  }

  /** The first match of a pattern from a place on, or null. */
  of(pattern, from) {
    let found = this.last.get(pattern);
    if (found === undefined || (found && found.index < from)) {
      pattern.match.lastIndex = from;
      found = pattern.match.exec(this.line);
      this.last.set(pattern, found);
    }
    return found;
  }

  /** The first match of one of the patterns, of the earlier pattern where two begin at one place. */
  firstOf(patterns, from) {
    let best = null;
    for (const pattern of patterns) {
      const found = this.of(pattern, from);
      if (found && (!best || found.index < best.found.index)) best = { pattern, found };
    }
    return best;
  }
}

/** The parts of a line, each with its kind, as [from, to, kind]. Later parts lie on earlier ones. */
export function partsOf(grammar, line) {
  const parts = [];
  const matches = new Matches(line);
  for (let at = 0; at < line.length; ) {
    const next = matches.firstOf(grammar, at);
    if (!next) break;
    at = next.pattern.end ? afterBlock(next, matches, parts) : afterMatch(next, parts);
  }
  return parts;
}

function afterMatch({ pattern, found }, parts) {
  const end = found.index + found[0].length;
  if (pattern.kind) parts.push([found.index, end, pattern.kind]);
  for (const [number, it] of Object.entries(pattern.captures ?? {})) {
    const place = found.indices[number];
    if (place) parts.push([...place, kindOf(it.name)]);
  }
  return Math.max(end, found.index + 1);
}

function afterBlock({ pattern, found }, matches, parts) {
  const inside = [];
  let at = found.index + found[0].length;
  let end = matches.line.length;
  for (;;) {
    const close = matches.of(pattern.end, at);
    const inner = matches.firstOf(pattern.inner, at);
    if (inner && (!close || inner.found.index < close.index)) {
      at = afterMatch(inner, inside);
      continue;
    }
    if (close) end = close.index + close[0].length;
    break;
  }
  parts.push([found.index, end, pattern.kind], ...inside);
  return Math.max(end, found.index + 1);
}
