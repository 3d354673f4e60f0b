// Names and parts as a message has them, and which name is spelt most like another one: as the launcher's messages do (tools/messages_parts).

const PART = 40;
const LONGEST = 64;
const LIKE = 0.7;

/** A part that a message repeats, on one line, and not too long. */
export function part(text) {
  const signs = [...text.trim().split(/\s+/).join(" ")];
  return signs.length <= PART ? signs.join("") : `${signs.slice(0, PART - 2).join("")}..`;
}

/** The longest run that two lists have in common within these bounds: where it begins in each, and its length. The first one of several. */
function longest(a, b, [alo, ahi, blo, bhi]) {
  let best = [alo, blo, 0];
  let lengths = new Map();
  for (let i = alo; i < ahi; i++) {
    const next = new Map();
    for (let j = blo; j < bhi; j++) {
      if (a[i] !== b[j]) continue;
      const k = (lengths.get(j - 1) ?? 0) + 1;
      next.set(j, k);
      if (k > best[2]) best = [i - k + 1, j - k + 1, k];
    }
    lengths = next;
  }
  return best;
}

/** How many signs two lists have in common: of the longest run, and so before and after it. */
function inCommon(a, b, bounds) {
  const [i, j, k] = longest(a, b, bounds);
  const [alo, ahi, blo, bhi] = bounds;
  return k && k + inCommon(a, b, [alo, i, blo, j]) + inCommon(a, b, [i + k, ahi, j + k, bhi]);
}

function likeness(a, b) {
  return (2 * inCommon(a, b, [0, a.length, 0, b.length])) / Math.max(a.length + b.length, 1);
}

/** The name of these that is spelt most like it, or null. */
export function nearest(name, names) {
  const signs = [...name].slice(0, LONGEST);
  const sorted = [...names].sort();
  let best = null;
  for (const it of sorted) {
    if ([...it].length > LONGEST) continue;
    const like = likeness([...it], signs);
    if (like >= LIKE && (!best || like >= best.like)) best = { like, it };
  }
  return best?.it ?? sorted.find(it => it.toLowerCase() === name.toLowerCase()) ?? null;
}
