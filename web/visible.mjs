// What the page shows of a text that others wrote.

/** Controls but the end of a line and the tab, and what ends lines or turns the direction of a text: what follows them would stand elsewhere. */
const UNSEEN = /[\0-\x08\x0b-\x1f\x7f-\x9f\u2028-\u202e\u2066-\u2069]/g;

function escaped(sign) {
  const code = sign.charCodeAt(0);
  return code < 256 ? `\\x${code.toString(16).padStart(2, "0")}` : `\\u${code.toString(16)}`;
}

/** A text in which these signs are seen, as the launcher shows it on a terminal. */
export function visible(text) {
  return text.replace(UNSEEN, escaped);
}

/** Whether a text may read otherwise than it is. */
export function turns(text) {
  return /[\u202a-\u202e\u2066-\u2069]/.test(text);
}

/** A text of one line, at most so long. */
export function short(text, most) {
  return visible(text.length > most ? `${text.slice(0, most)}…` : text);
}
