// A box to type in, over a copy of its text with colours and marks.
import { partsOf } from "./grammar.mjs";

/** So long a text has no colours: they would come too late while one types. */
const MOST_COLOURED = 200_000;

/** What stands in a column of a line that is counted in characters, as a place in the text's units. */
function unitOf(line, column) {
  let unit = 0;
  for (let left = column - 1; left > 0 && unit < line.length; left--) unit += line.codePointAt(unit) > 0xffff ? 2 : 1;
  return unit;
}

/** A span of a text, safe as it is. */
function span(kind, inside) {
  const node = document.createElement("span");
  node.className = kind;
  for (const it of inside) node.append(it);
  return node;
}

/** Pieces of a line by what is set last at each unit. */
function pieces(line, parts) {
  const kinds = new Array(line.length).fill("");
  for (const [from, to, kind] of parts) kinds.fill(kind, from, to);
  const nodes = [];
  for (let from = 0; from < line.length; ) {
    let to = from + 1;
    while (to < line.length && kinds[to] === kinds[from]) to++;
    const text = line.slice(from, to);
    nodes.push(kinds[from] ? span(kinds[from], [text]) : text);
    from = to;
  }
  return nodes;
}

/** The word that stands at a column of a line, or one character. */
function placeIn(line, column) {
  const from = unitOf(line, column);
  const word = /^([\p{L}\p{M}\p{N}_.]+|"[^"]*"?|:=|\|\||&&|[=!<>]=|.)/u.exec(line.slice(from));
  return [from, from + (word ? word[0].length : 0), "marked"];
}

export class Editor {
  constructor(box, grammar) {
    this.box = box;
    this.area = box.querySelector("textarea");
    this.copy = box.querySelector("code");
    this.grammar = grammar;
    this.mark = null;
    this.area.addEventListener("scroll", () => this.follow());
    this.area.addEventListener("input", () => {
      this.mark = null;
      this.paint();
    });
  }

  get text() {
    return this.area.value;
  }

  set text(text) {
    this.area.value = text;
    this.mark = null;
    this.paint();
  }

  /** Marks a place, or a whole line where it has no column; null marks nothing. Where nobody types in the box, it is moved there. */
  show(mark) {
    this.mark = mark;
    this.paint();
    const node = this.copy.querySelector(".marked, .line-marked");
    if (!node || document.activeElement === this.area) return;
    this.area.scrollTop = reached(this.area.scrollTop, this.area.clientHeight, node.offsetTop, 40);
    this.area.scrollLeft = node.className === "marked" ? reached(this.area.scrollLeft, this.area.clientWidth, node.offsetLeft, 80) : 0;
    this.follow();
  }

  /** The lines that the copy shows. */
  paint() {
    const is_coloured = this.grammar && this.text.length <= MOST_COLOURED;
    if (!is_coloured && !this.mark) this.copy.textContent = `${this.text}\n`;
    else this.copy.replaceChildren(this.copied(is_coloured));
    this.follow();
  }

  /** All lines, one after the other: a call takes fewer arguments than a text may have lines. */
  copied(is_coloured) {
    const made = document.createDocumentFragment();
    for (const [index, line] of this.text.split("\n").entries()) {
      for (const it of this.line(line, index + 1, is_coloured)) made.append(it);
      made.append("\n");
    }
    return made;
  }

  line(line, number, is_coloured) {
    const parts = is_coloured ? partsOf(this.grammar, line) : [];
    if (this.mark?.line !== number) return pieces(line, parts);
    if (!this.mark.column) return [span("line-marked", [...pieces(line, parts), line ? "" : " "])];
    const place = placeIn(line, this.mark.column);
    const shown = pieces(line, [...parts, place]);
    // Past the end of a line a blank is marked.
    return place[0] < line.length ? shown : [...shown, span("marked", [" "])];
  }

  follow() {
    this.copy.style.transform = `translate(${-this.area.scrollLeft}px, ${-this.area.scrollTop}px)`;
  }
}

/** How far a box is moved, so that a place is seen: not at all where it is. */
function reached(moved, size, place, room) {
  return place >= moved && place <= moved + size - room ? moved : Math.max(0, place - size / 2);
}
