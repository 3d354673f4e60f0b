// What helps with a message: as the launcher adds it, what stands at the place, or else what the manual's tables have.
import { Declared, ofBadType, ofCycle } from "./declared.mjs";
import { ofLine } from "./lines.mjs";
import { ofNeedsType, ofOwnCycle } from "./needs.mjs";
import { Slips } from "./slips.mjs";
import { inputsOf, textAt } from "./text.mjs";

/** Of a longer line nothing but the tables is told. */
const MOST_HINTED = 4000;

export class Hints {
  constructor(tables) {
    this.slips = new Slips(tables);
    this.declared = new Declared(tables);
  }

  /** The cause and the remedy of a refusal at a place of a specification, and lines on what lies on a cycle. */
  ofRefusal(spec, place, kind, told) {
    if ((spec.split("\n", place.line).at(-1) ?? "").length > MOST_HINTED) return {};
    const text = textAt(spec, place);
    const { slips, declared } = this;
    if (kind === "cycle") return { ...ofOwnCycle(text, told), lines: ofCycle(text, told) };
    const of = {
      Unexpected: () => slips.ofUnexpected(text),
      BadCharacter: () => slips.ofCharacter(text),
      WrongArity: () => declared.ofArity(text),
      UnknownName: () => declared.ofName(text),
      DefinedTwice: () => declared.ofTwice(text),
      NeedsType: () => ofNeedsType(text),
      BadType: () => ofBadType(text),
      WrongType: () => declared.ofType(text, told),
    };
    return (Object.hasOwn(of, kind) && of[kind]()) || {};
  }

  ofLine(line, told, spec) {
    return (line.length <= MOST_HINTED && ofLine(line, told, inputsOf(spec))) || {};
  }
}
