// The program as a WebAssembly module: what the worker of the page runs.

/** So much memory the program may take, in bytes, unless the page says otherwise. */
const MOST_MEMORY = 2 ** 31;

/** Out of memory, in the program's own words. */
function outOfMemory() {
  return { status: 6, out: new Uint8Array(), err: new TextEncoder().encode("out of memory\n") };
}

class NoRoom extends Error {}

/** What the browser makes, for which it may have no memory. */
function made(make) {
  try {
    return make();
  } catch (error) {
    throw error instanceof RangeError ? new NoRoom() : error;
  }
}

/** A call of the program with its memory. Each call has a memory of its own, so that nothing is left of an earlier one. */
class Call {
  constructor(module, most) {
    this.of = made(() => new WebAssembly.Instance(module, {})).exports;
    this.of.page_allow(BigInt(most));
  }

  room(size) {
    const at = this.of.page_room(BigInt(Math.max(size, 1)));
    if (at === 0n) throw new NoRoom();
    return [at, BigInt(size)];
  }

  bytes([at, size]) {
    return new Uint8Array(this.of.memory.buffer, Number(at), Number(size));
  }

  put(bytes) {
    const place = this.room(bytes.length);
    this.bytes(place).set(bytes);
    return place;
  }
}

/** Words as the program takes them, each up to a zero byte; what are bytes already are taken so. */
function wordsOf(words) {
  return words instanceof Uint8Array ? words : new TextEncoder().encode(words.map(it => `${it}\0`).join(""));
}

/** Rooms for what is written, of these sizes, and the two lengths that come back. */
function ask(call, given, sizes) {
  const [out, err, lengths] = [call.room(sizes[0]), call.room(sizes[1]), call.room(16)];
  const status = call.of.tessla_page(...given.flat(), ...out, ...err, lengths[0]);
  const view = new DataView(call.of.memory.buffer, Number(lengths[0]), 16);
  const needs = [Number(view.getBigUint64(0, true)), Number(view.getBigUint64(8, true))];
  const fits = needs.every((it, k) => it <= sizes[k]);
  const text = (place, size) => made(() => call.bytes([place[0], BigInt(size)]).slice());
  return { fits, needs, status, out: fits && text(out, needs[0]), err: fits && text(err, needs[1]) };
}

/**
 * What the program answers to words over a specification and a trace, as bytes: its status, and what it writes to the standard output and to
 * the standard error. Where that is more than was thought, it is asked once more. It throws where the browser ends the program.
 */
export function answer(module, words, spec, trace, most = MOST_MEMORY) {
  let sizes = [65536 + 4 * trace.length, 65536];
  try {
    for (;;) {
      const call = new Call(module, most);
      const given = [wordsOf(words), spec, trace].map(it => call.put(it));
      const got = ask(call, given, sizes);
      if (got.fits) return got.status === 6 ? outOfMemory() : { status: got.status, out: got.out, err: got.err };
      sizes = got.needs;
    }
  } catch (error) {
    if (error instanceof NoRoom) return outOfMemory();
    throw error;
  }
}
