// The worker of the page: it answers one question after the other, and is ended where one takes too long.
import { answer } from "./monitor.mjs";

/** Of a trace longer than this a part is run first, so that the page knows about how long it will take. */
const LONG = 4_000_000;
const PART = 32;

let module = null;

/** About how long a whole run takes, by one over a part of its trace that ends with a line. */
function foretell(words, spec, trace, most) {
  const end = trace.indexOf(10, Math.floor(trace.length / PART)) + 1;
  const begun = performance.now();
  answer(module, words, spec, trace.subarray(0, end), most);
  return ((performance.now() - begun) * trace.length) / Math.max(end, 1);
}

function reply({ id, words, spec, trace, most }) {
  if (trace.length > LONG && words[0] === "run") self.postMessage({ id, takes: foretell(words, spec, trace, most) });
  const begun = performance.now();
  const got = answer(module, words, spec, trace, most);
  const took = performance.now() - begun;
  self.postMessage({ id, took, ...got }, [...new Set([got.out.buffer, got.err.buffer])].filter(it => it.byteLength));
}

self.onmessage = ({ data }) => {
  if (data.module) {
    module = data.module;
    return;
  }
  try {
    reply(data);
  } catch (error) {
    self.postMessage({ id: data.id, ended: String(error) });
  }
};
