// What stands on the page, as the fragment of its address.

/** What a fragment may have once it is unpacked, in bytes: a small one may unpack to a thousand times as much. */
const MOST_UNPACKED = 8_000_000;
const FIELDS = ["spec", "trace", "command", "output", "time", "until", "strict", "stats"];

/** Bytes as a stream makes them of others, at most so many. */
async function through(bytes, stream, most = Infinity) {
  const reader = new Blob([bytes]).stream().pipeThrough(stream).getReader();
  const parts = [];
  for (let size = 0; ; ) {
    const { done, value } = await reader.read();
    if (done) return new Uint8Array(await new Blob(parts).arrayBuffer());
    parts.push(value);
    size += value.length;
    if (size > most) {
      reader.cancel().catch(() => {});
      throw new Error("it is too long");
    }
  }
}

function toText(bytes) {
  let text = "";
  for (let at = 0; at < bytes.length; at += 4096) text += String.fromCharCode(...bytes.subarray(at, at + 4096));
  return btoa(text).replaceAll("+", "-").replaceAll("/", "_").replace(/=+$/, "");
}

function toBytes(text) {
  return Uint8Array.from(atob(text.replaceAll("-", "+").replaceAll("_", "/")), it => it.charCodeAt(0));
}

/** A state, a plain object of texts, as a fragment. */
export async function fragmentOf(state) {
  return `#1.${toText(await through(new TextEncoder().encode(JSON.stringify(state)), new CompressionStream("deflate-raw")))}`;
}

/** The state of a fragment: those of its fields that are texts. Null where it has none, and an error where it is not as this page makes them. */
export async function stateOf(fragment) {
  if (fragment.length < 2) return null;
  if (!fragment.startsWith("#1.")) throw new Error("it has another form");
  const bytes = await through(toBytes(fragment.slice(3)), new DecompressionStream("deflate-raw"), MOST_UNPACKED);
  const state = JSON.parse(new TextDecoder("utf-8", { fatal: true, ignoreBOM: true }).decode(bytes));
  if (typeof state?.spec !== "string" || typeof state.trace !== "string") throw new Error("it has no specification or no trace");
  return Object.fromEntries(FIELDS.filter(it => typeof state[it] === "string").map(it => [it, state[it]]));
}
