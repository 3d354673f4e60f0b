// The page: what stands in its boxes, what is asked of the program, and what is shown of its answer.
import { Asking } from "./asking.mjs";
import { Editor } from "./editor.mjs";
import { eventsOf, partsOfLine } from "./events.mjs";
import { grammarOf } from "./grammar.mjs";
import { Hints } from "./hints.mjs";
import { strangersOf } from "./lines.mjs";
import { fragmentOf, stateOf } from "./link.mjs";
import { STATUSES, meaningOf } from "./messages.mjs";
import { Source, decode, encode } from "./source.mjs";
import { firstOutputOf, inputsOf } from "./text.mjs";
import { drawTimeline } from "./timeline.mjs";
import { short, turns, visible } from "./visible.mjs";

/** So much of an output is shown; all of it can be saved. */
const MOST_SHOWN = 100_000;
/** So much of what stands on the standard error is shown. */
const MOST_SAID = 20_000;
/** After a key the program is asked this many milliseconds later. */
const PAUSE = 150;
/** The names that the words have for the two texts. The program is told so, and opens no files. */
const NAMES = ["spec", "trace"];
const FIRST = "watchdog";
const REFUSALS = "Refusals of a specification";

const at = id => document.getElementById(id);
const data = id => JSON.parse(at(`data-${id}`).textContent);

const recipes = data("recipes");
const tables = data("messages");
const hints = new Hints(data("hints"));
const grammars = { spec: grammarOf(data("grammar")), trace: null };
const sourceOf = name => new Source(new Editor(at(`${name}-box`), grammars[name]), at(`${name}-hint`), at(`${name}-forget`));
const sources = { spec: sourceOf("spec"), trace: sourceOf("trace") };
const asking = new Asking(at("data-module").textContent, at("data-worker").textContent);

/** What somebody typed, once a recipe is chosen in its place. */
let own = null;
let timer = 0;
let bar = 0;
/** The output that stands on the page, as bytes. */
let output = new Uint8Array();

// ---- What stands on the page

/** What is asked: the words, and the two texts as bytes. */
function question() {
  const command = at("command").value;
  const words = command === "run" ? ["run", ...NAMES] : [command, NAMES[0]];
  // After -- all words are names.
  const asked = at("name").value || firstOutputOf(sources.spec.whole);
  if (command === "slice") words.splice(1, 1, "--", NAMES[0], asked);
  if (command === "why") words.splice(1, 1, "--", ...NAMES, asked, at("time").value || "0");
  if (command === "run" && at("until").value) words.push("--until", at("until").value);
  for (const option of ["strict", "stats"]) if (command === "run" && at(option).checked) words.push(`--${option}`);
  return { words, spec: sources.spec.bytes, trace: sources.trace.bytes };
}

function state() {
  const checked = id => (at(id).checked ? "yes" : "");
  return {
    spec: sources.spec.text,
    trace: sources.trace.text,
    command: at("command").value,
    output: at("name").value,
    time: at("time").value,
    until: at("until").value,
    strict: checked("strict"),
    stats: checked("stats"),
  };
}

function put(given) {
  for (const name of NAMES) sources[name].put(given[name] ?? "");
  const commands = [...at("command").options].map(it => it.value);
  at("command").value = commands.includes(given.command) ? given.command : "run";
  at("name").value = given.output ?? "";
  for (const name of ["time", "until"]) at(name).value = /^[0-9]{0,19}$/.test(given[name] ?? "") ? (given[name] ?? "") : "";
  for (const option of ["strict", "stats"]) at(option).checked = given[option] === "yes";
  note("");
  soon(0);
}

/** What has to be said beside the answer. */
function note(text) {
  at("notice").textContent = text;
  at("notice").hidden = !text;
}

function say(text, kind = "") {
  at("status").textContent = text;
  at("status").className = kind;
}

// ---- Asking

function soon(pause = PAUSE) {
  clearTimeout(timer);
  timer = setTimeout(run, pause);
}

/** The bar of a long run: it goes by the time that the run is thought to take. */
function foretold(milliseconds) {
  const begun = performance.now();
  at("progress").hidden = false;
  bar = setInterval(() => (at("progress").value = Math.min((performance.now() - begun) / milliseconds, 0.98)), 100);
}

function hideBar() {
  clearInterval(bar);
  at("progress").hidden = true;
  at("progress").value = 0;
}

async function run() {
  hideBar();
  const asked = question();
  say("running");
  for (const it of document.querySelectorAll("header [class^=of-]")) it.classList.toggle("unused", !it.classList.contains(`of-${asked.words[0]}`));
  let got;
  try {
    got = await asking.ask(asked.words, asked.spec, asked.trace, { seconds: Number(at("limit").value), tells: foretold });
  } catch (error) {
    hideBar();
    showNothing(`the program does not start: ${error.message}. It needs a browser with 64-bit WebAssembly: Chrome from 133 on, Firefox from 134 on.`);
    return;
  }
  if (!got) return;
  hideBar();
  if (got.stopped) showNothing(`stopped after ${at("limit").selectedOptions[0].textContent}: choose more time above`);
  else if (got.ended) showNothing(`the browser has ended the program: ${got.ended}`);
  else show(asked, got);
}

// ---- Showing

/** There is no answer: what stands of an earlier one is taken away. */
function showNothing(why) {
  say(why, "bad");
  output = new Uint8Array();
  at("output").textContent = "";
  showMessage("", {});
  for (const name of NAMES) sources[name].editor.show(null);
  draw({ words: [] }, "", {});
}

function show(asked, { status, out, err, took }) {
  const [text, told] = [decode(out), decode(err)];
  output = out;
  const meaning = helped(meaningOf(tables, status, told));
  say(`status ${status}: ${told.startsWith("no event of ") ? "the output has no event then" : STATUSES[status] ?? "unknown"}, ${Math.round(took)} ms`, status === 0 ? "good" : "bad");
  at("output").textContent = shown(text, MOST_SHOWN);
  showMessage(told, meaning);
  sources.spec.editor.show(meaning.spec ?? null);
  sources.trace.editor.show(markInTrace(meaning));
  draw(asked, text, meaning);
}

/** A meaning, with the cause and the remedy of what stands at its place, where that is known. */
function helped(meaning) {
  if (!meaning.said) return meaning;
  const spec = sources.spec.whole;
  if (meaning.spec) return { ...meaning, ...hints.ofRefusal(spec, meaning.spec, meaning.kind, meaning.said) };
  const line = sources.trace.whole.split("\n", meaning.trace.line).at(-1) ?? "";
  return { ...meaning, ...hints.ofLine(line, meaning.said, spec) };
}

function shown(text, most) {
  const more = text.length - most;
  return more > 0 ? `${visible(text.slice(0, most))}\n… and ${more.toLocaleString("en")} more characters` : visible(text);
}

/** The refused line of the trace, or the last one at the time of a fault. */
function markInTrace(meaning) {
  if (meaning.trace || meaning.time === undefined) return meaning.trace ?? null;
  const line = sources.trace.text.split("\n").findLastIndex(it => partsOfLine(it)?.time === meaning.time) + 1;
  return line ? { line } : null;
}

function showMessage(told, meaning) {
  const box = at("message");
  box.className = meaning.section ? "" : "quiet";
  const line = document.createElement("pre");
  line.textContent = [shown(told.trimEnd(), MOST_SAID), ...(meaning.lines ?? []).map(it => `  ${visible(it)}`)].join("\n");
  box.replaceChildren(...(told ? [line] : []), ...(meaning.cause ? [helpOf(meaning)] : []));
}

function helpOf({ cause, remedy }) {
  const list = document.createElement("dl");
  for (const [name, text] of [["cause", cause], ["remedy", remedy]]) {
    const [term, said] = [document.createElement("dt"), document.createElement("dd")];
    [term.textContent, said.textContent] = [name, visible(text)];
    list.append(term, said);
  }
  return list;
}

function draw(asked, text, meaning) {
  at("at-time").textContent = "Point at a time, or choose one by the arrow keys.";
  const is_run = asked.words[0] === "run";
  const [inputs, outputs] = is_run ? [eventsOf(decode(asked.trace)), eventsOf(text)] : [eventsOf(""), eventsOf("")];
  const known = meaning.section === REFUSALS ? null : inputsOf(sources.spec.whole);
  const strangers = known && meaning.section === undefined ? strangersOf([...inputs.streams], known) : "";
  const lines = sources.trace.text.split("\n");
  // What is hidden has no width.
  at("drawing").hidden = false;
  const drawn = drawTimeline(at("timeline"), {
    inputs,
    outputs,
    known,
    fault: meaning.time,
    lineOf: number => (sources.trace.file ? undefined : lines[number - 1]),
    tell: said => (at("at-time").textContent = said),
  });
  at("drawing").hidden = !drawn;
  const cut = inputs.cut || outputs.cut ? "the beginning of a long trace" : "";
  at("timeline-hint").textContent = [visible(strangers), cut].filter(Boolean).join("; ");
}

// ---- Files

/** Hands the whole output to the browser, as a file. */
function save() {
  const link = document.createElement("a");
  link.href = URL.createObjectURL(new Blob([output], { type: "text/plain" }));
  link.download = "output.txt";
  link.click();
  setTimeout(() => URL.revokeObjectURL(link.href), 60_000);
}

/** A file that is dropped on a box, or opened for it, is for that box; elsewhere its name says what it is. */
async function take(given, target) {
  const name = target ?? (given.name.endsWith(".tsl") ? "spec" : "trace");
  try {
    const bytes = new Uint8Array(await given.arrayBuffer());
    keepOwn();
    sources[name].take(short(given.name, 60), bytes);
    warn();
  } catch (error) {
    note(`${short(given.name, 60)} can't be read: ${error.message}`);
  }
  soon(0);
}

function listenToDrops() {
  const boxOf = event => event.target.closest?.(".editor");
  const mark = box => {
    for (const it of document.querySelectorAll(".editor")) it.classList.toggle("dropping", it === box);
  };
  document.addEventListener("dragover", event => {
    event.preventDefault();
    mark(boxOf(event));
  });
  document.addEventListener("dragleave", () => mark(null));
  document.addEventListener("drop", async event => {
    event.preventDefault();
    mark(null);
    const files = [...event.dataTransfer.files];
    const target = files.length === 1 ? boxOf(event)?.id.replace("-box", "") : undefined;
    for (const it of files) await take(it, target);
  });
}

function listenToOpening() {
  let target = "";
  for (const name of NAMES) {
    at(`${name}-open`).addEventListener("click", () => {
      target = name;
      at("chosen").value = "";
      at("chosen").click();
    });
    at(`${name}-forget`).addEventListener("click", () => {
      sources[name].forget();
      soon(0);
    });
  }
  at("chosen").addEventListener("change", () => at("chosen").files[0] && take(at("chosen").files[0], target));
}

// ---- Recipes and links

function fillRecipes() {
  at("recipe").append(new Option("of your own", ""), ...recipes.map(it => new Option(it.name, it.name)));
  at("recipe").addEventListener("change", () => {
    const name = at("recipe").value;
    const found = name ? { ...recipes.find(it => it.name === name), command: at("command").value } : own;
    if (found) put(found);
    history.replaceState(null, "", location.pathname + location.search);
  });
}

/** From now on the texts are somebody's own: they come back where that is chosen in the menu, but for files. */
function keepOwn() {
  at("recipe").value = "";
  queueMicrotask(() => (own = NAMES.some(it => sources[it].file) ? null : state()));
}

/** Says where a text that others may have written deceives. */
function warn() {
  const found = NAMES.filter(it => turns(sources[it].text));
  note(found.length ? `The ${found.join(" and the ")} has signs that turn the direction of a text: it may read otherwise than it is.` : "");
}

async function share() {
  if (sources.spec.file || sources.trace.file) {
    note("What is kept as a file does not go into a link.");
    return;
  }
  history.replaceState(null, "", await fragmentOf(state()));
  try {
    await navigator.clipboard.writeText(location.href);
    note("The link is copied, and stands in the address.");
  } catch {
    note("The link stands in the address.");
  }
}

async function fromAddress() {
  try {
    const given = await stateOf(location.hash);
    if (given) {
      at("recipe").value = "";
      put(given);
      own = state();
      warn();
      return;
    }
  } catch (error) {
    putFirst();
    note(`The address has a link that can't be read: ${error.message}.`);
    return;
  }
  putFirst();
}

function putFirst() {
  const first = recipes.find(it => it.name === (at("recipe").value || FIRST)) ?? recipes[0];
  at("recipe").value = first.name;
  put(first);
}

function begin() {
  fillRecipes();
  for (const name of NAMES)
    sources[name].editor.area.addEventListener("input", () => {
      keepOwn();
      note("");
      soon();
    });
  for (const id of ["command", "name", "until", "strict", "stats", "limit"]) at(id).addEventListener("input", () => soon(0));
  at("share").addEventListener("click", share);
  at("save").addEventListener("click", save);
  listenToOpening();
  listenToDrops();
  window.addEventListener("hashchange", fromAddress);
  window.addEventListener("resize", () => soon(400));
  fromAddress();
}

/** For the tests: what the program answers in this page past its boxes, by bytes in base64. */
window.askProgram = async (words, specBytes, traceBytes, how) => {
  const given = [words, specBytes, traceBytes].map(it => Uint8Array.from(atob(it), c => c.charCodeAt(0)));
  const text = bytes => btoa(Array.from(bytes, it => String.fromCharCode(it)).join(""));
  const got = await asking.ask(...given, how);
  return got.out ? { status: got.status, out: text(got.out), err: text(got.err) } : got;
};

/** For the tests: a run over a trace that is given by its number of lines, with how long it took and whether it wrote what it has to. */
window.runLines = async (specText, count, how) => {
  const lines = Array.from({ length: count }, (_, k) => `${k + 1}: i = ${k + 1}\n`);
  const got = await asking.ask(["run", ...NAMES], encode(specText), encode(lines.join("")), how);
  const wanted = encode(lines.slice(1).map((_, k) => `${k + 2}: p = ${k + 1}\n`).join(""));
  const same = got.out.length === wanted.length && got.out.every((it, k) => it === wanted[k]);
  return { status: got.status, took: got.took, same };
};

begin();
