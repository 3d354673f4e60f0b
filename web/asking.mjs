// Asking the program in a worker, with a limit of time.

/** The bytes of a text of the page, as base64. */
function bytesOf(text) {
  return Uint8Array.from(atob(text.replace(/\s/g, "")), it => it.charCodeAt(0));
}

/** The module of the page, which is kept in it compressed. */
async function moduleOf(text) {
  const stream = new Blob([bytesOf(text)]).stream().pipeThrough(new DecompressionStream("gzip"));
  return WebAssembly.compile(await new Response(stream).arrayBuffer());
}

export class Asking {
  constructor(module, script) {
    this.module = moduleOf(module);
    this.script = URL.createObjectURL(new Blob([script], { type: "text/javascript" }));
    this.number = 0;
    // The worker that stands ready, or will, and the question that is open.
    this.worker = null;
    this.open = null;
  }

  async fresh() {
    const module = await this.module;
    const worker = new Worker(this.script);
    worker.postMessage({ module });
    return worker;
  }

  /** Ends the open question, answers it by this, and gives the worker up. */
  stop(answer) {
    if (!this.open) return;
    const { resolve, worker } = this.close();
    worker.terminate();
    this.worker = null;
    resolve(answer);
  }

  close() {
    const open = this.open;
    clearTimeout(open.timer);
    this.open = null;
    return open;
  }

  /**
   * Asks the program. An earlier question that is still open is given up, and answers null. `seconds` is the limit of time, 0 for none; past
   * it the answer is `{ stopped: true }`. Where the browser has ended the program, it is `{ ended: WHY }`. `tells` is called with about how
   * many milliseconds a long run will take. It throws where the program does not start.
   */
  async ask(words, spec, trace, { seconds = 0, tells, most } = {}) {
    this.stop(null);
    const id = ++this.number;
    this.worker ??= this.fresh();
    const worker = await this.worker;
    if (id !== this.number) return null;
    return new Promise((resolve, reject) => {
      this.open = { resolve, worker, timer: seconds ? setTimeout(() => this.stop({ stopped: true }), 1000 * seconds) : 0 };
      worker.onmessage = ({ data }) => {
        if (data.id !== id || !this.open) return;
        if (data.takes !== undefined) tells?.(data.takes);
        else this.close().resolve(data);
      };
      worker.onerror = event => {
        event.preventDefault();
        this.worker = null;
        if (this.open) this.close();
        reject(new Error(event.message || "its worker was not started"));
      };
      worker.postMessage({ id, words, spec, trace, most });
    });
  }
}
