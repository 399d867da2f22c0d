// Runs inputs in a worker that can be stopped.

const MOST_MEMORY = 2 ** 31;
const FIRST_ROOM = 16 << 20;
const STOPPED = "stopped";

// The bytes of the module, which is compressed in the page.
async function moduleBytes() {
  const packed = Uint8Array.from(atob(MODULE), (letter) => letter.charCodeAt(0));
  const unpacked = new Blob([packed]).stream().pipeThrough(new DecompressionStream("gzip"));
  return new Uint8Array(await new Response(unpacked).arrayBuffer());
}

class Runner {
  constructor(module) {
    this.module = module;
    this.source = URL.createObjectURL(new Blob([document.getElementById("worker").textContent], { type: "text/javascript" }));
  }

  // Runs an input. Returns its status (STOPPED if it was stopped), the answer's bytes, the line of a fault and the milliseconds taken.
  // `most` is the maximum number of bytes of memory; `room` is the initial size of the buffer for the answer.
  run(kind, input, most = MOST_MEMORY, room = FIRST_ROOM) {
    this.stop();
    this.worker ??= this.started();
    return new Promise((done) => {
      this.done = (answered) => {
        this.done = undefined;
        done(answered);
      };
      this.worker.postMessage({ kind, input, most, room });
    });
  }

  // Starts a worker with the module. Messages from a worker that was ended are ignored, since another may be running.
  started() {
    const worker = new Worker(this.source);
    const hear = (answered) => worker === this.worker && this.done?.(answered);
    worker.onmessage = ({ data }) => hear(data);
    worker.onerror = ({ message }) => hear({ status: -1, line: 0, fault: message });
    worker.postMessage({ module: this.module });
    return worker;
  }

  // Ends the current run and its worker.
  stop() {
    if (!this.done) return;
    this.worker.terminate();
    this.worker = undefined;
    this.done({ status: STOPPED });
  }
}
