// Runs commands in a worker, one at a time, so that the page answers its reader meanwhile and a run can be ended.

export class Stopped extends Error {}

export class Runner {
  // The module of the program, and where the text of the worker is.
  constructor(module, source) {
    Object.assign(this, { module, source, worker: null, pending: null });
  }

  // Answers a command over an input of bytes; throws Stopped where stop() ended it.
  run(words, input) {
    if (this.pending) throw new Error("a command runs already");
    this.worker ??= this.started();
    return new Promise((resolve, reject) => {
      this.pending = reject;
      const settle = (how, value) => {
        this.pending = null;
        how(value);
      };
      this.worker.onmessage = ({ data }) =>
        (data.failed ? settle(reject, new Error(data.failed)) : settle(resolve, data));
      this.worker.onerror = (event) => settle(reject, new Error(event.message || "the worker failed"));
      this.worker.postMessage({ words, input });
    });
  }

  started() {
    const worker = new Worker(this.source);
    worker.postMessage({ module: this.module });
    return worker;
  }

  stop() {
    this.worker?.terminate();
    this.worker = null;
    const reject = this.pending;
    this.pending = null;
    reject?.(new Stopped());
  }
}
