/** Runs of the program in a Worker, which can be ended. */

/** @typedef {{module: WebAssembly.Module, args: string[], files: [string, Uint8Array][], results: string[]}} Job */
/** @typedef {{path: string, bytes: Uint8Array | null}} Change  A file that a run changed; null for one that it deleted. */
/** @typedef {{status: number, milliseconds: number, own: Record<string, Uint8Array>, changed: Change[], counts: number[]}} Done */
/** @typedef {{outputs: {stream: number, bytes: Uint8Array}[], pictures: import('./pictures.js').Picture[]}} Part */

/** A run was ended by the user or by a newer one. */
export class Ended extends Error {}

/**
 * What an error says.
 * @param {unknown} error
 */
export function messageOf(error) {
  return error instanceof Error ? error.message : String(error);
}

/** A Worker for one run at a time. It is made again after a run that was ended. */
export class Machine {
  /**
   * @param {string} source
   * @param {Promise<WebAssembly.Module>} module
   */
  constructor(source, module) {
    this.url = URL.createObjectURL(new Blob([source], { type: 'text/javascript' }));
    this.module = module;
    /** @type {Worker | null} */
    this.worker = null;
    /** @type {Promise<void>} */
    this.isReady = Promise.resolve();
    /** @type {((error: Error) => void) | null} */
    this.reject = null;
    this.start();
  }

  start() {
    const worker = new Worker(this.url);
    this.worker = worker;
    this.isReady = new Promise((resolve) => {
      worker.onmessage = () => resolve();
    });
  }

  get isBusy() {
    return this.reject !== null;
  }

  /** Ends the run that goes on, if one does. */
  end() {
    if (!this.reject) return;
    const reject = this.reject;
    this.reject = null;
    this.worker?.terminate();
    this.start();
    reject(new Ended());
  }

  /**
   * Runs the program. A run that still goes on is ended.
   * @param {string[]} args
   * @param {[string, Uint8Array][]} files
   * @param {string[]} results  the names of the page's own files that it returns
   * @param {(part: Part) => void} [take]
   * @returns {Promise<Done>}
   */
  run(args, files, results, take = () => {}) {
    this.end();
    return new Promise((resolve, reject) => {
      this.reject = reject;
      const { worker } = this;
      Promise.all([this.module, this.isReady]).then(([module]) => {
        if (worker !== this.worker || !worker) return;
        worker.onmessage = ({ data }) => {
          if (data.kind === 'part') return take(data);
          this.reject = null;
          return data.kind === 'done' ? resolve(data) : reject(new Error(data.message));
        };
        worker.postMessage(/** @type {Job} */ ({ module, args, files, results }));
      }, reject);
    });
  }
}
