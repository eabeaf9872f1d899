/** The Worker: it runs the program over a tree in memory, and sends what comes out while it comes. */
import { MemoryTree, run } from '../../dist/uxn.mjs';
import { OWN } from './paths.js';
import { PictureReader } from './pictures.js';

/** @typedef {import('./machine.js').Job} Job */

const FRAMES = `${OWN}/frames`;
/** What is sent of one output stream, at most. */
const MOST_OUTPUT = 4_000_000;
const PART_BYTES = 65_536;
const PART_MILLISECONDS = 40;

/** Sends what comes in parts, so that a run of many small writes is not slowed down. */
class Sender {
  constructor() {
    /** @type {{stream: number, bytes: Uint8Array}[]} */
    this.outputs = [];
    /** @type {import('./pictures.js').Picture[]} */
    this.pictures = [];
    this.waiting = 0;
    this.sent = performance.now();
    this.counts = [0, 0, 0];
  }

  /**
   * @param {number} stream
   * @param {Uint8Array} bytes
   */
  write(stream, bytes) {
    const room = MOST_OUTPUT - this.counts[stream];
    this.counts[stream] += bytes.length;
    if (room > 0) {
      this.outputs.push({ stream, bytes: bytes.slice(0, room) });
      this.waiting += bytes.length;
    }
    this.sendIfDue();
  }

  /** @param {import('./pictures.js').Picture} picture */
  show(picture) {
    this.pictures.push(picture);
    this.sendIfDue();
  }

  sendIfDue() {
    if (this.waiting > PART_BYTES || performance.now() - this.sent > PART_MILLISECONDS) this.send();
  }

  send() {
    if (this.outputs.length || this.pictures.length) {
      postMessage({ kind: 'part', outputs: this.outputs, pictures: this.pictures });
    }
    this.outputs = [];
    this.pictures = [];
    this.waiting = 0;
    this.sent = performance.now();
  }
}

/** A tree whose pictures go to a reader as they are written, and are not kept. */
class RunTree extends MemoryTree {
  /** @param {PictureReader} reader */
  constructor(reader) {
    super();
    this.reader = reader;
  }

  /**
   * @param {Uint8Array} path
   * @param {number} flags
   */
  open(path, flags) {
    const opened = super.open(path, flags);
    if (new TextDecoder().decode(path) !== FRAMES) return opened;
    return {
      ...opened,
      write: (/** @type {Uint8Array} */ from) => {
        this.reader.take(from);
        return from.length;
      },
    };
  }
}

/**
 * The files that are new or differ from what the run began with.
 * @param {MemoryTree} tree
 * @param {Map<string, Uint8Array>} before
 */
function changes(tree, before) {
  /** @type {{path: string, bytes: Uint8Array | null}[]} */
  const changed = [];
  const there = new Set();
  for (const [name, bytes] of tree.all()) {
    const path = new TextDecoder().decode(name);
    there.add(path);
    if (!bytes || path.startsWith(`${OWN}/`)) continue;
    const old = before.get(path);
    if (!old || old.length !== bytes.length || old.some((byte, at) => byte !== bytes[at])) changed.push({ path, bytes: bytes.slice() });
  }
  for (const path of before.keys()) if (!there.has(path) && !path.startsWith(`${OWN}/`)) changed.push({ path, bytes: null });
  return changed;
}

/** @param {Job} job */
function perform(job) {
  const sender = new Sender();
  const tree = new RunTree(new PictureReader((picture) => sender.show(picture)));
  tree.putFolder(OWN);
  for (const [path, bytes] of job.files) tree.put(path, bytes.slice());
  const begun = performance.now();
  /** @param {number} stream */
  const sink = (stream) => ({
    write: (/** @type {Uint8Array} */ from) => {
      sender.write(stream, from);
      return from.length;
    },
  });
  const status = run(job.module, { args: job.args, tree, stdout: sink(1), stderr: sink(2) });
  const milliseconds = performance.now() - begun;
  sender.send();
  const own = Object.fromEntries(job.results.map((name) => [name, tree.get(`${OWN}/${name}`)?.slice() ?? new Uint8Array(0)]));
  postMessage({ kind: 'done', status, milliseconds, own, changed: changes(tree, new Map(job.files)), counts: sender.counts });
}

self.onmessage = ({ data }) => {
  try {
    perform(data);
  } catch (error) {
    postMessage({ kind: 'failed', message: error instanceof Error ? error.message : String(error) });
  }
};
postMessage({ kind: 'ready' });
