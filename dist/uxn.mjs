/**
 * The host of uxn.wasm: it answers the calls that the module imports, over a tree of files.
 *
 * `node uxn.mjs ARGUMENTS` runs the program over the files of the computer, in Node 24 or later, or in Node 20 with
 * `--experimental-wasm-memory64`. A page imports `run` and `MemoryTree`, and compiles the module itself.
 */

/** @typedef {{mode: number, size: number}} Status  The type and rights of a file, as Linux numbers them, and its size. */
/** @typedef {{name: Uint8Array, type: number}} Entry  A name in a folder and its type: one of FOLDER, FILE, LINK, OTHER. */
/**
 * What is open.
 * @typedef {object} Opened
 * @property {(into: Uint8Array) => number} read  Reads from its place on; returns how many bytes came, 0 at the end.
 * @property {(from: Uint8Array) => number} write  Writes at its place, or at the end where it was opened so.
 * @property {(offset: number, whence: number) => number} seek  Moves its place: from the beginning, the place, or the end (0, 1, 2).
 * @property {() => Status} status
 * @property {() => Entry[]} list  What a folder holds, without `.` and `..`.
 * @property {() => void} close
 */
/**
 * A tree of files. A path is bytes, since a name need not be a text. A method that fails throws a SystemError.
 * @typedef {object} Tree
 * @property {(path: Uint8Array, flags: number, mode: number) => Opened} open  `flags` has bits of OPEN.
 * @property {(path: Uint8Array, follows: boolean) => Status} status
 * @property {(path: Uint8Array) => void} unlink
 */
/** @typedef {{read: (into: Uint8Array) => number}} Source */
/** @typedef {{write: (from: Uint8Array) => number}} Sink */
/** @typedef {{args: string[], tree: Tree, stdin?: Source, stdout: Sink, stderr: Sink}} Call */

/** The errors of Linux that a tree returns, by name. */
export const ERRORS = {
  EPERM: 1, ENOENT: 2, EIO: 5, ENXIO: 6, EBADF: 9, EAGAIN: 11, ENOMEM: 12, EACCES: 13, EBUSY: 16, EEXIST: 17, ENODEV: 19, ENOTDIR: 20,
  EISDIR: 21, EINVAL: 22, ENFILE: 23, EMFILE: 24, ETXTBSY: 26, EFBIG: 27, ENOSPC: 28, ESPIPE: 29, EROFS: 30, EPIPE: 32,
  ENAMETOOLONG: 36, ELOOP: 40, ENOTSUP: 95, EDQUOT: 122,
};

/** The flags of Linux on x86-64 for opening a file. */
export const OPEN = {
  WRONLY: 1, RDWR: 2, CREAT: 0o100, EXCL: 0o200, NOCTTY: 0o400, TRUNC: 0o1000, APPEND: 0o2000, NONBLOCK: 0o4000, DIRECTORY: 0o200000,
  NOFOLLOW: 0o400000,
};

export const FOLDER = 4;
export const FILE = 8;
export const LINK = 10;
export const OTHER = 0;

const FOLDER_MODE = 0o40000;
const FILE_MODE = 0o100000;
const LINK_MODE = 0o120000;

/** An error of the system. */
export class SystemError extends Error {
  /** @param {keyof typeof ERRORS} name */
  constructor(name) {
    super(name);
    this.number = ERRORS[name];
  }
}

/** @param {keyof typeof ERRORS} name @returns {never} */
function fail(name) {
  throw new SystemError(name);
}

/** A stream that is open: it has no place, is no folder, and is not closed. @param {Partial<Source & Sink>} ends @returns {Opened} */
function streamOf(ends) {
  return {
    read: ends.read ? (into) => ends.read(into) : () => fail('EBADF'),
    write: ends.write ? (from) => ends.write(from) : () => fail('EBADF'),
    seek: () => fail('ESPIPE'),
    status: () => ({ mode: 0o10600, size: 0 }),
    list: () => fail('ENOTDIR'),
    close() {},
  };
}

/**
 * Writes what can still be read of a folder, as Linux's `getdents64` does; returns how many bytes.
 * @param {{left: Entry[], place: number}} folder
 * @param {Uint8Array} to
 */
function putEntries(folder, to) {
  const view = new DataView(to.buffer, to.byteOffset, to.byteLength);
  let at = 0;
  while (folder.left.length) {
    const { name, type } = folder.left[0];
    const size = (19 + name.length + 1 + 7) & ~7;
    if (at + size > to.length) break;
    folder.left.shift();
    folder.place += 1;
    view.setBigUint64(at, 1n, true);
    view.setBigUint64(at + 8, BigInt(folder.place), true);
    view.setUint16(at + 16, size, true);
    to.fill(0, at + 18, at + size);
    to[at + 18] = type;
    to.set(name, at + 19);
    at += size;
  }
  if (!at && folder.left.length) fail('EINVAL');
  return at;
}

/** Writes a status as Linux's `statx` does. @param {Status} status @param {Uint8Array} to */
function putStatus(status, to) {
  const view = new DataView(to.buffer, to.byteOffset, to.byteLength);
  to.fill(0);
  view.setUint32(0, 0x7ff, true);
  view.setUint32(16, 1, true);
  view.setUint16(28, status.mode, true);
  view.setBigUint64(40, BigInt(status.size), true);
}

const STATUS_BYTES = 256n;
const NO_FOLLOW = 0x100;
const SLASH = 0x2f;

/** What is open in one run, by numbers, and the calls of the module over it. */
class Host {
  /** @param {Call} call */
  constructor(call) {
    this.tree = call.tree;
    this.words = ['uxn', ...call.args].map((word) => new TextEncoder().encode(word));
    /** @type {Map<number, {opened: Opened, path: Uint8Array, listing?: {left: Entry[], place: number}}>} */
    this.files = new Map();
    [call.stdin ?? { read: () => 0 }, call.stdout, call.stderr].forEach((ends, number) => {
      this.files.set(number, { opened: streamOf(ends), path: new Uint8Array(0) });
    });
    /** @type {WebAssembly.Memory} */
    this.memory = null;
  }

  /** @param {bigint} at @param {bigint} size */
  bytes(at, size) {
    return new Uint8Array(this.memory.buffer, Number(at), Number(size));
  }

  /** The path at an address, up to a zero byte. @param {bigint} at */
  path(at) {
    const all = new Uint8Array(this.memory.buffer, Number(at));
    return all.slice(0, all.indexOf(0));
  }

  /** @param {number} number */
  file(number) {
    return this.files.get(number) ?? fail('EBADF');
  }

  /**
   * The path that a call means: beneath the folder that is open as `number`, or as it is.
   * @param {number} number
   * @param {Uint8Array} path
   */
  pathFrom(number, path) {
    return number < 0 || path[0] === SLASH ? path : new Uint8Array([...this.file(number).path, SLASH, ...path]);
  }

  /** @param {number} folder @param {bigint} at @param {number} flags @param {number} mode */
  open(folder, at, flags, mode) {
    const path = this.pathFrom(folder, this.path(at));
    const opened = this.tree.open(path, flags, mode);
    let number = 3;
    while (this.files.has(number)) number += 1;
    this.files.set(number, { opened, path });
    return number;
  }

  /** @param {number} number */
  close(number) {
    this.file(number).opened.close();
    this.files.delete(number);
    return 0;
  }

  /** @param {number} folder @param {bigint} at @param {number} flags @param {bigint} to */
  status(folder, at, flags, to) {
    const path = this.path(at);
    const status = path.length || folder < 0
      ? this.tree.status(this.pathFrom(folder, path), !(flags & NO_FOLLOW))
      : this.file(folder).opened.status();
    putStatus(status, this.bytes(to, STATUS_BYTES));
    return 0;
  }

  /** @param {number} number @param {bigint} to @param {bigint} size */
  list(number, to, size) {
    const file = this.file(number);
    file.listing ??= { left: file.opened.list(), place: 0 };
    return putEntries(file.listing, this.bytes(to, size));
  }

  /** @param {bigint} at @param {bigint} to @param {bigint} size */
  argument(at, to, size) {
    const word = this.words[Number(at)];
    if (!word) return -1;
    this.bytes(to, size).set(word.subarray(0, Number(size)));
    return word.length;
  }

  /** The functions that the module imports. */
  imports() {
    /** @param {(...words: any[]) => number} call */
    const answered = (call) => (...words) => {
      try {
        return BigInt(call(...words));
      } catch (error) {
        if (error instanceof SystemError) return BigInt(-error.number);
        throw error;
      }
    };
    return {
      read: answered((number, to, size) => this.file(number).opened.read(this.bytes(to, size))),
      write: answered((number, from, size) => this.file(number).opened.write(this.bytes(from, size))),
      open: answered((folder, at, flags, mode) => this.open(folder, at, flags, mode)),
      close: answered((number) => this.close(number)),
      seek: answered((number, offset, whence) => this.file(number).opened.seek(Number(offset), whence)),
      status: answered((folder, at, flags, mask, to) => this.status(folder, at, flags, to)),
      list: answered((number, to, size) => this.list(number, to, size)),
      unlink: answered((at) => (this.tree.unlink(this.path(at)), 0)),
      argument_count: answered(() => this.words.length),
      argument: answered((at, to, size) => this.argument(at, to, size)),
    };
  }
}

/**
 * Runs the program once and returns its exit status. What the program has no room or no stack for throws an error of WebAssembly.
 * @param {WebAssembly.Module} module  uxn.wasm, compiled
 * @param {Call} call
 */
export function run(module, call) {
  const host = new Host(call);
  const { exports } = new WebAssembly.Instance(module, { host: host.imports() });
  host.memory = /** @type {WebAssembly.Memory} */ (exports.memory);
  return /** @type {() => number} */ (exports.run)() & 255;
}

/** @typedef {{entries: Map<string, Node>}} MemoryFolder  What a folder holds, by names as `keyOf` has them. */
/** @typedef {{bytes: Uint8Array, size: number}} MemoryFile  The file's bytes are the first `size` of `bytes`. */
/** @typedef {MemoryFolder | MemoryFile} Node */

const MOST_NAME = 255;
const MOST_PATH = 4095;

/** A path as a string with a character for each byte. @param {string | Uint8Array} path */
function keyOf(path) {
  let key = '';
  for (const byte of typeof path === 'string' ? new TextEncoder().encode(path) : path) key += String.fromCharCode(byte);
  return key;
}

/** The bytes of what `keyOf` returned. @param {string} key */
function bytesOf(key) {
  return Uint8Array.from(key, (sign) => sign.charCodeAt(0));
}

/** A tree in memory, whose root is the current folder and `/`. A path is a text or bytes. */
export class MemoryTree {
  constructor() {
    /** @type {MemoryFolder} */
    this.root = { entries: new Map() };
  }

  /** Puts a file there, with the folders that it lies in. @param {string | Uint8Array} path @param {Uint8Array} bytes */
  put(path, bytes) {
    const { folder, name } = this.#above(path, true);
    folder.entries.set(name, { bytes, size: bytes.length });
  }

  /** Puts an empty folder there, if none is. @param {string | Uint8Array} path */
  putFolder(path) {
    const { folder, name } = this.#above(path, true);
    if (name && !folder.entries.has(name)) folder.entries.set(name, { entries: new Map() });
  }

  /** The bytes of a file; undefined where there is none. @param {string | Uint8Array} path */
  get(path) {
    const { folder, name } = this.#above(path, false);
    const node = folder.entries.get(name);
    return node && 'bytes' in node ? node.bytes.subarray(0, node.size) : undefined;
  }

  /** Each path, as bytes, with the bytes of the file, or null for a folder. @returns {Generator<[Uint8Array, Uint8Array | null]>} */
  * all(folder = this.root, above = '') {
    for (const [name, node] of folder.entries) {
      if ('entries' in node) {
        yield [bytesOf(above + name), null];
        yield* this.all(node, `${above}${name}/`);
      } else {
        yield [bytesOf(above + name), node.bytes.subarray(0, node.size)];
      }
    }
  }

  /**
   * The folder that a path lies in, and its last name: '' for the root and for a path that ends in `/`, `.` or `..`.
   * @param {string | Uint8Array} path
   * @param {boolean} makes  whether folders that are not there are made
   */
  #above(path, makes) {
    const names = keyOf(path).split('/');
    if (!path.length) fail('ENOENT');
    if (names.join('/').length > MOST_PATH || names.some((name) => name.length > MOST_NAME)) fail('ENAMETOOLONG');
    const last = names[names.length - 1];
    const isStep = last === '.' || last === '..';
    const way = [this.root];
    for (const name of isStep ? names : names.slice(0, -1)) {
      const here = way[way.length - 1];
      if (name === '' || name === '.') continue;
      if (name === '..') {
        if (way.length > 1) way.pop();
        continue;
      }
      if (makes && !here.entries.has(name)) here.entries.set(name, { entries: new Map() });
      const node = here.entries.get(name) ?? fail('ENOENT');
      way.push('entries' in node ? node : fail('ENOTDIR'));
    }
    return { folder: way[way.length - 1], name: isStep ? '' : last };
  }

  /** @param {Uint8Array} path */
  #node(path) {
    const { folder, name } = this.#above(path, false);
    return name ? folder.entries.get(name) : folder;
  }

  /** @param {Uint8Array} path @param {number} flags @returns {Opened} */
  open(path, flags) {
    let node = this.#node(path);
    if (!node) {
      if (!(flags & OPEN.CREAT)) fail('ENOENT');
      node = { bytes: new Uint8Array(0), size: 0 };
      const { folder, name } = this.#above(path, false);
      folder.entries.set(name, node);
    } else if ((flags & OPEN.CREAT) && (flags & OPEN.EXCL)) {
      fail('EEXIST');
    }
    if ('entries' in node) return openedFolder(node, flags);
    if (flags & OPEN.DIRECTORY) fail('ENOTDIR');
    if (flags & OPEN.TRUNC) node.size = 0;
    return openedFile(node, flags);
  }

  /** @param {Uint8Array} path */
  status(path) {
    return statusOf(this.#node(path) ?? fail('ENOENT'));
  }

  /** @param {Uint8Array} path */
  unlink(path) {
    const node = this.#node(path) ?? fail('ENOENT');
    if ('entries' in node) fail('EISDIR');
    const { folder, name } = this.#above(path, false);
    folder.entries.delete(name);
  }
}

/** @param {Node} node @returns {Status} */
function statusOf(node) {
  return 'entries' in node ? { mode: FOLDER_MODE | 0o755, size: 4096 } : { mode: FILE_MODE | 0o644, size: node.size };
}

/** @param {MemoryFolder} node @param {number} flags @returns {Opened} */
function openedFolder(node, flags) {
  if (flags & (OPEN.WRONLY | OPEN.RDWR | OPEN.CREAT)) fail('EISDIR');
  return {
    read: () => fail('EISDIR'),
    write: () => fail('EBADF'),
    seek: () => 0,
    status: () => statusOf(node),
    list: () => [...node.entries].map(([name, each]) => ({ name: bytesOf(name), type: 'entries' in each ? FOLDER : FILE })),
    close() {},
  };
}

/** @param {MemoryFile} node @param {number} flags @returns {Opened} */
function openedFile(node, flags) {
  let place = 0;
  return {
    read(into) {
      const count = Math.max(0, Math.min(into.length, node.size - place));
      into.set(node.bytes.subarray(place, place + count));
      place += count;
      return count;
    },
    write(from) {
      if (!(flags & (OPEN.WRONLY | OPEN.RDWR))) fail('EBADF');
      if (flags & OPEN.APPEND) place = node.size;
      const end = place + from.length;
      if (end > node.bytes.length) {
        const more = new Uint8Array(Math.max(end, node.bytes.length * 2));
        more.set(node.bytes.subarray(0, node.size));
        node.bytes = more;
      }
      node.bytes.fill(0, node.size, Math.max(node.size, place));
      node.bytes.set(from, place);
      node.size = Math.max(node.size, end);
      place = end;
      return from.length;
    },
    seek(offset, whence) {
      const to = offset + [0, place, node.size][whence];
      if (to < 0) fail('EINVAL');
      place = to;
      return place;
    },
    status: () => statusOf(node),
    list: () => fail('ENOTDIR'),
    close() {},
  };
}

/** The files of the computer, by Node. */
export class NodeTree {
  /** @param {typeof import('node:fs')} fs */
  constructor(fs) {
    this.fs = fs;
  }

  /** What a call of Node returns; its error is one of the system. @template T @param {() => T} call @returns {T} */
  #answered(call) {
    try {
      return call();
    } catch (error) {
      if (typeof error?.code !== 'string') throw error;
      return fail(error.code in ERRORS ? error.code : 'EIO');
    }
  }

  /** @param {Uint8Array} path @param {number} flags @param {number} mode @returns {Opened} */
  open(path, flags, mode) {
    const { constants } = this.fs;
    let here = 0;
    for (const [name, bit] of Object.entries(OPEN)) if (flags & bit) here |= constants[`O_${name}`] ?? 0;
    const number = this.#answered(() => this.fs.openSync(Buffer.from(path), here, mode));
    return this.#opened(number, Buffer.from(path), flags);
  }

  /**
   * Node has no call that moves a file's place, so the place is held here.
   * @param {number} number
   * @param {Buffer} path
   * @param {number} flags
   * @returns {Opened}
   */
  #opened(number, path, flags) {
    const { fs } = this;
    const first = this.#answered(() => fs.fstatSync(number));
    let place = first.isFile() ? 0 : null;
    const moved = (/** @type {number} */ count) => {
      if (place !== null) place += count;
      return count;
    };
    return {
      read: (into) => moved(this.#answered(() => fs.readSync(number, into, 0, into.length, place))),
      write: (from) => {
        const at = flags & OPEN.APPEND ? null : place;
        return moved(this.#answered(() => fs.writeSync(number, from, 0, from.length, at)));
      },
      seek: (offset, whence) => {
        if (place === null) fail('ESPIPE');
        const to = offset + (whence === 0 ? 0 : whence === 1 ? place : fs.fstatSync(number).size);
        if (to < 0) fail('EINVAL');
        place = to;
        return place;
      },
      status: () => statusOfNode(this.#answered(() => fs.fstatSync(number))),
      list: () => this.#list(path),
      close: () => this.#answered(() => fs.closeSync(number)),
    };
  }

  /** @param {Buffer} path @returns {Entry[]} */
  #list(path) {
    const found = this.#answered(() => this.fs.readdirSync(path, { encoding: 'buffer', withFileTypes: true }));
    return found.map((each) => ({
      name: /** @type {Uint8Array} */ (/** @type {unknown} */ (each.name)),
      type: each.isDirectory() ? FOLDER : each.isFile() ? FILE : each.isSymbolicLink() ? LINK : OTHER,
    }));
  }

  /** @param {Uint8Array} path @param {boolean} follows */
  status(path, follows) {
    const bytes = Buffer.from(path);
    return statusOfNode(this.#answered(() => (follows ? this.fs.statSync(bytes) : this.fs.lstatSync(bytes))));
  }

  /** @param {Uint8Array} path */
  unlink(path) {
    this.#answered(() => this.fs.unlinkSync(Buffer.from(path)));
  }

  /** One of the streams that the process was given. @param {number} number @returns {Source & Sink} */
  stream(number) {
    return {
      read: (into) => this.#answered(() => this.fs.readSync(number, into, 0, into.length, null)),
      write: (from) => this.#answered(() => this.fs.writeSync(number, from, 0, from.length, null)),
    };
  }
}

/** Linux's types and rights of a file, which other systems number alike. @param {import('node:fs').Stats} stats @returns {Status} */
function statusOfNode(stats) {
  const type = stats.isDirectory() ? FOLDER_MODE : stats.isFile() ? FILE_MODE : stats.isSymbolicLink() ? LINK_MODE : stats.mode & 0o170000;
  return { mode: type | (stats.mode & 0o7777), size: stats.size };
}

const NOT_STARTED = 200;
const ENDED_BY_TRAP = 201;

/** Runs the program over the computer's files. @param {string[]} args @returns {Promise<number>} the exit status */
async function main(args) {
  const fs = await import('node:fs');
  const tree = new NodeTree(fs);
  let module;
  try {
    module = await WebAssembly.compile(fs.readFileSync(new URL('uxn.wasm', import.meta.url)));
  } catch (error) {
    const why = error instanceof WebAssembly.CompileError
      ? 'this Node does not compile uxn.wasm: take Node 24, or Node 20 with --experimental-wasm-memory64'
      : `dist/uxn.wasm cannot be read: ${error.code ?? error.message}`;
    fs.writeSync(2, `uxn: ${why}\n`);
    return NOT_STARTED;
  }
  try {
    return run(module, { args, tree, stdin: tree.stream(0), stdout: tree.stream(1), stderr: tree.stream(2) });
  } catch (error) {
    if (!(error instanceof WebAssembly.RuntimeError || error instanceof RangeError)) throw error;
    fs.writeSync(2, `uxn: the program was ended: ${error.message}\n`);
    return ENDED_BY_TRAP;
  }
}

/** Whether Node was given this file to run. */
async function isProgram() {
  if (!globalThis.process?.versions?.node || !process.argv[1]) return false;
  const [{ realpathSync }, { fileURLToPath }] = await Promise.all([import('node:fs'), import('node:url')]);
  try {
    return realpathSync(process.argv[1]) === realpathSync(fileURLToPath(import.meta.url));
  } catch {
    return false;
  }
}

if (await isProgram()) process.exitCode = await main(process.argv.slice(2));
