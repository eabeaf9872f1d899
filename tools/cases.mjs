/**
 * Runs calls of uxn.wasm, each over a tree of its own: node cases.mjs FOLDER [--disk]
 *
 * FOLDER has uxn.wasm and uxn.mjs. The first line that it prints is `ready`. Each line that it reads is a call, `{words, tree}`, and each
 * line that it prints then is what came of it, `{status, out, err, after}`, or `{error}`. A tree has the bytes of each file, in
 * base64, and null for a folder, by paths with a character for each byte. It is in memory, or with --disk in the current folder.
 */
import fs from 'node:fs';
import { resolve } from 'node:path';
import { createInterface } from 'node:readline';
import { pathToFileURL } from 'node:url';

const [folder, place] = process.argv.slice(2);
const { MemoryTree, NodeTree, run } = await import(pathToFileURL(resolve(folder, 'uxn.mjs')).href);
const module = await WebAssembly.compile(fs.readFileSync(resolve(folder, 'uxn.wasm')));

/** @typedef {Record<string, string | null>} Files */

/** A sink that keeps what is written to it. */
class Kept {
  pieces = [];

  /** @param {Uint8Array} from */
  write(from) {
    this.pieces.push(Buffer.from(from));
    return from.length;
  }

  text() {
    return Buffer.concat(this.pieces).toString('base64');
  }
}

/** The bytes of the paths of a tree, each after the folder that it is in. @param {Files} files @returns {[Buffer, string | null][]} */
function inOrder(files) {
  const entries = Object.entries(files).sort(([left], [right]) => (left < right ? -1 : 1));
  return entries.map(([path, text]) => [Buffer.from(path, 'latin1'), text]);
}

/** A tree in memory, and what it holds afterwards. @param {Files} files */
function inMemory(files) {
  const tree = new MemoryTree();
  for (const [path, text] of inOrder(files)) {
    if (text === null) tree.putFolder(path);
    else tree.put(path, new Uint8Array(Buffer.from(text, 'base64')));
  }
  const after = () => {
    const found = {};
    for (const [path, bytes] of tree.all()) found[Buffer.from(path).toString('latin1')] = bytes && Buffer.from(bytes).toString('base64');
    return found;
  };
  return { tree, after };
}

/** Removes a file, or a folder with what it holds; names need not be texts. @param {Buffer} path */
function removeAll(path) {
  if (!fs.lstatSync(path).isDirectory()) return fs.unlinkSync(path);
  for (const name of fs.readdirSync(path, 'buffer')) removeAll(Buffer.concat([path, Buffer.from('/'), name]));
  return fs.rmdirSync(path);
}

/** A tree in the current folder, which is emptied first. @param {Files} files */
function onDisk(files) {
  for (const name of fs.readdirSync('.', 'buffer')) removeAll(name);
  for (const [path, text] of inOrder(files)) {
    if (text === null) fs.mkdirSync(path, { recursive: true });
    else fs.writeFileSync(path, Buffer.from(text, 'base64'));
  }
  const after = (above = '.', prefix = '', found = {}) => {
    for (const entry of fs.readdirSync(Buffer.from(above, 'latin1'), { encoding: 'buffer', withFileTypes: true })) {
      const path = prefix + entry.name.toString('latin1');
      found[path] = entry.isDirectory() ? null : fs.readFileSync(Buffer.from(path, 'latin1')).toString('base64');
      if (entry.isDirectory()) after(path, `${path}/`, found);
    }
    return found;
  };
  return { tree: new NodeTree(fs), after };
}

/** @param {{words: string[], tree: Files}} call */
function answer(call) {
  const { tree, after } = (place === '--disk' ? onDisk : inMemory)(call.tree);
  const out = new Kept();
  const err = new Kept();
  try {
    const status = run(module, { args: call.words, tree, stdout: out, stderr: err });
    return { status, out: out.text(), err: err.text(), after: after() };
  } catch (error) {
    return { error: String(error) };
  }
}

console.log('ready');
for await (const line of createInterface({ input: process.stdin })) console.log(JSON.stringify(answer(JSON.parse(line))));
