/** Tries the two trees of dist/uxn.mjs: the same calls have to return the same in memory and on the disk. Prints what differs. */
import assert from 'node:assert/strict';
import fs from 'node:fs';
import { ERRORS, FILE, FOLDER, MemoryTree, NodeTree, OPEN, SystemError } from '../../dist/uxn.mjs';

const bytes = (text) => new TextEncoder().encode(text);
const WRITE = OPEN.WRONLY | OPEN.CREAT;

/** What a call returns, or the name of its error. */
function tried(call) {
  try {
    return call();
  } catch (error) {
    if (!(error instanceof SystemError)) throw error;
    assert.equal(error.number, ERRORS[error.message]);
    return error.message;
  }
}

/** All bytes of a file, read three at a time. */
function read(tree, path) {
  const file = tree.open(bytes(path), 0, 0);
  const into = new Uint8Array(3);
  let text = '';
  for (let count = file.read(into); count; count = file.read(into)) text += Buffer.from(into.subarray(0, count)).toString('latin1');
  file.close();
  return text;
}

function write(tree, path, flags, text) {
  const file = tree.open(bytes(path), flags, 0o644);
  const count = file.write(bytes(text));
  file.close();
  return count;
}

/** What a path is, without the rights and the size of a folder. */
function kind(tree, path) {
  const { mode, size } = tree.status(bytes(path), true);
  return [mode & 0o170000, (mode & 0o170000) === 0o100000 ? size : 0];
}

function list(tree, path) {
  const file = tree.open(bytes(path), OPEN.DIRECTORY, 0);
  const found = file.list().map(({ name, type }) => [Buffer.from(name).toString('latin1'), type]);
  file.close();
  return found.sort();
}

/** The calls, each with what it has to return. The tree has the file `f` and the folder `d`, with `x` and a name that is no text. */
const CALLS = [
  ['a file', (tree) => read(tree, 'f'), 'hello, world'],
  ['no file', (tree) => read(tree, 'g'), 'ENOENT'],
  ['a file in no folder', (tree) => read(tree, 'g/h'), 'ENOENT'],
  ['a file in a file', (tree) => read(tree, 'f/h'), 'ENOTDIR'],
  ['a new file in no folder', (tree) => write(tree, 'g/h', WRITE, 'x'), 'ENOENT'],
  ['a folder as a file', (tree) => read(tree, 'd'), 'EISDIR'],
  ['a folder to be written', (tree) => write(tree, 'd', OPEN.WRONLY, 'x'), 'EISDIR'],
  ['a file as a folder', (tree) => list(tree, 'f'), 'ENOTDIR'],
  ['a folder', (tree) => list(tree, 'd'), [['x', FILE], ['\xff', FILE]]],
  ['the folder that it is in', (tree) => list(tree, '.'), [['d', FOLDER], ['f', FILE]]],
  ['a name of 256 bytes', (tree) => read(tree, 'n'.repeat(256)), 'ENAMETOOLONG'],
  ['a name of 255 bytes', (tree) => read(tree, 'n'.repeat(255)), 'ENOENT'],
  ['a path of 4096 bytes', (tree) => read(tree, 'd/'.repeat(2048)), 'ENAMETOOLONG'],
  ['what a file is', (tree) => kind(tree, 'f'), [0o100000, 12]],
  ['what a folder is', (tree) => kind(tree, 'd/'), [0o40000, 0]],
  ['what nothing is', (tree) => kind(tree, 'd/y'), 'ENOENT'],
  ['a new file', (tree) => write(tree, 'd/n', WRITE, 'one'), 3],
  ['a new file that is there', (tree) => write(tree, 'd/n', WRITE | OPEN.EXCL, 'x'), 'EEXIST'],
  ['more at its end', (tree) => write(tree, 'd/n', OPEN.WRONLY | OPEN.APPEND, 'two'), 3],
  ['both', (tree) => read(tree, 'd/n'), 'onetwo'],
  ['over its beginning', (tree) => write(tree, 'd/n', OPEN.WRONLY, 'X'), 1],
  ['what is left', (tree) => read(tree, 'd/n'), 'Xnetwo'],
  ['written anew', (tree) => write(tree, 'd/n', OPEN.WRONLY | OPEN.TRUNC, 'new'), 3],
  ['what is new', (tree) => read(tree, 'd/n'), 'new'],
  ['a file that is only read', (tree) => write(tree, 'f', 0, 'x'), 'EBADF'],
  ['a place', (tree) => {
    const file = tree.open(bytes('f'), 0, 0);
    const into = new Uint8Array(2);
    const said = [file.seek(7, 0), file.read(into), file.seek(1, 1), file.seek(-1, 2), file.read(into), file.seek(0, 1)];
    return [...said, tried(() => file.seek(-1, 0)), Buffer.from(into).toString()];
  }, [7, 2, 10, 11, 1, 12, 'EINVAL', 'do']],
  ['a file that goes', (tree) => tree.unlink(bytes('d/n')), undefined],
  ['it is gone', (tree) => read(tree, 'd/n'), 'ENOENT'],
  ['a folder that stays', (tree) => tree.unlink(bytes('d')), 'EISDIR'],
  ['nothing that goes', (tree) => tree.unlink(bytes('d/n')), 'ENOENT'],
];

const strange = new Uint8Array([0x64, 0x2f, 0xff]);
const memory = new MemoryTree();
memory.put('f', bytes('hello, world'));
memory.put('d/x', bytes('x'));
memory.put(strange, bytes('y'));
fs.writeFileSync('f', 'hello, world');
fs.mkdirSync('d');
fs.writeFileSync('d/x', 'x');
fs.writeFileSync(Buffer.from(strange), 'y');

for (const [place, tree] of Object.entries({ memory, disk: new NodeTree(fs) })) {
  for (const [what, call, expected] of CALLS) assert.deepEqual(tried(() => call(tree)), expected, `${what}, in ${place}`);
}
assert.deepEqual([...memory.all()].map(([path]) => Buffer.from(path).toString('latin1')).sort(), ['d', 'd/x', 'd/\xff', 'f']);
assert.equal(Buffer.from(memory.get('f')).toString(), 'hello, world');
assert.equal(memory.get('d/n'), undefined);
