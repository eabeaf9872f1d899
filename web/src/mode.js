/** Uxntal's colours for the editor: what each word is, by docs/uxntal.md. */

import { MODED_OPCODES, PLAIN_OPCODES, RUNES } from './words.js';

const OPCODE = new RegExp(`^(${PLAIN_OPCODES.join('|')}|(${MODED_OPCODES.join('|')})[2kr]*)$`);
const DIGITS = /^([0-9a-f]{2}){1,2}$/;
const BRACE = new RegExp(`^[${RUNES}]?[{}[\\]]$`);

/** @type {[RegExp, string][]} */
const KINDS = [
  [OPCODE, 'keyword'],
  [BRACE, 'bracket'],
  [/^"/, 'string'],
  [/^#/, 'number'],
  [DIGITS, 'number'],
  [/^@/, 'def'],
  [/^&/, 'def sublabel'],
  [/^[|$]/, 'meta'],
  [/^%/, 'macro'],
  [/^~/, 'link-word'],
  [/^[!?]/, 'jump'],
  [new RegExp(`^[/${RUNES}]`), 'variable-2'],
];

/** @param {string} word */
export function kindOfWord(word) {
  return KINDS.find(([pattern]) => pattern.test(word))?.[1] ?? 'call';
}

/** The mode as CodeMirror takes it. Its state is the depth of comments. */
export const uxntalMode = {
  startState: () => ({ depth: 0 }),
  /**
   * @param {any} stream
   * @param {{depth: number}} state
   */
  token(stream, state) {
    if (stream.eatSpace()) return null;
    stream.eatWhile(/\S/);
    const word = stream.current();
    if (state.depth) {
      if (word === '(') state.depth += 1;
      if (word === ')') state.depth -= 1;
      return 'comment';
    }
    if (word.startsWith('(')) {
      state.depth = 1;
      return 'comment';
    }
    return kindOfWord(word);
  },
};

/** Scripts, setups and commands: the first word of a line says what happens. */
export const linesMode = {
  startState: () => ({}),
  /** @param {any} stream */
  token(stream) {
    const isFirst = stream.sol() || /^\s*$/.test(stream.string.slice(0, stream.pos));
    if (stream.eatSpace()) return null;
    if (isFirst && stream.peek() === '#') {
      stream.skipToEnd();
      return 'comment';
    }
    stream.eatWhile(/\S/);
    if (isFirst) return 'keyword';
    return stream.current().startsWith('"') ? 'string' : 'number';
  },
};
