/** The refusals of the program: where each is, and what it means. */

import { MEANINGS } from './words.js';

/** @typedef {{path: string, line: number, column: number, kind: string, word: string}} Fault  Lines and columns count from 1. */

/** @param {string} kind */
export function meaningOf(kind) {
  return Object.hasOwn(MEANINGS, kind) ? MEANINGS[/** @type {keyof typeof MEANINGS} */ (kind)] : kind;
}

/**
 * The fault of a source that a refusal names; null where it names none.
 * @param {string} text
 * @param {string} main
 */
export function sourceFault(text, main) {
  const found = /^source (?:(.*) )?(\d+):(\d+): (\w+):(?: (.*))?$/.exec(text.trimEnd());
  if (!found) return null;
  const [, path, line, column, kind, word] = found;
  return { path: path ?? main, line: Number(line), column: Number(column), kind, word: word ?? '' };
}

/**
 * @param {string} text
 * @returns {{line: number, kind: string} | null}
 */
export function scriptFault(text) {
  const found = /^script (\d+): (\w+)$/.exec(text.trimEnd());
  return found && { line: Number(found[1]), kind: found[2] };
}

/**
 * The place in a line, in characters, that a column of bytes means.
 * @param {string} line
 * @param {number} column
 */
export function placeOfColumn(line, column) {
  let bytes = 0;
  let place = 0;
  for (const sign of line) {
    if (bytes >= column - 1) break;
    bytes += new TextEncoder().encode(sign).length;
    place += sign.length;
  }
  return place;
}
