/** Where the label or macro of a word is defined. */

import { RUNES } from './words.js';

/** @typedef {{path: string, line: number, place: number}} Definition  Line and place count from 0. */

const FIRST_SIGN = new RegExp(`^[/${RUNES}]`);

/**
 * The name that a word of a source refers to.
 * @param {string} word
 * @param {string} scope
 */
function nameOf(word, scope) {
  const name = word.replace(FIRST_SIGN, '');
  if (/^[&/]/.test(name)) return `${scope}/${name.slice(1)}`;
  return word.startsWith('/') ? `${scope}/${name}` : name;
}

/**
 * The labels and macros of a source, by their full names.
 * @param {string} path
 * @param {string} text
 */
function* definitionsOf(path, text) {
  let scope = 'RESET';
  for (const [line, each] of text.split('\n').entries()) {
    for (const found of each.matchAll(/(?<!\S)([@&%])(\S+)/g)) {
      const [, rune, name] = found;
      if (rune === '@') [scope] = name.split('/');
      yield { name: rune === '&' ? `${scope}/${name}` : name, at: { path, line, place: found.index ?? 0 } };
    }
  }
}

/**
 * The scope of a place: the last label before it.
 * @param {string} text
 * @param {number} line
 */
export function scopeAt(text, line) {
  const before = text.split('\n').slice(0, line + 1).join('\n');
  return [...before.matchAll(/(?<!\S)@([^\s/]+)/g)].at(-1)?.[1] ?? 'RESET';
}

/**
 * @param {string} word
 * @param {string} scope
 * @param {[string, string][]} sources  paths and texts
 * @returns {Definition | null}
 */
export function definitionOf(word, scope, sources) {
  const name = nameOf(word, scope);
  for (const [path, text] of sources) {
    for (const each of definitionsOf(path, text)) if (each.name === name) return each.at;
  }
  return null;
}
