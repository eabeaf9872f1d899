/** Where in the sources each byte of a ROM is from, by the listing and the symbols that the assembler writes. */
import { placeOfColumn } from './faults.js';

/** @typedef {{path: string, line: number, place: number}} Word  Line and place count from 0. */
/** @typedef {{address: number, at: Word}} Row */

const ROW = /^([0-9a-f]{4}) [0-9a-f]{2}(?: [0-9a-f]{2})* {2}(\d+):(\d+) /;

/**
 * The words of a source outside comments, and those of what it includes in place of each include.
 * @param {string} path
 * @param {Map<string, string>} texts
 * @returns {Generator<Word>}
 */
function* wordsOf(path, texts) {
  const folder = path.includes('/') ? path.slice(0, path.lastIndexOf('/') + 1) : '';
  yield* flatWords(path, folder, texts, 0);
}

/**
 * @param {string} path
 * @param {string} folder  where includes begin: that of the first source
 * @param {Map<string, string>} texts
 * @param {number} deep
 * @returns {Generator<Word>}
 */
function* flatWords(path, folder, texts, deep) {
  let depth = 0;
  for (const [line, text] of (texts.get(path) ?? '').split('\n').entries()) {
    for (const { 0: word, index } of text.matchAll(/[^\0- ]+/g)) {
      if (depth) depth += Number(word === '(') - Number(word === ')');
      else if (word.startsWith('(')) depth = 1;
      else if (word.startsWith('~') && deep < 16) yield* flatWords(folder + word.slice(1), folder, texts, deep + 1);
      else yield { path, line, place: index ?? 0 };
    }
  }
}

/**
 * The labels of a symbol file.
 * @param {Uint8Array} symbols
 */
function labelsOf(symbols) {
  /** @type {Map<string, number>} */
  const labels = new Map();
  for (let at = 0; at + 2 < symbols.length; ) {
    const end = symbols.indexOf(0, at + 2);
    const name = new TextDecoder().decode(symbols.subarray(at + 2, end));
    if (!labels.has(name)) labels.set(name, (symbols[at] << 8) | symbols[at + 1]);
    at = end + 1;
  }
  return labels;
}

export class Places {
  /**
   * @param {Row[]} rows  by rising address
   * @param {Map<string, number>} labels
   */
  constructor(rows, labels) {
    this.rows = rows;
    this.labels = labels;
  }

  static none() {
    return new Places([], new Map());
  }

  /**
   * @param {string} main
   * @param {[string, Uint8Array][]} files
   * @param {Uint8Array} listing
   * @param {Uint8Array} symbols
   */
  static read(main, files, listing, symbols) {
    const texts = new Map(files.map(([path, bytes]) => [path, new TextDecoder().decode(bytes)]));
    const own = (texts.get(main) ?? '').split('\n');
    const hasIncludes = [...wordsOf(main, texts)].some(({ path }) => path !== main);
    const words = hasIncludes ? [...wordsOf(main, texts)] : [];
    const rows = new TextDecoder().decode(listing).split('\n').flatMap((text) => {
      const [, address, line, column] = ROW.exec(text) ?? [];
      if (!address) return [];
      const number = Number(line) - 1;
      const at = hasIncludes ? words[number] : { path: main, line: number, place: placeOfColumn(own[number] ?? '', Number(column)) };
      return at ? [{ address: parseInt(address, 16), at }] : [];
    });
    return new Places(rows.sort((left, right) => left.address - right.address), labelsOf(symbols));
  }

  /**
   * The word that gave the byte at an address.
   * @param {number} address
   * @returns {Word | null}
   */
  wordAt(address) {
    let [low, high] = [0, this.rows.length];
    while (low < high) {
      const middle = (low + high) >> 1;
      if (this.rows[middle].address <= address) low = middle + 1;
      else high = middle;
    }
    const row = this.rows[low - 1];
    return row && address - row.address < 3 ? row.at : null;
  }

  /**
   * The address of the first byte of a line, or of the next line of the file that gave one.
   * @param {string} path
   * @param {number} line
   */
  addressOf(path, line) {
    const after = this.rows.filter(({ at }) => at.path === path && at.line >= line);
    const first = Math.min(...after.map(({ at }) => at.line));
    const found = after.filter(({ at }) => at.line === first);
    return found.length ? Math.min(...found.map(({ address }) => address)) : null;
  }

  /**
   * The address that a text means: four digits, or a label.
   * @param {string} text
   */
  addressOfText(text) {
    const name = text.trim().replace(/^@/, '');
    return this.labels.get(name) ?? (/^[0-9a-f]{4}$/.test(name) ? parseInt(name, 16) : null);
  }
}
