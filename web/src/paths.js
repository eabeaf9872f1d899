/** Names of files, as the program takes them. */

const MOST_NAMES = 16;
const MOST_BYTES = 255;

/**
 * Why a text is no path; an empty text where it is one.
 * @param {string} path
 */
export function faultOfPath(path) {
  const names = path.split('/');
  if (!path) return 'The name is empty.';
  if (path.startsWith('-')) return 'A name does not begin with -.';
  if (names.some((name) => name === '' || name === '.' || name === '..')) return 'A folder in it has no name, or is . or ..';
  // eslint-disable-next-line no-control-regex
  if (/[\u0000-\u001f\u007f\\]/.test(path)) return 'It has a backslash or a control character.';
  if (names.length > MOST_NAMES || new TextEncoder().encode(path).length > MOST_BYTES) return 'It is too long.';
  if (names[0] === OWN) return `The folder ${OWN} is the page's own.`;
  return '';
}

/** The folder of the page's own files in a run. */
export const OWN = '.page';

/** @param {string} path */
export function isSource(path) {
  return path.endsWith('.tal');
}

/** @param {string} path */
export function isRom(path) {
  return path.endsWith('.rom');
}
