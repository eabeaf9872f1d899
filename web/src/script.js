/** Scripts: what the fields add to one, and the pictures that make a film of its run. */

/** @typedef {{args: string, input: string, ends: boolean, clock: string, frames: string}} Fields */
/** @typedef {{frame: number, line: number, text: string}} Happening  An event that is no frame, at the frame before it. */
/**
 * What is run: the text, where each of its lines is from, the frame of each picture (null for a picture of the script's own), and
 * what happens in it.
 * @typedef {object} Composed
 * @property {string} text
 * @property {(number | string)[]} origins  For each line of the text, its line in the script, or the name of a field.
 * @property {(number | null)[]} shots
 * @property {Happening[]} happenings
 * @property {number} frames
 */

/** The pictures of a film, at most. */
export const MOST_PICTURES = 20000;
const HEADS = ['script', 'clock', 'args'];

/**
 * A text as the words of an `input` or `args` line.
 * @param {string} text
 */
export function textWords(text) {
  /** @type {string[]} */
  const words = [];
  let open = false;
  for (const byte of new TextEncoder().encode(text)) {
    if (byte > 0x20 && byte < 0x7f) {
      if (!open) words.push('"');
      words[words.length - 1] += String.fromCharCode(byte);
      open = true;
    } else {
      words.push(byte.toString(16).padStart(2, '0'));
      open = false;
    }
  }
  return words.join(' ');
}

/**
 * The arguments of a field: words, or texts in double quotes.
 * @param {string} text
 */
export function argumentsOf(text) {
  return [...text.matchAll(/"([^"]*)"|(\S+)/g)].map((found) => found[1] ?? found[2]);
}

/**
 * The line of a date and time of a field, as UTC.
 * @param {string} value
 */
function clockLine(value) {
  const seconds = Math.floor(Date.parse(`${value}Z`) / 1000);
  return Number.isFinite(seconds) && seconds >= 0 ? `clock ${seconds} 0` : '';
}

/**
 * One argument as a single value of an `args` line.
 * @param {string} text
 */
function argumentValue(text) {
  const bytes = new TextEncoder().encode(text);
  if (bytes.every((byte) => byte > 0x20)) return `"${text}`;
  return [...bytes].map((byte) => byte.toString(16).padStart(2, '0')).join('');
}

/**
 * The lines that fields add: before all events, and as the first ones.
 * @param {Fields} fields
 */
function linesOf(fields) {
  /** @type {[string, string][]} */
  const head = [];
  /** @type {[string, string][]} */
  const first = [];
  const clock = fields.clock && clockLine(fields.clock);
  const given = argumentsOf(fields.args);
  if (clock) head.push([clock, 'Clock']);
  if (given.length) head.push([`args ${given.map(argumentValue).join(' ')}`, 'Arguments']);
  if (fields.input) first.push([`input ${textWords(fields.input)}`, 'Console input']);
  if (fields.ends) first.push(['end', 'Console input']);
  return { head, first };
}

/** A script that grows line by line, with pictures. */
class Composer {
  constructor() {
    /** @type {string[]} */
    this.lines = [];
    /** @type {(number | string)[]} */
    this.origins = [];
    /** @type {(number | null)[]} */
    this.shots = [];
    /** @type {Happening[]} */
    this.happenings = [];
    this.frame = 0;
    this.isShown = false;
  }

  /**
   * @param {string} line
   * @param {number | string} origin
   */
  put(line, origin) {
    this.lines.push(line);
    this.origins.push(origin);
  }

  /**
   * A picture of the film.
   * @param {number | string} origin
   */
  shoot(origin) {
    if (this.shots.length >= MOST_PICTURES) return;
    this.put('shot', origin);
    this.shots.push(this.frame);
    this.isShown = true;
  }

  /**
   * So many frames, each with its picture.
   * @param {number} count
   * @param {number | string} origin
   */
  playFrames(count, origin) {
    let left = count;
    for (; left && this.shots.length < MOST_PICTURES; left -= 1) {
      this.put('frame', origin);
      this.frame += 1;
      this.shoot(origin);
    }
    if (left) this.put(`frame ${left}`, origin);
    this.frame += left;
  }

  /**
   * An event that is no frame.
   * @param {string} line
   * @param {number | string} origin
   */
  happen(line, origin) {
    if (/^\s*shot\s*$/.test(line)) this.shots.push(null);
    this.put(line, origin);
    this.isShown = false;
    const text = line.trim();
    if (typeof origin === 'number' && text) this.happenings.push({ frame: this.frame, line: origin, text });
  }
}

/**
 * The number of frames of a line; 0 where it is none, or not of its form.
 * @param {string[]} words
 */
function framesOf(words) {
  if (words[0] !== 'frame' || words.length > 2) return 0;
  return words.length === 1 ? 1 : /^[1-9][0-9]{0,6}$/.test(words[1]) ? Number(words[1]) : 0;
}

/**
 * The script of a film: the script, what the fields add, and a picture before the first event, after each frame and at the end.
 * @param {string} script
 * @param {Fields} fields
 * @returns {Composed}
 */
export function composeFilm(script, fields) {
  const made = new Composer();
  const { head, first } = linesOf(fields);
  let isHead = true;
  const begin = () => {
    isHead = false;
    made.shoot('the first picture');
    for (const [line, field] of first) made.happen(line, field);
  };
  const lines = script.split('\n');
  const version = lines.findIndex((line) => /^[\t\r ]*[^#\t\r ]/.test(line));
  const isVersioned = version >= 0 && /^[\t\r ]*script(\s|$)/.test(lines[version]);
  if (!isVersioned) for (const [line, field] of head) made.put(line, field);
  lines.forEach((line, index) => {
    const words = line.split(/[\t\r ]+/).filter(Boolean);
    if (!words.length || words[0].startsWith('#')) return;
    if (isHead && !HEADS.includes(words[0])) begin();
    const count = framesOf(words);
    if (count) made.playFrames(count, index + 1);
    else if (isHead) made.put(line, index + 1);
    else made.happen(line, index + 1);
    if (isVersioned && index === version) for (const [added, field] of head) made.put(added, field);
  });
  if (isHead) begin();
  made.playFrames(/^[0-9]{1,6}$/.test(fields.frames) ? Number(fields.frames) : 0, 'Frames');
  if (!made.isShown) made.shoot('the last picture');
  const { origins, shots, happenings, frame } = made;
  return { text: `${made.lines.join('\n')}\n`, origins, shots, happenings, frames: frame };
}

/**
 * A report without the pictures of the film, which are events too.
 * @param {string} report
 * @param {(number | null)[]} shots
 */
export function reportWithoutFilm(report, shots) {
  const taken = Number(/^shots (\d+)$/m.exec(report)?.[1] ?? 0);
  const own = shots.slice(0, taken).filter((frame) => frame !== null).length;
  return report
    .replace(/^events (\d+)$/m, (_, count) => `events ${Number(count) - own}`)
    .replace(/^shots (\d+)$/m, (_, count) => `shots ${Number(count) - own}`);
}

/**
 * The script of a run without its film: with what the fields add.
 * @param {string} script
 * @param {Fields} fields
 */
export function composeScript(script, fields) {
  return scriptOfFilm(composeFilm(script, fields));
}

/**
 * The lines of a composed script without the pictures of the film.
 * @param {Composed} composed
 */
function scriptOfFilm({ text, shots }) {
  let shot = 0;
  const lines = text.split('\n').filter((line) => {
    if (!/^\s*shot\s*$/.test(line)) return true;
    shot += 1;
    return shots[shot - 1] === null;
  });
  return joinedFrames(lines);
}

/**
 * Lines with `frame` lines that follow each other as one.
 * @param {string[]} lines
 */
function joinedFrames(lines) {
  /** @type {string[]} */
  const made = [];
  let waiting = 0;
  for (const line of lines) {
    const count = framesOf(line.split(/[\t\r ]+/).filter(Boolean));
    if (!count && waiting) made.push(waiting === 1 ? 'frame' : `frame ${waiting}`);
    waiting = count ? waiting + count : 0;
    if (!count) made.push(line);
  }
  if (waiting) made.push(waiting === 1 ? 'frame' : `frame ${waiting}`);
  return made.join('\n');
}

/**
 * The lines of a script before the frame that follows this one.
 * @param {string} script
 * @param {number} frame
 */
export function scriptUpTo(script, frame) {
  /** @type {string[]} */
  const made = [];
  let left = frame;
  for (const line of script.split('\n')) {
    const count = framesOf(line.split(/[\t\r ]+/).filter(Boolean));
    if (count > left) {
      if (left) made.push(left === 1 ? 'frame' : `frame ${left}`);
      break;
    }
    left -= count;
    made.push(line);
  }
  return made.join('\n');
}
