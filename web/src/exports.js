/** Files that other programs read: a project as a .zip, a film as an animated PNG. */
import { deflate, joined, zlib } from './archive.js';

/** @typedef {import('./film.js').Shown} Shown */
/** @typedef {import('./pictures.js').Picture} Picture */

const RATE = 60;
const MOST_DELAY = 65_535;
const MOST_COLOURS = 256;
const TABLE = Uint32Array.from({ length: 256 }, (_, number) => {
  let value = number;
  for (let bit = 0; bit < 8; bit += 1) value = value & 1 ? 0xedb88320 ^ (value >>> 1) : value >>> 1;
  return value;
});

/** @param {Uint8Array} bytes */
export function crcOf(bytes) {
  let crc = 0xffffffff;
  for (const byte of bytes) crc = TABLE[(crc ^ byte) & 0xff] ^ (crc >>> 8);
  return ~crc >>> 0;
}

/**
 * Numbers one after another, each with its size in bytes.
 * @param {[number, number][]} fields
 * @param {boolean} isLittle  whether the low byte comes first
 */
function packed(fields, isLittle) {
  const bytes = new Uint8Array(fields.reduce((sum, [size]) => sum + size, 0));
  const view = new DataView(bytes.buffer);
  let at = 0;
  for (const [size, value] of fields) {
    if (size === 4) view.setUint32(at, value, isLittle);
    else if (size === 2) view.setUint16(at, value, isLittle);
    else view.setUint8(at, value);
    at += size;
  }
  return bytes;
}

/** The first day that a .zip can name, so that the same project gives the same bytes. */
const DAY = (1 << 5) | 1;
const UTF8 = 0x800;

/**
 * A .zip of files.
 * @param {[string, Uint8Array][]} files
 */
export async function zipOf(files) {
  /** @type {Uint8Array[]} */
  const parts = [];
  /** @type {Uint8Array[]} */
  const listed = [];
  let at = 0;
  for (const [path, bytes] of files) {
    const name = new TextEncoder().encode(path);
    const data = await deflate(bytes);
    /** @type {[number, number][]} */
    const fields = [[2, 20], [2, UTF8], [2, 8], [2, 0], [2, DAY], [4, crcOf(bytes)], [4, data.length], [4, bytes.length], [2, name.length], [2, 0]];
    parts.push(packed([[4, 0x04034b50], ...fields], true), name, data);
    listed.push(packed([[4, 0x02014b50], [2, 20], ...fields, [2, 0], [2, 0], [2, 0], [4, 0], [4, at]], true), name);
    at += 30 + name.length + data.length;
  }
  const size = listed.reduce((sum, each) => sum + each.length, 0);
  const end = packed([[4, 0x06054b50], [2, 0], [2, 0], [2, files.length], [2, files.length], [4, size], [4, at], [2, 0]], true);
  return joined([...parts, ...listed, end]);
}

/**
 * A part of a PNG.
 * @param {string} name
 * @param {Uint8Array[]} content
 */
function chunk(name, ...content) {
  const body = joined([new TextEncoder().encode(name), ...content]);
  return joined([packed([[4, body.length - 4]], false), body, packed([[4, crcOf(body)]], false)]);
}

/**
 * The rows of a picture, each after the byte of its filter; what is outside of it has the first colour.
 * @param {Picture} picture
 * @param {{width: number, height: number}} size
 * @param {Map<number, number> | null} numbers  of the colours in the palette; null if each pixel has its colour
 */
function rowsOf(picture, { width, height }, numbers) {
  const bytes = numbers ? 1 : 3;
  const row = 1 + width * bytes;
  const out = new Uint8Array(row * height);
  const values = picture.colours.map((colour) => numbers?.get(colour) ?? colour);
  for (let y = 0, at = 0; y < picture.height; y += 1) {
    for (let x = 0, to = y * row + 1; x < picture.width; x += 1, at += 1, to += bytes) {
      const value = values[(picture.pixels[at >> 2] >> ((at & 3) * 2)) & 3];
      if (bytes === 1) out[to] = value;
      else [out[to], out[to + 1], out[to + 2]] = [value >> 16, (value >> 8) & 0xff, value & 0xff];
    }
  }
  return out;
}

/**
 * The different pictures of a film one after another, each with how long it is shown, in frames.
 * @param {Shown[]} shown
 */
function stillsOf(shown) {
  /** @type {{picture: Picture, frames: number}[]} */
  const stills = [];
  for (const [index, { frame, picture }] of shown.entries()) {
    const frames = (shown[index + 1]?.frame ?? frame + 1) - frame;
    const last = stills.at(-1);
    // The last picture of a frame is its picture.
    if (!frames) continue;
    if (last?.picture === picture && last.frames + frames <= MOST_DELAY) last.frames += frames;
    else stills.push({ picture, frames: Math.min(frames, MOST_DELAY) });
  }
  return stills;
}

/**
 * A film as an animated PNG, which plays without end.
 * @param {Shown[]} shown
 */
export async function filmOf(shown) {
  const stills = stillsOf(shown);
  const size = {
    width: Math.max(...stills.map(({ picture }) => picture.width)),
    height: Math.max(...stills.map(({ picture }) => picture.height)),
  };
  const colours = [...new Set(stills.flatMap(({ picture }) => picture.colours))];
  const numbers = colours.length <= MOST_COLOURS ? new Map(colours.map((colour, number) => [colour, number])) : null;
  const head = packed([[4, size.width], [4, size.height], [1, 8], [1, numbers ? 3 : 2], [1, 0], [1, 0], [1, 0]], false);
  const parts = [Uint8Array.of(0x89, 0x50, 0x4e, 0x47, 0x0d, 0x0a, 0x1a, 0x0a), chunk('IHDR', head)];
  parts.push(chunk('acTL', packed([[4, stills.length], [4, 0]], false)));
  if (numbers) parts.push(chunk('PLTE', Uint8Array.from(colours.flatMap((colour) => [colour >> 16, (colour >> 8) & 0xff, colour & 0xff]))));
  let number = 0;
  for (const [index, { picture, frames }] of stills.entries()) {
    const data = await zlib(rowsOf(picture, size, numbers));
    parts.push(chunk('fcTL', packed([[4, number], [4, size.width], [4, size.height], [4, 0], [4, 0], [2, frames], [2, RATE], [1, 0], [1, 0]], false)));
    parts.push(index ? chunk('fdAT', packed([[4, number + 1]], false), data) : chunk('IDAT', data));
    number += index ? 2 : 1;
  }
  return joined([...parts, chunk('IEND')]);
}
