/** Bytes as text and back, and compressed by the browser's own streams. */

/**
 * @param {Uint8Array} bytes
 * @returns {string}
 */
export function toBase64(bytes) {
  let signs = '';
  for (let at = 0; at < bytes.length; at += 8192) signs += String.fromCharCode(...bytes.subarray(at, at + 8192));
  return btoa(signs);
}

/**
 * @param {string} text
 * @returns {Uint8Array}
 */
export function fromBase64(text) {
  const signs = atob(text);
  const bytes = new Uint8Array(signs.length);
  for (let at = 0; at < signs.length; at += 1) bytes[at] = signs.charCodeAt(at);
  return bytes;
}

/**
 * Base64 with the signs that a link holds as they are.
 * @param {Uint8Array} bytes
 */
export function toLinkText(bytes) {
  return toBase64(bytes).replaceAll('+', '-').replaceAll('/', '_').replace(/=+$/, '');
}

/** @param {string} text */
export function fromLinkText(text) {
  return fromBase64(text.replaceAll('-', '+').replaceAll('_', '/'));
}

/**
 * What comes out of a stream that bytes go through, up to a limit.
 * @param {{readable: ReadableStream, writable: WritableStream}} stream
 * @param {Uint8Array} bytes
 * @param {number} most
 */
async function through(stream, bytes, most) {
  const reader = new Blob([bytes]).stream().pipeThrough(stream).getReader();
  /** @type {Uint8Array[]} */
  const parts = [];
  let size = 0;
  for (let part = await reader.read(); !part.done; part = await reader.read()) {
    parts.push(part.value);
    size += part.value.length;
    if (size > most) {
      await reader.cancel();
      throw new RangeError('too many bytes');
    }
  }
  return joined(parts);
}

/** @param {Uint8Array[]} parts */
export function joined(parts) {
  const all = new Uint8Array(parts.reduce((sum, part) => sum + part.length, 0));
  let at = 0;
  for (const part of parts) {
    all.set(part, at);
    at += part.length;
  }
  return all;
}

/** @param {Uint8Array} bytes */
export function deflate(bytes) {
  return through(new CompressionStream('deflate-raw'), bytes, Infinity);
}

/**
 * Compressed bytes with the head and the sum that a PNG has.
 * @param {Uint8Array} bytes
 */
export function zlib(bytes) {
  return through(new CompressionStream('deflate'), bytes, Infinity);
}

/**
 * What was compressed; more than `most` bytes are refused.
 * @param {Uint8Array} bytes
 * @param {number} most
 */
export function inflate(bytes, most) {
  return through(new DecompressionStream('deflate-raw'), bytes, most);
}
