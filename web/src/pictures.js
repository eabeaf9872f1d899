/** The pictures of a run: PPM files one after another, kept as four colours with two bits for each pixel. */

/**
 * A picture. Its pixels are numbers of its colours, four in a byte, the first in the lowest bits.
 * @typedef {{width: number, height: number, colours: number[], pixels: Uint8Array}} Picture
 */

const HEAD_BYTES = 64;
const NEWLINE = 0x0a;

/** Reads pictures from bytes that come in parts. */
export class PictureReader {
  /** @param {(picture: Picture) => void} take */
  constructor(take) {
    this.whole = take;
    this.head = '';
    this.lines = 0;
    /** @type {Uint8Array} */
    this.body = new Uint8Array(0);
    this.filled = 0;
    this.width = 0;
    this.height = 0;
  }

  /** @param {Uint8Array} bytes */
  take(bytes) {
    let at = 0;
    while (at < bytes.length) at = this.lines < 3 ? this.takeHead(bytes, at) : this.takeBody(bytes, at);
  }

  /**
   * @param {Uint8Array} bytes
   * @param {number} at
   */
  takeHead(bytes, at) {
    const sign = bytes[at];
    this.head += String.fromCharCode(sign);
    if (this.head.length > HEAD_BYTES) throw new Error('a picture has another form');
    if (sign === NEWLINE) this.lines += 1;
    if (this.lines === 3) {
      const [, width, height] = /^P6\n(\d+) (\d+)\n255\n$/.exec(this.head) ?? [];
      if (!width) throw new Error('a picture has another form');
      this.width = Number(width);
      this.height = Number(height);
      const size = this.width * this.height * 3;
      if (this.body.length !== size) this.body = new Uint8Array(size);
      this.filled = 0;
    }
    return at + 1;
  }

  /**
   * @param {Uint8Array} bytes
   * @param {number} at
   */
  takeBody(bytes, at) {
    const part = bytes.subarray(at, at + this.body.length - this.filled);
    this.body.set(part, this.filled);
    this.filled += part.length;
    if (this.filled === this.body.length) {
      this.whole(packed(this.width, this.height, this.body));
      this.head = '';
      this.lines = 0;
    }
    return at + part.length;
  }
}

/**
 * @param {number} width
 * @param {number} height
 * @param {Uint8Array} rgb
 * @returns {Picture}
 */
function packed(width, height, rgb) {
  const count = width * height;
  const pixels = new Uint8Array((count + 3) >> 2);
  /** @type {number[]} */
  const colours = [];
  let last = -1;
  let number = 0;
  for (let at = 0, from = 0; at < count; at += 1, from += 3) {
    const colour = (rgb[from] << 16) | (rgb[from + 1] << 8) | rgb[from + 2];
    if (colour !== last) {
      last = colour;
      number = colours.indexOf(colour);
      if (number < 0) number = colours.push(colour) - 1;
      if (number > 3) throw new Error('a picture has more than four colours');
    }
    pixels[at >> 2] |= number << ((at & 3) * 2);
  }
  return { width, height, colours, pixels };
}

/**
 * The pixels of a picture as a canvas has them: red, green, blue and 255.
 * @param {Picture} picture
 */
export function rgbaOf({ width, height, colours, pixels }) {
  const count = width * height;
  const rgba = new Uint8ClampedArray(count * 4);
  const words = new Uint32Array(rgba.buffer);
  const values = colours.map((colour) => new Uint32Array(new Uint8Array([colour >> 16, colour >> 8, colour, 255]).buffer)[0]);
  for (let at = 0; at < count; at += 1) words[at] = values[(pixels[at >> 2] >> ((at & 3) * 2)) & 3];
  return rgba;
}

/**
 * How many bytes a picture takes.
 * @param {Picture} picture
 */
export function sizeOf(picture) {
  return picture.pixels.length + 64;
}
