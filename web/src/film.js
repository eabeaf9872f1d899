/** The film of a run: its pictures on a canvas, with controls, and the marks of what happens. */
import { rgbaOf, sizeOf } from './pictures.js';

/** @typedef {import('./pictures.js').Picture} Picture */
/** @typedef {{frame: number, picture: Picture}} Shown */

const MOST_BYTES = 400_000_000;
const RATE = 60;

/**
 * @param {Picture} left
 * @param {Picture} right
 */
function isSame(left, right) {
  return left.width === right.width && left.height === right.height && left.colours.length === right.colours.length
    && left.colours.every((colour, at) => colour === right.colours[at]) && left.pixels.every((byte, at) => byte === right.pixels[at]);
}

/** @param {string} id */
const byId = (id) => /** @type {any} */ (document.getElementById(id));

export class Film {
  constructor() {
    /** @type {HTMLCanvasElement} */
    this.canvas = byId('screen');
    /** @type {HTMLInputElement} */
    this.scrub = byId('scrub');
    /** @type {Shown[]} */
    this.shown = [];
    this.place = 0;
    this.bytes = 0;
    this.isPlaying = false;
    this.begunAt = 0;
    this.begunPlace = 0;
    this.dropped = 0;
    this.lastTick = 0;
    /** @type {import('./script.js').Happening[]} */
    this.happenings = [];
    /** @type {number[]} */
    this.misses = [];
    this.total = 0;
    this.playsAtOnce = true;
    /** @type {(isPlaying: boolean) => void} */
    this.onPlaying = () => {};
    byId('play').addEventListener('click', () => this.setPlaying(!this.isPlaying));
    byId('back').addEventListener('click', () => this.step(-1));
    byId('on').addEventListener('click', () => this.step(1));
    this.scrub.addEventListener('input', () => this.stopAt(Number(this.scrub.value)));
    new ResizeObserver(() => this.fit()).observe(byId('stage'));
    new ResizeObserver(() => this.drawMarks()).observe(byId('track'));
  }

  /**
   * Begins anew.
   * @param {import('./script.js').Happening[]} happenings
   * @param {number} total  the frames that the script has
   */
  begin(happenings, total) {
    this.setPlaying(false);
    this.shown = [];
    this.bytes = 0;
    this.place = 0;
    this.happenings = happenings;
    this.misses = [];
    this.total = total;
    byId('film').hidden = true;
  }

  /**
   * @param {number} frame
   * @param {Picture} picture
   */
  add(frame, picture) {
    const last = this.shown.at(-1)?.picture;
    const kept = last && isSame(last, picture) ? last : picture;
    if (kept === picture) this.bytes += sizeOf(picture);
    if (this.bytes > MOST_BYTES) return;
    this.shown.push({ frame, picture: kept });
    if (this.shown.length === 1) {
      byId('stage').hidden = false;
      this.showPlace(0);
    }
    if (this.shown.length === 2) byId('film').hidden = false;
  }

  /**
   * Shows a picture that is not one of the film.
   * @param {number} frame
   * @param {Picture} picture
   */
  showOther(frame, picture) {
    this.draw(picture);
    byId('frame').value = `frame ${frame}`;
  }

  /** Says that more pictures came. */
  update() {
    this.scrub.max = String(Math.max(0, this.shown.length - 1));
    this.drawMarks();
    this.showNumber();
  }

  /** @param {boolean} isPlaying */
  setPlaying(isPlaying) {
    this.isPlaying = isPlaying && this.shown.length > 1;
    const button = byId('play');
    button.textContent = this.isPlaying ? '\u275A\u275A' : '\u25B6\uFE0E';
    button.setAttribute('aria-label', this.isPlaying ? 'Pause' : 'Play');
    button.title = this.isPlaying ? 'Pause' : 'Play';
    if (this.isPlaying) {
      if (this.place >= this.shown.length - 1) this.showPlace(0);
      this.begunAt = performance.now();
      this.lastTick = this.begunAt;
      this.begunPlace = this.place;
      this.dropped = 0;
      requestAnimationFrame((now) => this.tick(now));
    }
    this.onPlaying(this.isPlaying);
  }

  /**
   * @param {number} now
   * @returns {void}
   */
  tick(now) {
    if (!this.isPlaying) return;
    const due = this.begunPlace + Math.floor(((now - this.begunAt) * RATE) / 1000 + 0.5);
    const last = this.shown.length - 1;
    if (due !== this.place) {
      if (due > this.place + 1) this.dropped += Math.min(due, last) - this.place - 1;
      this.showPlace(Math.min(Math.max(due, 0), last));
    }
    if (due >= last) this.setPlaying(false);
    else requestAnimationFrame((next) => this.tick(next));
  }

  /** @param {number} count */
  step(count) {
    this.stopAt(this.place + count);
  }

  /** @param {number} place */
  stopAt(place) {
    this.setPlaying(false);
    this.showPlace(Math.max(0, Math.min(place, this.shown.length - 1)));
  }

  /** @param {number} place */
  showPlace(place) {
    const shown = this.shown[place];
    if (!shown) return;
    this.place = place;
    this.draw(shown.picture);
    this.scrub.value = String(place);
    this.showNumber();
  }

  /** @param {Picture} picture */
  draw(picture) {
    const { canvas } = this;
    if (canvas.width !== picture.width || canvas.height !== picture.height) {
      canvas.width = picture.width;
      canvas.height = picture.height;
      this.fit();
    }
    const context = /** @type {CanvasRenderingContext2D} */ (canvas.getContext('2d'));
    context.putImageData(new ImageData(rgbaOf(picture), picture.width, picture.height), 0, 0);
  }

  showNumber() {
    const frame = this.shown[this.place]?.frame ?? 0;
    const last = this.shown.at(-1)?.frame ?? 0;
    byId('frame').value = `frame ${frame} / ${Math.max(last, this.total)}`;
    this.scrub.setAttribute('aria-valuetext', `frame ${frame}`);
    this.canvas.setAttribute('aria-label', `The picture of frame ${frame}`);
  }

  /** The greatest whole scale, in the screen's own pixels, that has room. */
  fit() {
    const ratio = window.devicePixelRatio || 1;
    const wide = (byId('stage').clientWidth - 24) * ratio;
    const high = Math.max(160, window.innerHeight * 0.5) * ratio;
    const scale = Math.max(1, Math.min(Math.floor(wide / this.canvas.width), Math.floor(high / this.canvas.height), 8 * Math.ceil(ratio)));
    this.canvas.style.width = `${(this.canvas.width * scale) / ratio}px`;
  }

  drawMarks() {
    const canvas = /** @type {HTMLCanvasElement} */ (byId('marks'));
    const wide = Math.max(1, canvas.clientWidth);
    canvas.width = wide;
    const context = /** @type {CanvasRenderingContext2D} */ (canvas.getContext('2d'));
    const style = getComputedStyle(document.documentElement);
    const last = Math.max(1, this.shown.at(-1)?.frame ?? 1);
    /** @param {number} frame */
    const placeOf = (frame) => 8 + (Math.min(frame, last) / last) * (wide - 16);
    for (const { frame, line } of this.happenings) {
      const isMiss = this.misses.includes(line);
      context.fillStyle = style.getPropertyValue(isMiss ? '--fault' : '--quiet');
      context.fillRect(placeOf(frame) - (isMiss ? 1 : 0), isMiss ? 0 : 2, isMiss ? 3 : 1, isMiss ? 8 : 5);
    }
  }
}
