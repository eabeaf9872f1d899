/** Play by keys and mouse: each is an event of the script at the frame that is shown, and the run begins anew, some frames ahead. */
import { Ended, messageOf } from './machine.js';
import { scriptUpTo } from './script.js';

/** @typedef {import('./pictures.js').Picture} Picture */
/** @typedef {{frame: number, text: string}} Event  A line of the script, after this frame. */
/**
 * A call of the program over a script; its pictures come in order.
 * @typedef {(script: string, take: (pictures: Picture[]) => void) => Promise<number>} Player
 */

const FRAME_MILLISECONDS = 1000 / 60;
/** How many frames a run makes beyond the one that is shown: after an event, and when none came. */
const AHEAD = 8;
const FAR_AHEAD = 90;
/** The keys of Varvara's buttons. */
const BUTTONS = {
  ArrowUp: 'up', ArrowDown: 'down', ArrowLeft: 'left', ArrowRight: 'right', Control: 'a', Alt: 'b', Shift: 'select', Home: 'start',
};
/** The bytes of keys that are no characters. */
const KEYS = { Enter: 0x0d, Backspace: 0x08, Tab: 0x09, Delete: 0x7f };

/**
 * The byte of a key, if it has one.
 * @param {string} key
 */
function byteOf(key) {
  if (Object.hasOwn(KEYS, key)) return KEYS[/** @type {keyof typeof KEYS} */ (key)];
  return key.length === 1 && key >= ' ' && key <= '~' ? key.charCodeAt(0) : null;
}

/**
 * The line of a key that goes down or up; null where it means nothing.
 * @param {string} type
 * @param {string} key
 */
function lineOfKey(type, key) {
  const button = Object.hasOwn(BUTTONS, key) ? BUTTONS[/** @type {keyof typeof BUTTONS} */ (key)] : null;
  if (button) return `${type === 'keydown' ? 'down' : 'up'} ${button}`;
  const byte = type === 'keydown' ? byteOf(key) : null;
  return byte === null ? null : `key ${byte.toString(16).padStart(2, '0')}`;
}

export class Live {
  /**
   * @param {HTMLCanvasElement} canvas
   * @param {{show: (frame: number, picture: Picture) => void, stopped: (script: string, message: string) => void}} calls
   */
  constructor(canvas, calls) {
    this.canvas = canvas;
    this.calls = calls;
    this.isOn = false;
    this.frame = 0;
    this.prefix = '';
    this.begun = 0;
    /** @type {Event[]} */
    this.events = [];
    /** @type {Event[]} */
    this.waiting = [];
    /** @type {Map<number, Picture>} */
    this.pictures = new Map();
    this.isRunning = false;
    this.hasEnded = false;
    this.due = 0;
    /** @type {Player} */
    this.player = async () => 0;
    for (const type of ['keydown', 'keyup']) canvas.addEventListener(type, (event) => this.takeKey(/** @type {KeyboardEvent} */ (event)));
    for (const type of ['pointermove', 'pointerdown', 'pointerup']) {
      canvas.addEventListener(type, (event) => this.takePointer(/** @type {PointerEvent} */ (event)));
    }
    canvas.addEventListener('contextmenu', (event) => this.isOn && event.preventDefault());
    canvas.addEventListener('blur', (event) => {
      // A click on the button stops it by itself.
      if (/** @type {HTMLElement | null} */ (event.relatedTarget)?.id !== 'live') this.stop('');
    });
  }

  /**
   * Plays on from a frame of a script.
   * @param {string} script  with what the fields add
   * @param {number} frame
   * @param {Player} player
   */
  start(script, frame, player) {
    Object.assign(this, { isOn: true, frame, begun: frame, events: [], waiting: [], pictures: new Map(), hasEnded: false, player });
    this.prefix = scriptUpTo(script, frame);
    this.canvas.focus();
    this.due = performance.now() + FRAME_MILLISECONDS;
    this.extend(AHEAD);
    requestAnimationFrame((now) => this.tick(now));
  }

  /**
   * Ends the play; what was played is a script.
   * @param {string} message
   */
  stop(message) {
    if (!this.isOn) return;
    this.isOn = false;
    this.events.push(...this.waiting);
    this.calls.stopped(this.script(this.frame), message);
  }

  /**
   * The script of what was played up to a frame.
   * @param {number} last
   */
  script(last) {
    const lines = [this.prefix.trimEnd()].filter(Boolean);
    let at = this.begun;
    /** @param {number} frame */
    const goTo = (frame) => {
      if (frame > at) lines.push(frame - at === 1 ? 'frame' : `frame ${frame - at}`);
      at = Math.max(at, frame);
    };
    for (const { frame, text } of this.events) {
      goTo(frame);
      lines.push(text);
    }
    goTo(last);
    return `${lines.join('\n')}\n`;
  }

  /**
   * Runs from the start, and takes the pictures of so many frames after the last one that is there.
   * @param {number} count
   */
  async extend(count) {
    if (this.isRunning || this.hasEnded || !this.isOn) return;
    this.isRunning = true;
    let next = Math.max(this.frame, ...this.pictures.keys()) + 1;
    const from = next;
    const script = `${this.script(from - 1)}${'frame\nshot\n'.repeat(count)}`;
    try {
      await this.player(script, (pictures) => {
        for (const picture of pictures) this.pictures.set(next++, picture);
      });
      this.hasEnded = next - from < count;
    } catch (error) {
      if (!(error instanceof Ended)) this.stop(messageOf(error));
    }
    this.isRunning = false;
  }

  /** @param {number} now */
  tick(now) {
    if (!this.isOn) return;
    const picture = this.pictures.get(this.frame + 1);
    if (picture && now >= this.due) {
      this.pictures.delete(this.frame);
      this.frame += 1;
      this.calls.show(this.frame, picture);
      this.due = Math.max(this.due + FRAME_MILLISECONDS, now - FRAME_MILLISECONDS);
    }
    if (this.waiting.length && !this.isRunning) this.takeWaiting();
    else if (!this.isRunning && this.pictures.size < FAR_AHEAD / 2) this.extend(this.pictures.size ? FAR_AHEAD : AHEAD);
    if (this.hasEnded && !picture) this.stop('The program ended.');
    requestAnimationFrame((next) => this.tick(next));
  }

  /** The events that came are at the frame that is shown now; the pictures after it are made anew. */
  takeWaiting() {
    this.events.push(...this.waiting.map(({ text }) => ({ frame: this.frame, text })));
    this.waiting = [];
    this.pictures.clear();
    this.hasEnded = false;
    this.extend(AHEAD);
  }

  /** @param {string} text */
  happen(text) {
    this.waiting.push({ frame: this.frame, text });
  }

  /** @param {KeyboardEvent} event */
  takeKey(event) {
    if (!this.isOn) return;
    if (event.key === 'Escape') {
      this.stop('');
      return;
    }
    const line = lineOfKey(event.type, event.key);
    if (!line) return;
    event.preventDefault();
    event.stopPropagation();
    if (!event.repeat || line.startsWith('key')) this.happen(line);
  }

  /** @param {PointerEvent} event */
  takePointer(event) {
    if (!this.isOn) return;
    const box = this.canvas.getBoundingClientRect();
    /** @type {(value: number, size: number, most: number) => number} */
    const place = (value, size, most) => Math.max(0, Math.min(most - 1, Math.floor((value / size) * most)));
    const x = place(event.clientX - box.left, box.width, this.canvas.width);
    const y = place(event.clientY - box.top, box.height, this.canvas.height);
    const line = `mouse ${x} ${y}`;
    const last = this.waiting.at(-1);
    if (event.type === 'pointermove' && last?.text.startsWith('mouse')) last.text = line;
    else this.happen(line);
    // The middle button is 2 in Varvara, and 1 in a browser.
    const button = [1, 2, 3][event.button];
    if (event.type === 'pointerdown' && button) this.happen(`press ${button}`);
    if (event.type === 'pointerup' && button) this.happen(`release ${button}`);
  }
}
