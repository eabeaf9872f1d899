/** What a program writes: both streams, in the order in which they came. */

const MOST_NODES = 5000;
const MOST_SIGNS = 1_000_000;

export class Console {
  /** @param {HTMLElement} panel */
  constructor(panel) {
    this.panel = panel;
    /** @type {TextDecoder[]} */
    this.decoders = [];
    this.signs = 0;
    this.isFull = false;
    this.clear();
  }

  clear() {
    this.panel.textContent = '';
    this.decoders = [new TextDecoder(), new TextDecoder(), new TextDecoder()];
    this.signs = 0;
    this.isFull = false;
  }

  /**
   * @param {number} stream
   * @param {Uint8Array} bytes
   */
  write(stream, bytes) {
    this.say(this.decoders[stream].decode(bytes, { stream: true }), stream === 2);
  }

  /**
   * @param {string} text
   * @param {boolean} isError
   */
  say(text, isError) {
    if (!text || this.isFull) return;
    this.signs += text.length;
    const last = this.panel.lastElementChild;
    if (last && (last.className === 'error') === isError) {
      last.append(text);
    } else {
      const part = document.createElement('span');
      if (isError) part.className = 'error';
      part.append(text);
      this.panel.append(part);
    }
    if (this.signs > MOST_SIGNS || this.panel.childElementCount > MOST_NODES) {
      this.isFull = true;
      this.panel.append('\n.. and more, which the page does not show');
    }
  }
}
