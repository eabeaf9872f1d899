/** The debugger's part of the page: the moment, both stacks, what runs next, memory, ports and breaks. */
import { hex } from './debug.js';
import { Ended, messageOf } from './machine.js';

/** @typedef {import('./debug.js').Debugger} Debugger */
/** @typedef {import('./debug.js').View} View */
/** @typedef {{path: string, line: number}} LineBreak  The line counts from 0. */
/**
 * What the view needs of the page.
 * @typedef {object} Calls
 * @property {() => import('./debug.js').Source} source
 * @property {() => LineBreak[]} lineBreaks
 * @property {(found: LineBreak) => void} dropLineBreak
 * @property {(place: import('./places.js').Word | null) => void} showLine
 * @property {() => void} stopRun
 */

/** @param {string} id */
const byId = (id) => /** @type {any} */ (document.getElementById(id));

/**
 * @param {string} name
 * @param {string | (string | Node)[]} content
 * @param {Record<string, string>} [attributes]
 */
function made(name, content, attributes = {}) {
  const element = document.createElement(name);
  element.append(...(typeof content === 'string' ? [content] : content));
  for (const [key, value] of Object.entries(attributes)) element.setAttribute(key, value);
  return element;
}

/** @param {import('./debug.js').Stack} stack */
function textOfStack({ depth, bytes }) {
  const dots = depth > bytes.length ? '.. ' : '';
  return `${depth}: ${dots}${bytes.map((byte) => hex(byte, 2)).join(' ')}`.trimEnd();
}

/**
 * A table of bytes, sixteen in a row.
 * @param {number} from
 * @param {number[]} bytes
 * @param {number} digits
 * @param {(byte: number, address: number) => Node} cellOf
 */
function tableOf(from, bytes, digits, cellOf) {
  const rows = [];
  for (let at = 0; at < bytes.length; at += 16) {
    const cells = bytes.slice(at, at + 16).map((byte, index) => made('td', [cellOf(byte, (from + at + index) & 0xffff)]));
    rows.push(made('tr', [made('th', hex((from + at) & 0xffff, digits), { scope: 'row' }), ...cells]));
  }
  return made('table', rows, { class: 'bytes' });
}

export class DebugView {
  /**
   * @param {Debugger} session
   * @param {Calls} calls
   */
  constructor(session, calls) {
    this.session = session;
    this.calls = calls;
    /** @type {View | null} */
    this.view = null;
    this.from = 0x0100;
    /** @type {string[]} */
    this.labelBreaks = [];
    this.isBusy = false;
    this.wire();
    this.showBreaks();
  }

  wire() {
    /**
     * @param {string} id
     * @param {() => unknown} call
     */
    const onClick = (id, call) => byId(id).addEventListener('click', call);
    onClick('debug-begin', () => this.begin());
    onClick('debug-run', () => this.run());
    onClick('debug-step', () => this.go((this.view?.place.count ?? 0) + 1));
    onClick('debug-back', () => this.go((this.view?.place.count ?? 0) - 1));
    onClick('debug-last', () => this.runBack());
    onClick('debug-end', () => this.session.end());
    onClick('debug-writer', () => this.findWriter());
    /**
     * @param {string} id
     * @param {() => unknown} call
     */
    const onSubmit = (id, call) => byId(id).addEventListener('submit', (/** @type {Event} */ event) => {
      event.preventDefault();
      call();
    });
    onSubmit('debug-goto', () => this.go(Number(byId('debug-moment').value)));
    onSubmit('debug-break', () => this.addBreak());
    onSubmit('debug-look', () => this.lookAt());
  }

  /**
   * A key of the debugger; false if it is none.
   * @param {KeyboardEvent} event
   */
  key(event) {
    const name = `${event.shiftKey ? 'Shift+' : ''}${event.key}`;
    const ids = { F8: 'debug-run', 'Shift+F8': 'debug-last', F10: 'debug-step', 'Shift+F10': 'debug-back' };
    const id = Object.hasOwn(ids, name) ? ids[/** @type {keyof typeof ids} */ (name)] : '';
    if (!id) return false;
    byId(id).click();
    return true;
  }

  /** The session ends, since another source is there. */
  forget() {
    this.session.end();
    this.view = null;
    this.calls.showLine(null);
    this.showAll();
    this.say('');
  }

  /**
   * @param {string} text
   * @param {boolean} [isBad]
   */
  say(text, isBad = false) {
    byId('debug-said').textContent = text;
    byId('debug-said').classList.toggle('bad', isBad);
  }

  /**
   * Does something that runs the program; what it refuses is said.
   * @param {() => Promise<void>} call
   */
  async busy(call) {
    if (this.isBusy) return;
    this.isBusy = true;
    byId('debug-end').disabled = false;
    this.say('');
    try {
      await call();
    } catch (error) {
      this.say(error instanceof Ended ? 'It was ended.' : `${messageOf(error)}.`, true);
    }
    this.isBusy = false;
    byId('debug-end').disabled = true;
  }

  begin() {
    return this.busy(async () => {
      this.calls.stopRun();
      await this.session.begin(this.calls.source());
      const names = [...this.session.places.labels.keys()].sort();
      byId('debug-labels').replaceChildren(...names.map((name) => made('option', '', { value: name })));
      await this.show(await this.session.view(0, { from: this.from }));
    });
  }

  /** The addresses of all breaks. */
  stops() {
    const { places } = this.session;
    const lines = this.calls.lineBreaks().map(({ path, line }) => places.addressOf(path, line));
    const labels = this.labelBreaks.map((label) => places.addressOfText(label));
    return [...new Set([...lines, ...labels])].flatMap((address) => (address === null ? [] : [address]));
  }

  /** @param {View} view */
  async show(view) {
    this.view = view;
    this.calls.showLine(view.place.address === null ? null : this.session.places.wordAt(view.place.address));
    this.showAll();
  }

  /**
   * Shows a moment; of what is after the end, the end.
   * @param {number} moment
   */
  go(moment) {
    if (!this.view) return this.begin();
    return this.busy(async () => this.show(await this.session.view(Math.max(0, Math.trunc(moment) || 0), { from: this.from })));
  }

  run() {
    const { view } = this;
    if (!view) return this.begin();
    return this.busy(async () => this.show(await this.session.view(view.place.count, { from: this.from, stops: this.stops() })));
  }

  runBack() {
    const { view } = this;
    if (!view) return this.begin();
    return this.busy(async () => {
      const found = await this.session.lastStop(view.place.count, this.stops());
      if (found === null) this.say('No break is before this moment.');
      else await this.show(await this.session.view(found, { from: this.from }));
    });
  }

  lookAt() {
    const found = this.session.places.addressOfText(byId('debug-address').value);
    if (found === null) return this.say('This is no label, and no four digits of 0 to 9 and a to f.', true);
    this.from = found;
    return this.view ? this.go(this.view.place.count) : this.begin();
  }

  findWriter() {
    const { view } = this;
    const address = this.session.places.addressOfText(byId('debug-address').value);
    if (!view) return this.begin();
    if (address === null) return this.say('This is no label, and no four digits of 0 to 9 and a to f.', true);
    return this.busy(async () => {
      const report = (/** @type {number} */ moment) => this.say(`It looks before moment ${moment.toLocaleString('en')} ..`);
      const found = await this.session.lastStore(view.place.count, address, report);
      if (!found) return this.say(`Nothing changed ${hex(address)} before this moment.`);
      await this.show(await this.session.view(found.place.count, { from: this.from }));
      const was = `${hex(address)} was ${hex(found.before, 2)}, became ${hex(found.after, 2)}`;
      return this.say(`${was} by ${found.place.name} at moment ${found.place.count}.`);
    });
  }

  addBreak() {
    const label = byId('debug-label').value.trim().replace(/^@/, '');
    if (!label || this.labelBreaks.includes(label)) return;
    this.labelBreaks.push(label);
    byId('debug-label').value = '';
    this.showBreaks();
  }

  showBreaks() {
    const { places } = this.session;
    /**
     * @param {string} text
     * @param {number | null} address
     * @param {() => void} drop
     */
    const item = (text, address, drop) => {
      const button = made('button', 'Remove', { type: 'button', 'aria-label': `Remove the break at ${text}` });
      button.addEventListener('click', () => {
        drop();
        this.showBreaks();
      });
      const where = this.view ? ` ${address === null ? 'no code is there' : hex(address)}` : '';
      return made('li', [made('span', text + where), ' ', button]);
    };
    const lines = this.calls.lineBreaks().map((each) => {
      const text = `${each.path}:${each.line + 1}`;
      return item(text, places.addressOf(each.path, each.line), () => this.calls.dropLineBreak(each));
    });
    const labels = this.labelBreaks.map((label) => item(label, places.addressOfText(label), () => {
      this.labelBreaks = this.labelBreaks.filter((each) => each !== label);
    }));
    byId('debug-breaks').replaceChildren(...lines, ...labels);
  }

  showAll() {
    const { view } = this;
    byId('debug-state').hidden = !view;
    this.showBreaks();
    if (!view) return;
    byId('debug-moment').value = String(view.place.count);
    byId('debug-place').textContent = this.textOfPlace(view.place);
    byId('debug-working').textContent = textOfStack(view.working);
    byId('debug-returning').textContent = textOfStack(view.returning);
    byId('debug-next').replaceChildren(...view.next.map((place) => made('li', this.textOfPlace(place))));
    byId('debug-memory').replaceChildren(tableOf(view.from, view.memory, 4, (byte, address) => this.byteOf(byte, address)));
    byId('debug-ports').replaceChildren(tableOf(0, view.ports, 2, (byte) => document.createTextNode(hex(byte, 2))));
  }

  /** @param {import('./debug.js').Place} place */
  textOfPlace({ count, address, name, label }) {
    if (address === null) return `moment ${count}: the end of the run`;
    const word = this.session.places.wordAt(address);
    const line = word ? `  ${word.path}:${word.line + 1}` : '';
    return `moment ${count}: ${hex(address)} ${name}  ${label}${line}`;
  }

  /**
   * A byte of memory: a click takes its address.
   * @param {number} byte
   * @param {number} address
   */
  byteOf(byte, address) {
    const button = made('button', hex(byte, 2), { type: 'button', tabindex: '-1', title: hex(address), class: 'byte' });
    button.addEventListener('click', () => {
      byId('debug-address').value = hex(address);
    });
    return button;
  }
}
