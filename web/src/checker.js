/** The check while one types: the source is assembled again and again, in a Worker of its own. */
import { sourceFault } from './faults.js';
import { Ended, messageOf } from './machine.js';
import { isSource, OWN } from './paths.js';

const PAUSE = 120;

/** @typedef {import('./faults.js').Fault} Fault */
/** @typedef {{fault: Fault | null, text: string, rom: Uint8Array | null}} Checked  The text is that of a refusal without a place. */

export class Checker {
  /**
   * @param {import('./machine.js').Machine} machine
   * @param {() => {main: string, files: [string, Uint8Array][]}} source
   * @param {(checked: Checked) => void} show
   */
  constructor(machine, source, show) {
    this.machine = machine;
    this.source = source;
    this.show = show;
    this.timer = 0;
  }

  /** Checks when nothing was typed for a moment. */
  soon() {
    clearTimeout(this.timer);
    this.timer = setTimeout(() => this.now(), PAUSE);
  }

  async now() {
    clearTimeout(this.timer);
    try {
      this.show(await this.checked());
    } catch (error) {
      if (!(error instanceof Ended)) this.show({ fault: null, text: `The check failed: ${messageOf(error)}`, rom: null });
    }
  }

  /** @returns {Promise<Checked>} */
  async checked() {
    const { main, files } = this.source();
    if (!isSource(main)) return { fault: null, text: '', rom: files.find(([path]) => path === main)?.[1] ?? null };
    const errors = new TextDecoder();
    let text = '';
    const done = await this.machine.run(['asm', main, '--out', `${OWN}/rom`], files, ['rom'], ({ outputs }) => {
      for (const { bytes } of outputs) text += errors.decode(bytes, { stream: true });
    });
    const fault = sourceFault(text, main);
    return { fault, text: fault ? '' : text.trim(), rom: done.status ? null : done.own.rom };
  }
}
