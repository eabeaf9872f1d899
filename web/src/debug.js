/** The debugger: each view is a run of `uxn debug` from the start, whose commands lead to a moment and show what is there. */
import { isRom, isSource, OWN } from './paths.js';
import { Places } from './places.js';
import { composeScript } from './script.js';

/** @typedef {{count: number, address: number | null, name: string, label: string}} Place  At the end there is no address. */
/** @typedef {{depth: number, bytes: number[]}} Stack  Up to eight topmost bytes, the deepest first. */
/** @typedef {{place: Place, working: Stack, returning: Stack, ports: number[], memory: number[], from: number, next: Place[]}} View */
/** @typedef {{place: Place, before: number, after: number}} Store  What changed a byte: the moment before the instruction. */
/** @typedef {{project: import('./project.js').Project, files: [string, Uint8Array][]}} Source */

const MOST_STEP = 4294967295;
const NEXT = 8;
const MEMORY = 128;
/** The lines of what shows a view: place, stacks, ports, memory, the next moments. */
const LINES = 1 + 2 + 16 + MEMORY / 16 + NEXT;
/** How many moments of a search one run goes back, and how many runs a search makes at most. */
const PART = 30_000;
const MOST_PARTS = 200;
const STOPS = 20_000;

/**
 * @param {string} line
 * @returns {Place}
 */
function placeOf(line) {
  const [kind, address, count, name, ...label] = line.split(' ');
  if (kind === 'end') return { count: Number(address), address: null, name: 'end', label: '' };
  if (kind !== 'at') throw new Error(`the log has another form: ${line}`);
  return { count: Number(count), address: parseInt(address, 16), name, label: label.join(' ') };
}

/** @param {string} line */
function bytesOf(line) {
  return line.split(' ').slice(1).map((each) => parseInt(each, 16));
}

/** @param {number} address */
export function hex(address, digits = 4) {
  return address.toString(16).padStart(digits, '0');
}

/**
 * The commands that lead from the first moment to another.
 * @param {number} moment
 */
function to(moment) {
  const whole = Math.floor(moment / MOST_STEP);
  const rest = moment % MOST_STEP;
  return [...Array(whole).fill(`step ${MOST_STEP}`), ...(rest ? [`step ${rest}`] : [])];
}

/** @param {number[]} addresses */
const breaks = (addresses) => addresses.map((address) => `break ${hex(address)}`);

export class Debugger {
  /** @param {import('./machine.js').Machine} machine */
  constructor(machine) {
    this.machine = machine;
    this.places = Places.none();
    /** @type {string[]} */
    this.words = [];
    /** @type {[string, Uint8Array][]} */
    this.files = [];
  }

  /**
   * Begins a session over these sources and this script.
   * @param {Source} source
   */
  async begin({ project, files }) {
    const { main, settings } = project;
    if (main.endsWith('.setup')) throw new Error('the debugger takes one program, and not a line of machines');
    const script = new TextDecoder().decode(files.find(([path]) => path === project.script)?.[1] ?? new Uint8Array(0));
    this.files = [...files, [`${OWN}/script`, new TextEncoder().encode(composeScript(script, settings))]];
    this.words = ['debug', main, ...(isRom(main) ? ['--rom'] : []), '--script', `${OWN}/script`];
    if (settings.root) this.words.push('--root', settings.root);
    if (settings.budget) this.words.push('--budget', settings.budget);
    this.places = isSource(main) ? await this.readPlaces(main, files) : Places.none();
  }

  /**
   * @param {string} main
   * @param {[string, Uint8Array][]} files
   */
  async readPlaces(main, files) {
    const words = ['asm', main, '--out', `${OWN}/rom`, '--listing', `${OWN}/listing`, '--symbols', `${OWN}/symbols`];
    const { own } = await this.call(words, files, ['listing', 'symbols']);
    return Places.read(main, files, own.listing, own.symbols);
  }

  /**
   * @param {string[]} words
   * @param {[string, Uint8Array][]} files
   * @param {string[]} results
   */
  async call(words, files, results) {
    let errors = '';
    const done = await this.machine.run(words, files, results, ({ outputs }) => {
      for (const { stream, bytes } of outputs) if (stream === 2) errors += new TextDecoder().decode(bytes);
    });
    if (done.status >= 128) throw new Error(errors.trim().split('\n').at(-1) || `status ${done.status}`);
    return done;
  }

  /**
   * The lines that commands log.
   * @param {string[]} commands
   */
  async log(commands) {
    const words = [...this.words, '--commands', `${OWN}/commands`, '--log', `${OWN}/log`];
    const text = new TextEncoder().encode(`${commands.join('\n')}\n`);
    const { own } = await this.call(words, [...this.files, [`${OWN}/commands`, text]], ['log']);
    return new TextDecoder('latin1').decode(own.log).split('\n').slice(0, -1);
  }

  /**
   * What is there at a moment, or at the first break after it.
   * @param {number} moment
   * @param {{from: number, stops?: number[]}} how  from: the first address of the memory that is shown
   * @returns {Promise<View>}
   */
  async view(moment, { from, stops }) {
    const moves = stops ? [...breaks(stops), 'run'] : [];
    const shows = ['where', 'stacks', 'ports', `mem ${hex(from)} ${MEMORY}`, ...Array(NEXT).fill('step 1')];
    const lines = (await this.log([...to(moment), ...moves, ...shows])).slice(-LINES);
    const ports = lines.slice(3, 19).flatMap(bytesOf);
    const next = lines.slice(-NEXT).map(placeOf);
    const end = next.findIndex(({ address }) => address === null);
    return {
      place: placeOf(lines[0]),
      working: stackOf(lines[1], ports[4]),
      returning: stackOf(lines[2], ports[5]),
      ports,
      memory: lines.slice(19, -NEXT).flatMap(bytesOf),
      from,
      next: end < 0 ? next : next.slice(0, end + 1),
    };
  }

  /**
   * The last moment at a break before one; null if there is none.
   * @param {number} moment
   * @param {number[]} stops
   */
  async lastStop(moment, stops) {
    if (!stops.length || !moment) return null;
    let last = /** @type {number | null} */ (null);
    for (let from = 0; ; ) {
      const lines = await this.log([...to(from), 'where', ...breaks(stops), ...Array(STOPS).fill('run')]);
      const here = placeOf(lines[to(from).length]);
      const found = [here, ...lines.slice(-STOPS).map(placeOf)].filter(({ address }) => address !== null && stops.includes(address));
      const before = found.filter(({ count }) => count < moment);
      last = before.at(-1)?.count ?? last;
      if (before.length < found.length || found.length < STOPS || last === null || last === from) return last;
      from = last;
    }
  }

  /**
   * The last instruction before a moment that changed a byte, by going back; null if none did.
   * @param {number} moment
   * @param {number} address
   * @param {(moment: number) => void} progress
   * @returns {Promise<Store | null>}
   */
  async lastStore(moment, address, progress) {
    const look = `mem ${hex(address)} 1`;
    let here = moment;
    for (let part = 0; part < MOST_PARTS && here > 0; part += 1) {
      const count = Math.min(here, PART);
      const backs = Array.from({ length: count }, () => ['back 1', look]).flat();
      const lines = (await this.log([...to(here), look, ...backs])).slice(-2 * count - 1);
      const [after] = bytesOf(lines[0]);
      for (let at = 1; at < lines.length; at += 2) {
        if (lines[at].startsWith('held')) throw new Error(`it goes back to moment ${here - (at - 1) / 2} and no farther`);
        const [before] = bytesOf(lines[at + 1]);
        if (before !== after) return { place: placeOf(lines[at]), before, after };
      }
      here -= count;
      progress(here);
    }
    if (here > 0) throw new Error(`nothing changed it in the ${(moment - here).toLocaleString('en')} moments before`);
    return null;
  }

  /** Ends what goes on. */
  end() {
    this.machine.end();
  }
}

/**
 * @param {string} line
 * @param {number} depth
 * @returns {Stack}
 */
function stackOf(line, depth) {
  const bytes = bytesOf(line);
  return { depth, bytes: bytes.slice(bytes.length - Math.min(depth, bytes.length)) };
}

