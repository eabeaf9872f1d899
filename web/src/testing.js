/** Tests: scripts with what their runs should give, in files of the same name, as `uxn-test` reads them. */
import { joined } from './archive.js';
import { hex } from './debug.js';
import { isRom, OWN } from './paths.js';

/** @typedef {import('./project.js').Project} Project */
/** @typedef {[string, Uint8Array][]} Files */
/** @typedef {{line: number, text: string}} Miss  A line of the script, from 1, and what came in place of what it expects. */
/** @typedef {{name: string, script: string, program: string}} Test  The path of the script; '' if the test has none. */
/** @typedef {{test: Test, faults: string[], misses: Miss[]}} Result */
/** @typedef {{status: number, out: Uint8Array, err: Uint8Array, report: string, ppm: Uint8Array, samples: Uint8Array}} Outcome */

const WANTED = ['out', 'err', 'status', 'report', 'ppm', 'samples'];
const MOST_STEP = 4294967295;
const NOTHING = new Uint8Array(0);
const EXPECT = /^[\t\r ]*expect[\t\r ]+([0-9a-f]{2})[\t\r ]+([0-9a-f]{2})[\t\r ]*$/i;

/** @param {Uint8Array} bytes */
const textOf = (bytes) => new TextDecoder().decode(bytes);

/**
 * The tests of a project: each name with files of what a run should give, or with a script that expects something.
 * @param {Project} project
 * @returns {Test[]}
 */
export function testsOf(project) {
  const paths = new Set(project.files.map(({ path }) => path));
  const isOfTest = (/** @type {import('./project.js').ProjectFile} */ { path, text }) => WANTED.some((kind) => path.endsWith(`.${kind}`))
    || (path.endsWith('.script') && expectsOf(text).length > 0);
  const names = project.files.filter(isOfTest).map(({ path }) => path.replace(/\.\w+$/, ''));
  return [...new Set(names)].sort().map((name) => ({
    name,
    script: paths.has(`${name}.script`) ? `${name}.script` : '',
    program: paths.has(`${name}.tal`) ? `${name}.tal` : project.main,
  }));
}

/**
 * How bytes differ from what is wanted; '' if they do not.
 * @param {string} what
 * @param {Uint8Array} wanted
 * @param {Uint8Array} found
 */
function difference(what, wanted, found) {
  const first = wanted.findIndex((byte, at) => byte !== found[at]);
  const at = first < 0 ? wanted.length : first;
  if (first < 0 && found.length === wanted.length) return '';
  const shown = (/** @type {Uint8Array} */ bytes) => (at < bytes.length ? hex(bytes[at], 2) : 'the end');
  return `${what}: ${found.length} bytes in place of ${wanted.length}; at byte ${at} it is ${shown(found)}, and not ${shown(wanted)}`;
}

/** @param {string} report @param {string} name */
const countOf = (report, name) => Number(new RegExp(`^${name} (\\d+)$`, 'm').exec(report)?.[1] ?? 0);

/**
 * The lines of a script that are expects, from 1.
 * @param {string} script
 */
function expectsOf(script) {
  return script.split('\n').flatMap((line, index) => {
    const found = EXPECT.exec(line);
    return found ? [{ line: index + 1, port: parseInt(found[1], 16), wanted: parseInt(found[2], 16) }] : [];
  });
}

export class Tester {
  /** @param {import('./machine.js').Machine} machine */
  constructor(machine) {
    this.machine = machine;
  }

  /**
   * @param {Project} project
   * @param {string} program
   * @param {string} [command]
   */
  words(project, program, command = 'play') {
    if (program.endsWith('.setup')) return ['line', program];
    const words = [command, program, ...(isRom(program) ? ['--rom'] : []), '--script', `${OWN}/script`, '--report', `${OWN}/report`];
    if (project.settings.root) words.push('--root', project.settings.root);
    if (project.settings.budget) words.push('--budget', project.settings.budget);
    return words;
  }

  /**
   * What a run over a script gives.
   * @param {Project} project
   * @param {Files} files
   * @param {string} program
   * @param {Uint8Array} script
   * @returns {Promise<Outcome>}
   */
  async outcome(project, files, program, script) {
    const words = this.words(project, program);
    if (words[0] === 'play') words.push('--frames', `${OWN}/ppm`, '--samples', `${OWN}/samples`);
    /** @type {Uint8Array[][]} */
    const streams = [[], [], []];
    const all = /** @type {Files} */ ([...files, [`${OWN}/script`, script]]);
    const done = await this.machine.run(words, all, ['report', 'ppm', 'samples'], ({ outputs }) => {
      for (const { stream, bytes } of outputs) streams[stream].push(bytes);
    });
    const { report, ppm, samples } = done.own;
    return { status: done.status, out: joined(streams[1]), err: joined(streams[2]), report: textOf(report), ppm, samples };
  }

  /**
   * Runs a test.
   * @param {Project} project
   * @param {Files} files
   * @param {Test} test
   * @returns {Promise<Result>}
   */
  async result(project, files, test) {
    const file = (/** @type {string} */ path) => files.find(([each]) => each === path)?.[1];
    const script = file(test.script) ?? NOTHING;
    const wanted = Object.fromEntries(WANTED.map((kind) => [kind, file(`${test.name}.${kind}`)]));
    const expects = expectsOf(textOf(script));
    const found = await this.outcome(project, files, test.program, script);
    const faults = faultsOf(wanted, found);
    if (found.status >= 128) return { test, faults, misses: [] };
    const missed = countOf(found.report, 'misses');
    const left = expects.length - countOf(found.report, 'expects');
    if (left > 0) faults.push(`${left} of ${expects.length} expects are not reached`);
    const misses = missed ? await this.misses({ project, files, program: test.program, lines: textOf(script).split('\n') }, missed) : [];
    return { test, faults, misses };
  }

  /**
   * The expects that missed. Their number never falls as a prefix of the script grows, so they are found by halving.
   * @param {{project: Project, files: Files, program: string, lines: string[]}} run
   * @param {number} count
   * @returns {Promise<Miss[]>}
   */
  async misses(run, count) {
    const expects = expectsOf(run.lines.join('\n'));
    /** @type {Miss[]} */
    const found = [];
    const prefix = (/** @type {number} */ line) => new TextEncoder().encode(`${run.lines.slice(0, line).join('\n')}\n`);
    /**
     * @param {number} first
     * @param {number} end
     * @param {number} before  the misses before the first one
     * @param {number} after
     */
    const halve = async (first, end, before, after) => {
      if (before === after) return;
      if (end - first === 1) {
        const { line, port, wanted } = expects[first];
        const held = await this.portAfter(run, prefix(line), port);
        found.push({ line, text: `port ${hex(port, 2)} held ${hex(held, 2)}, and not ${hex(wanted, 2)}` });
        return;
      }
      const middle = (first + end) >> 1;
      const outcome = await this.outcome(run.project, run.files, run.program, prefix(expects[middle - 1].line));
      const misses = countOf(outcome.report, 'misses');
      await halve(first, middle, before, misses);
      await halve(middle, end, misses, after);
    };
    await halve(0, expects.length, 0, count);
    return found;
  }

  /**
   * What a port holds at the end of a run over a script.
   * @param {{project: Project, files: Files, program: string}} run
   * @param {Uint8Array} script
   * @param {number} port
   */
  async portAfter({ project, files, program }, script, port) {
    const words = [...this.words(project, program, 'debug'), '--commands', `${OWN}/commands`, '--log', `${OWN}/log`];
    const commands = new TextEncoder().encode(`step ${MOST_STEP}\nports\n`);
    const all = /** @type {Files} */ ([...files, [`${OWN}/script`, script], [`${OWN}/commands`, commands]]);
    const { own } = await this.machine.run(words, all, ['log']);
    const bytes = textOf(own.log).split('\n').slice(1, 17).flatMap((line) => line.split(' ').slice(1));
    return parseInt(bytes[port], 16);
  }

  /**
   * The files that make a test of a run over a script. One that shows nothing else has a picture of its end.
   * @param {Project} project
   * @param {Files} files
   * @param {{name: string, script: string}} test
   * @returns {Promise<Files>}
   */
  async recorded(project, files, { name, script }) {
    const lines = script.trimEnd().split('\n');
    const whole = lines.some((line) => /^\s*shot\s*$/.test(line)) ? lines : [...lines, 'shot'];
    const bytes = new TextEncoder().encode(`${whole.join('\n').trimStart()}\n`);
    const found = await this.outcome(project, files, project.main, bytes);
    if (found.status >= 128) throw new Error(`the run was refused: ${textOf(found.err).trim()}`);
    /** @type {Files} */
    const made = [[`${name}.script`, bytes]];
    if (found.out.length) made.push([`${name}.out`, found.out]);
    if (found.err.length) made.push([`${name}.err`, found.err]);
    if (found.status) made.push([`${name}.status`, new TextEncoder().encode(`${found.status}\n`)]);
    if (found.ppm.length) made.push([`${name}.ppm`, found.ppm]);
    return made;
  }
}

/**
 * What of a run is not as it is wanted.
 * @param {Record<string, Uint8Array | undefined>} wanted
 * @param {Outcome} found
 */
function faultsOf(wanted, found) {
  const faults = ['out', 'err'].map((kind) => difference(kind, wanted[kind] ?? NOTHING, found[/** @type {'out'} */ (kind)]));
  for (const kind of /** @type {const} */ (['ppm', 'samples'])) {
    const bytes = wanted[kind];
    if (bytes) faults.push(difference(kind, bytes, found[kind]));
  }
  const status = wanted.status ? Number(textOf(wanted.status)) : 0;
  if (status !== found.status) faults.push(`status: ${found.status} in place of ${status}`);
  const lines = wanted.report ? textOf(wanted.report).split('\n').filter(Boolean) : [];
  const there = found.report.split('\n');
  for (const line of lines) if (!there.includes(line)) faults.push(`report: there is no line ${line}`);
  const cuts = countOf(found.report, 'cuts');
  if (cuts && !lines.includes(`cuts ${cuts}`)) faults.push(`${cuts} vectors used up their budget`);
  return faults.filter(Boolean);
}
