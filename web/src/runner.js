/** A run of a project: its film, its console, its report and the files that it changed. */
import { showChanges } from './changed.js';
import { meaningOf, scriptFault } from './faults.js';
import { Ended, messageOf } from './machine.js';
import { isRom, OWN } from './paths.js';
import { composeFilm, reportWithoutFilm } from './script.js';
import { faultOfSettings } from './settings.js';

/** @typedef {import('./project.js').Project} Project */

const SCRIPT = `${OWN}/script`;

/** @param {string} id */
const byId = (id) => /** @type {any} */ (document.getElementById(id));

/**
 * The arguments of the call.
 * @param {Project} project
 */
export function argumentsOfRun(project) {
  const { main, settings } = project;
  if (main.endsWith('.setup')) return ['line', main];
  const words = ['play', main, ...(isRom(main) ? ['--rom'] : []), '--script', SCRIPT];
  if (settings.root) words.push('--root', settings.root);
  for (const name of ['frames', 'samples', 'report']) words.push(`--${name}`, `${OWN}/${name}`);
  if (settings.budget) words.push('--budget', settings.budget);
  return words;
}

/**
 * A number in thousands or millions.
 * @param {number} count
 */
function rounded(count) {
  return count < 1e6 ? count.toLocaleString('en') : `${(count / 1e6).toLocaleString('en', { maximumFractionDigits: 1 })} million`;
}

export class Runner {
  /**
   * @param {import('./machine.js').Machine} machine
   * @param {{film: import('./film.js').Film, sound: import('./sound.js').Sound, console: import('./console.js').Console}} views
   */
  constructor(machine, { film, sound, console }) {
    this.machine = machine;
    this.film = film;
    this.sound = sound;
    this.console = console;
    this.isRunning = false;
    this.scriptFaultLine = 0;
    this.number = 0;
    /** @type {() => void} */
    this.onState = () => {};
  }

  clear() {
    this.end();
    this.console.clear();
    this.film.begin([], 0);
    this.sound.load(new Uint8Array(0));
    byId('stage').hidden = true;
    byId('summary').textContent = '';
  }

  end() {
    this.machine.end();
  }

  /**
   * @param {string} text
   * @param {boolean} [isBad]
   */
  say(text, isBad = false) {
    byId('summary').textContent = text;
    byId('summary').classList.toggle('bad', isBad);
  }

  /**
   * @param {Project} project
   * @param {[string, Uint8Array][]} files
   */
  async run(project, files) {
    const fault = faultOfSettings();
    this.scriptFaultLine = 0;
    if (fault) return this.say(fault, true);
    const script = new TextDecoder().decode(files.find(([path]) => path === project.script)?.[1] ?? new Uint8Array(0));
    const composed = composeFilm(script, project.settings);
    this.clear();
    this.film.begin(composed.happenings, composed.frames);
    this.number += 1;
    const { number } = this;
    this.isRunning = true;
    this.onState();
    this.say('It runs ..');
    const all = /** @type {[string, Uint8Array][]} */ ([...files, [SCRIPT, new TextEncoder().encode(composed.text)]]);
    try {
      const take = this.taker(composed.shots);
      const done = await this.machine.run(argumentsOfRun(project), all, ['samples', 'report'], take.part);
      this.finish(done, composed, take.errors());
    } catch (error) {
      this.say(error instanceof Ended ? 'The run was ended.' : `The run failed: ${messageOf(error)}`, true);
    }
    if (number === this.number) this.isRunning = false;
    return this.onState();
  }

  /**
   * A call over another script than the project's, whose pictures alone matter.
   * @param {Project} project
   * @param {[string, Uint8Array][]} files
   * @returns {import('./live.js').Player}
   */
  player(project, files) {
    const words = ['play', project.main, ...(isRom(project.main) ? ['--rom'] : []), '--script', SCRIPT, '--frames', `${OWN}/frames`];
    if (project.settings.root) words.push('--root', project.settings.root);
    if (project.settings.budget) words.push('--budget', project.settings.budget);
    return async (script, take) => {
      let errors = '';
      const all = /** @type {[string, Uint8Array][]} */ ([...files, [SCRIPT, new TextEncoder().encode(script)]]);
      const done = await this.machine.run(words, all, [], ({ outputs, pictures }) => {
        for (const { stream, bytes } of outputs) if (stream === 2) errors += new TextDecoder().decode(bytes);
        take(pictures);
      });
      if (done.status >= 128) throw new Error(errors.trim() || `status ${done.status}`);
      return done.status;
    };
  }

  /**
   * What takes the parts of a run as they come.
   * @param {(number | null)[]} shots
   */
  taker(shots) {
    const decoder = new TextDecoder();
    let errors = '';
    let count = 0;
    let isBegun = false;
    /** @param {import('./machine.js').Part} part */
    const part = ({ outputs, pictures }) => {
      for (const { stream, bytes } of outputs) {
        this.console.write(stream, bytes);
        if (stream === 2 && errors.length < 10_000) errors += decoder.decode(bytes, { stream: true });
      }
      for (const picture of pictures) {
        const frame = shots[count];
        count += 1;
        if (typeof frame === 'number') this.film.add(frame, picture);
      }
      if (pictures.length) {
        this.film.update();
        this.say(`It runs: frame ${this.film.shown.at(-1)?.frame ?? 0} of ${this.film.total} ..`);
        if (!isBegun && this.film.playsAtOnce && this.film.shown.length > 1 && !matchMedia('(prefers-reduced-motion: reduce)').matches) {
          isBegun = true;
          this.film.setPlaying(true);
        }
      }
    };
    return { part, errors: () => errors };
  }

  /**
   * @param {import('./machine.js').Done} done
   * @param {import('./script.js').Composed} composed
   * @param {string} errors
   */
  finish(done, composed, errors) {
    if (done.status >= 128) return this.refused(done.status, composed, errors);
    const report = reportWithoutFilm(new TextDecoder().decode(done.own.report), composed.shots);
    byId('report').textContent = report;
    showChanges(byId('files'), done.changed);
    this.sound.load(done.own.samples);
    if (this.film.isPlaying) this.film.setPlaying(true);
    const [, instructions] = /^instructions (\d+)$/m.exec(report) ?? [];
    const [, misses] = /^misses (\d+)$/m.exec(report) ?? [];
    const [, cuts] = /^cuts (\d+)$/m.exec(report) ?? [];
    const parts = [`status ${done.status}`];
    if (instructions) parts.push(`${rounded(Number(instructions))} instructions in ${Math.max(1, Math.round(done.milliseconds))} ms`);
    if (Number(cuts)) parts.push(`${cuts} vectors used up their budget`);
    if (misses) parts.push(misses === '0' ? 'no expect missed' : `${misses} expects missed`);
    return this.say(parts.join(' \u00B7 '), Number(misses) > 0 || Number(cuts) > 0);
  }

  /**
   * @param {number} status
   * @param {import('./script.js').Composed} composed
   * @param {string} errors
   */
  refused(status, composed, errors) {
    const line = errors.trim().split('\n').at(-1) ?? '';
    const fault = scriptFault(line);
    if (!fault) return this.say(`It did not run: ${line || `status ${status}`}`, true);
    const origin = composed.origins[fault.line - 1];
    const place = typeof origin === 'number' ? `line ${origin} of the script` : origin;
    if (typeof origin === 'number') this.scriptFaultLine = origin;
    return this.say(`It did not run: ${place}: ${fault.kind}: ${meaningOf(fault.kind)}`, true);
  }
}
