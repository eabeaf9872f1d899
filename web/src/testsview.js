/** The list of a project's tests: each with what its run gives, again after each change. */
import { Ended, messageOf } from './machine.js';
import { testsOf } from './testing.js';

/** @typedef {import('./testing.js').Result} Result */
/**
 * @typedef {object} Calls
 * @property {() => {project: import('./project.js').Project, files: [string, Uint8Array][]}} source
 * @property {(path: string, line: number) => void} open  The line counts from 1.
 * @property {(path: string, misses: import('./testing.js').Miss[]) => void} showMisses
 * @property {() => void} clearMisses
 */

const PAUSE = 600;

/** @param {string} id */
const byId = (id) => /** @type {any} */ (document.getElementById(id));

export class TestsView {
  /**
   * @param {import('./testing.js').Tester} tester
   * @param {Calls} calls
   */
  constructor(tester, calls) {
    this.tester = tester;
    this.calls = calls;
    this.timer = 0;
    /** @type {Result[]} */
    this.results = [];
    this.isRunning = false;
    byId('tests-run').addEventListener('click', () => this.now());
  }

  /** Runs all when nothing was changed for a moment. */
  soon() {
    clearTimeout(this.timer);
    this.timer = setTimeout(() => this.now(), PAUSE);
  }

  /** Another project is open. */
  forget() {
    clearTimeout(this.timer);
    this.tester.machine.end();
    this.results = [];
    this.show();
    this.say('');
  }

  /** @param {string} text */
  say(text) {
    byId('tests-said').textContent = text;
  }

  async now() {
    clearTimeout(this.timer);
    const { project, files } = this.calls.source();
    const tests = testsOf(project);
    this.results = [];
    this.isRunning = true;
    this.calls.clearMisses();
    this.show();
    try {
      for (const test of tests) {
        this.say(`${test.name} runs ..`);
        this.results.push(await this.tester.result(project, files, test));
      }
      this.finish();
    } catch (error) {
      if (error instanceof Ended) return;
      this.say(`The tests failed: ${messageOf(error)}`);
    }
    this.isRunning = false;
    this.show();
  }

  finish() {
    const failed = this.results.filter(({ faults, misses }) => faults.length || misses.length).length;
    this.say(this.results.length ? `${this.results.length - failed} passed, ${failed} failed` : 'The project has no test.');
    for (const { test, misses } of this.results) if (misses.length) this.calls.showMisses(test.script, misses);
    byId('tab-tests').textContent = this.results.length ? `Tests ${this.results.length - failed}/${this.results.length}` : 'Tests';
    byId('tab-tests').classList.toggle('missed', failed > 0);
  }

  show() {
    byId('tests-list').replaceChildren(...this.results.map((result) => this.itemOf(result)));
    if (!this.results.length) byId('tab-tests').textContent = 'Tests';
  }

  /** @param {Result} result */
  itemOf({ test, faults, misses }) {
    const item = document.createElement('li');
    const isRight = !faults.length && !misses.length;
    item.append(`${isRight ? 'passed' : 'FAILED'} ${test.name}`);
    item.className = isRight ? '' : 'missed';
    const inner = document.createElement('ul');
    for (const fault of faults) inner.append(this.lineOf(fault));
    for (const { line, text } of misses) {
      const button = document.createElement('button');
      button.type = 'button';
      button.textContent = `${test.script}:${line}: ${text}`;
      button.addEventListener('click', () => this.calls.open(test.script, line));
      const row = this.lineOf('');
      row.append(button);
      inner.append(row);
    }
    if (inner.childElementCount) item.append(inner);
    return item;
  }

  /** @param {string} text */
  lineOf(text) {
    const row = document.createElement('li');
    row.textContent = text;
    return row;
  }
}
