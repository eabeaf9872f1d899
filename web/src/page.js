/** The page: what its parts do together. */
import { fromBase64, inflate } from './archive.js';
import { ask } from './ask.js';
import { save, showChanges } from './changed.js';
import { Checker } from './checker.js';
import { Console } from './console.js';
import { Debugger } from './debug.js';
import { DebugView } from './debugview.js';
import { definitionOf, scopeAt } from './definitions.js';
import { Editor } from './editor.js';
import { filmOf, zipOf } from './exports.js';
import { meaningOf, placeOfColumn } from './faults.js';
import { Film } from './film.js';
import { Live } from './live.js';
import { Machine, messageOf } from './machine.js';
import { faultOfPath } from './paths.js';
import { bytesOfFile, linkOf, NO_SETTINGS, projectOf, projectOfLink, Store } from './project.js';
import { Runner } from './runner.js';
import { composeScript } from './script.js';
import { fillList, isProgram, readSettings, showSettings } from './settings.js';
import { Sound, wavOf } from './sound.js';
import { makeTabs, markTab } from './tabs.js';
import { Tester, testsOf } from './testing.js';
import { TestsView } from './testsview.js';
import { toBase64 } from './archive.js';

/** @typedef {import('./project.js').Project} Project */

const KEEP_PAUSE = 250;
const MOST_LINK = 60_000;
const MOST_DATA = 32 << 20;
const FIRST = 'bounce';
/** A module with a 64-bit memory. */
const WITH_MEMORY64 = Uint8Array.of(0, 97, 115, 109, 1, 0, 0, 0, 5, 3, 1, 4, 1);
const NEW_SOURCE = `( What this program does. )

|10 @Console &vector $8 &write

|0100 @on-reset ( -> )
	;text print
	BRK

@print ( text* -- )
	&next
		LDAk .Console/write DEO
		INC2 LDAk ?&next
	POP2 JMP2r

@text
	"Hello! 0a 00
`;

/** @param {string} id */
const byId = (id) => /** @type {any} */ (document.getElementById(id));

/**
 * The bytes of a part of the page.
 * @param {string} id
 */
async function dataOf(id) {
  return inflate(fromBase64(byId(id).textContent), MOST_DATA);
}

class Page {
  /**
   * @param {Promise<WebAssembly.Module>} module
   * @param {Project[]} examples
   */
  constructor(module, examples) {
    this.examples = examples;
    this.store = new Store();
    this.key = '';
    /** @type {Project} */
    this.project = projectOf(examples[0]);
    this.keepTimer = 0;
    /** @type {Uint8Array | null} */
    this.rom = null;
    /** @type {import('./faults.js').Fault | null} */
    this.fault = null;
    this.editor = new Editor(byId('editor'), {
      changed: () => this.changed(),
      run: () => this.run(),
      define: (word) => this.goToDefinition(word),
      breaks: () => this.breaksChanged(),
    });
    this.film = new Film();
    this.sound = new Sound();
    this.film.onPlaying = (isPlaying) => (isPlaying ? this.sound.play(this.film.shown[this.film.place].frame) : this.sound.stop());
    const source = byId('data-worker').textContent;
    this.checker = new Checker(new Machine(source, module), () => this.sources(), (checked) => this.showChecked(checked));
    this.runner = new Runner(new Machine(source, module), { film: this.film, sound: this.sound, console: new Console(byId('console')) });
    this.runner.onState = () => this.showRunning();
    this.debug = new DebugView(new Debugger(new Machine(source, module)), {
      source: () => ({ project: this.project, files: this.sources().files }),
      lineBreaks: () => this.editor.lineBreaks(),
      dropLineBreak: (found) => this.editor.dropLineBreak(found),
      showLine: (place) => this.showLine(place),
      stopRun: () => this.runner.end(),
    });
    this.tests = new TestsView(new Tester(new Machine(source, module)), {
      source: () => ({ project: this.project, files: this.sources().files }),
      open: (path, line) => this.openLine(path, line),
      showMisses: (path, misses) => this.showMisses(path, misses),
      clearMisses: () => this.editor.clearMisses(),
    });
    this.live = new Live(byId('screen'), {
      show: (frame, picture) => this.film.showOther(frame, picture),
      stopped: (script, message) => this.liveStopped(script, message),
    });
    this.wire();
  }

  wire() {
    /**
     * @param {string} id
     * @param {() => unknown} call
     */
    const onClick = (id, call) => byId(id).addEventListener('click', call);
    onClick('run', () => this.run());
    onClick('stop', () => this.runner.end());
    onClick('new', () => this.open({ ...this.fresh() }));
    onClick('delete', () => this.deleteProject());
    onClick('share', () => this.share());
    onClick('save-rom', () => this.saveRom());
    onClick('save-project', () => this.saveProject());
    onClick('save-film', () => this.saveFilm());
    onClick('save-sound', () => this.saveSound());
    onClick('add', () => this.addFile());
    onClick('rename', () => this.renameFile());
    onClick('remove', () => this.removeFile());
    onClick('fault', () => this.goToFault());
    onClick('open-files', () => byId('chooser').click());
    onClick('live', () => this.toggleLive());
    onClick('tests-add', () => this.saveAsTest());
    onClick('sound', () => this.toggleSound());
    byId('chooser').addEventListener('change', () => this.takeFiles(byId('chooser').files));
    byId('examples').addEventListener('change', () => this.openExample(byId('examples').value));
    byId('projects').addEventListener('change', () => this.openKept(byId('projects').value));
    byId('settings').addEventListener('input', () => this.settingsChanged());
    makeTabs(byId('tabs'), (tab) => this.showFile(tab.dataset.path ?? ''));
    makeTabs(byId('results'), (tab) => this.showResult(tab));
    document.addEventListener('keydown', (event) => {
      if (!byId('debug').hidden && this.debug.key(event)) event.preventDefault();
      if (event.key !== 'Enter' || !(event.ctrlKey || event.metaKey) || event.defaultPrevented) return;
      event.preventDefault();
      this.run();
    });
    document.addEventListener('visibilitychange', () => this.keep());
    window.addEventListener('pagehide', () => this.keep());
    window.addEventListener('hashchange', () => this.openLink());
    this.wireDrops();
  }

  wireDrops() {
    document.addEventListener('dragover', (event) => event.preventDefault());
    document.addEventListener('drop', (event) => {
      event.preventDefault();
      if (event.dataTransfer?.files.length) this.takeFiles(event.dataTransfer.files);
    }, true);
  }

  /** What the page begins with: a shared project, the one that was open last, or an example. */
  async begin() {
    fillList(byId('examples'), [['', 'Choose one'], ...this.examples.map(({ name }) => /** @type {[string, string]} */ ([name, name]))], '');
    this.listProjects();
    if (await this.openLink()) return;
    const key = this.store.current();
    if (key) this.openKept(key);
    else this.openExample(FIRST);
  }

  /** @returns {Project} */
  fresh() {
    const settings = { ...NO_SETTINGS };
    const files = [{ path: 'main.tal', text: NEW_SOURCE, isBinary: false }];
    return { name: 'new', files, main: 'main.tal', script: '', open: 'main.tal', settings, isExample: false };
  }

  /**
   * @param {string} text
   * @param {boolean} [isFault]
   */
  notice(text, isFault = true) {
    byId('notice').textContent = text;
    byId('notice').hidden = !text;
    byId('notice').classList.toggle('plain', !isFault);
  }

  /**
   * Shows a project; what was open is kept.
   * @param {Project} project
   * @param {string} [key]
   */
  open(project, key = this.store.newKey()) {
    this.keep();
    this.isOpening = true;
    this.project = project;
    this.key = key;
    this.runner.clear();
    this.debug.forget();
    this.tests.forget();
    showChanges(byId('files'), []);
    byId('report').textContent = '';
    this.editor.load(project.files);
    showSettings(project);
    this.showFile(project.open, false);
    this.isOpening = false;
    this.notice('');
    this.keep();
    this.listProjects();
    this.checker.now();
    if (this.hasTests()) this.tests.soon();
  }

  /** @param {string} key */
  openKept(key) {
    const project = this.store.read(key);
    if (project) this.open(project, key);
    else this.notice('This project is no longer kept.');
  }

  /** @param {string} name */
  openExample(name) {
    byId('examples').value = '';
    const example = this.examples.find((each) => each.name === name);
    if (!example) return;
    const kept = this.store.all().find(([, project]) => project.isExample && project.name === name);
    this.open(projectOf(structuredClone(example)), kept?.[0]);
    this.run();
  }

  /** Opens the project of the link, if there is one; the link is then taken out of the address. */
  async openLink() {
    const [, text] = /^#p=([\w-]+)$/.exec(window.location.hash) ?? [];
    if (!text) return false;
    window.history.replaceState(null, '', window.location.pathname + window.location.search);
    try {
      const project = await projectOfLink(text);
      this.open({ ...project, isExample: false });
      this.notice('This project came by a link. Your own ones are under Project.', false);
      return true;
    } catch (error) {
      this.notice(`The link carries no project: ${messageOf(error)}.`);
      return false;
    }
  }

  hasTests() {
    return testsOf(this.project).length > 0;
  }

  listProjects() {
    const kept = this.store.all();
    if (!kept.some(([key]) => key === this.key) && this.key) kept.push([this.key, this.project]);
    fillList(byId('projects'), kept.map(([key, { name }]) => [key, name]), this.key);
  }

  changed() {
    if (this.isOpening) return;
    this.touch();
    if (this.debug.view) this.debug.forget();
    if (this.hasTests()) this.tests.soon();
    this.checker.soon();
  }

  /** Notes that the user changed the project. */
  touch() {
    this.project.isExample = false;
    clearTimeout(this.keepTimer);
    this.keepTimer = setTimeout(() => this.keep(), KEEP_PAUSE);
  }

  /** Takes the texts of the editor into the project, and keeps it in the browser. */
  keep() {
    clearTimeout(this.keepTimer);
    if (!this.key) return;
    for (const file of this.project.files) file.text = this.editor.text(file.path) ?? file.text;
    this.store.keep(this.key, this.project);
    if (this.store.fault) this.notice(this.store.fault);
  }

  settingsChanged() {
    const { main } = this.project;
    readSettings(this.project);
    this.touch();
    if (main !== this.project.main) this.checker.now();
  }

  /** @returns {{main: string, files: [string, Uint8Array][]}} */
  sources() {
    for (const file of this.project.files) file.text = this.editor.text(file.path) ?? file.text;
    return { main: this.project.main, files: this.project.files.map((file) => [file.path, bytesOfFile(file)]) };
  }

  showTabs() {
    const made = this.project.files.map(({ path }, index) => {
      const tab = document.createElement('button');
      tab.type = 'button';
      tab.id = `file-${index}`;
      tab.dataset.path = path;
      tab.setAttribute('role', 'tab');
      tab.setAttribute('aria-controls', 'editor');
      tab.textContent = path;
      return tab;
    });
    byId('tabs').replaceChildren(...made);
    markTab(byId('tabs'), made.find((tab) => tab.dataset.path === this.project.open) ?? made[0]);
  }

  /**
   * @param {string} path
   * @param {boolean} [isChosen]
   */
  showFile(path, isChosen = true) {
    const file = this.project.files.find((each) => each.path === path) ?? this.project.files[0];
    this.project.open = file.path;
    this.showTabs();
    this.editor.show(file.path, file.isBinary ? bytesOfFile(file).length : 0);
    if (this.fault) this.editor.showFault(this.fault);
    if (isChosen) this.keep();
  }

  /** @param {HTMLElement} tab */
  showResult(tab) {
    markTab(byId('results'), tab);
    for (const name of ['console', 'report', 'files', 'debug', 'tests']) byId(name).hidden = tab.id !== `tab-${name}`;
  }

  /** @param {import('./checker.js').Checked} checked */
  showChecked({ fault, text, rom }) {
    this.rom = rom;
    this.fault = fault;
    this.editor.clearFault();
    if (fault) this.editor.showFault(fault);
    const button = byId('fault');
    button.hidden = !fault && !text;
    button.textContent = fault ? `${fault.path}:${fault.line}:${fault.column}: ${fault.kind}: ${fault.word}` : text;
    button.title = fault ? meaningOf(fault.kind) : '';
    byId('size').textContent = rom ? `ROM: ${rom.length.toLocaleString('en')} ${rom.length === 1 ? 'byte' : 'bytes'}` : 'no ROM';
    byId('save-rom').disabled = !rom;
  }

  /**
   * @param {string} path
   * @param {number} line  from 1
   */
  openLine(path, line) {
    if (path !== this.editor.path) this.showFile(path);
    this.editor.goTo(line - 1, 0);
  }

  /**
   * Shows the expects of a script that missed, at their lines and in the film.
   * @param {string} path
   * @param {import('./testing.js').Miss[]} misses
   */
  showMisses(path, misses) {
    this.editor.showMisses(path, misses);
    if (path !== this.project.script) return;
    this.film.misses = misses.map(({ line }) => line);
    this.film.drawMarks();
  }

  /** The present run becomes a test: its script with what it gives. */
  async saveAsTest() {
    const { project } = this;
    const { files } = this.sources();
    if (project.main.endsWith('.setup')) return this.notice('A line of machines is no test of the page.');
    const script = new TextDecoder().decode(files.find(([path]) => path === project.script)?.[1] ?? new Uint8Array(0));
    const has = (/** @type {string} */ name) => files.some(([path]) => path.startsWith(`${name}.`));
    let number = 1;
    while (has(`tests/run-${number}`)) number += 1;
    try {
      const test = { name: `tests/run-${number}`, script: composeScript(script, project.settings) };
      const made = await this.tests.tester.recorded(project, files, test);
      for (const [path, bytes] of made) this.putFile(fileOfBytes(path, bytes));
      this.notice(`The test ${test.name} is ${made.map(([path]) => path).join(', ')}.`, false);
    } catch (error) {
      this.notice(`It is no test: ${messageOf(error)}.`);
    }
    return this.tests.now();
  }

  goToFault() {
    if (!this.fault) return;
    const { path, line, column } = this.fault;
    this.showFile(path);
    const text = (this.editor.text(path) ?? '').split('\n')[line - 1] ?? '';
    this.editor.goTo(line - 1, placeOfColumn(text, column));
  }

  /** @param {string} word */
  goToDefinition(word) {
    const sources = this.project.files.map(({ path }) => /** @type {[string, string]} */ ([path, this.editor.text(path) ?? '']));
    const scope = scopeAt(this.editor.text(this.editor.path) ?? '', this.editor.view.getCursor().line);
    const found = definitionOf(word, scope, sources);
    if (!found) return;
    if (found.path !== this.editor.path) this.showFile(found.path);
    this.editor.goTo(found.line, found.place);
  }

  /** Shows the debugger, if a break was set. */
  breaksChanged() {
    this.debug.showBreaks();
    if (byId('debug').hidden && this.editor.lineBreaks().length) this.showResult(byId('tab-debug'));
  }

  /**
   * Marks the line that the debugger is at.
   * @param {import('./places.js').Word | null} place
   */
  showLine(place) {
    if (place && place.path !== this.editor.path) this.showFile(place.path, false);
    this.editor.showHere(place ? place.line : null);
  }

  async run(isShownAnew = true) {
    this.notice('');
    this.keep();
    this.film.playsAtOnce = isShownAnew;
    await this.runner.run(this.project, this.sources().files);
    if (this.runner.scriptFaultLine && this.project.script) {
      this.showFile(this.project.script);
      this.editor.goTo(this.runner.scriptFaultLine - 1, 0);
    }
  }

  showRunning() {
    byId('stop').disabled = !this.runner.isRunning;
    byId('look').setAttribute('aria-busy', String(this.runner.isRunning));
  }

  toggleSound() {
    this.sound.isOn = !this.sound.isOn;
    byId('sound').setAttribute('aria-pressed', String(this.sound.isOn));
    if (!this.sound.isOn) this.sound.stop();
    else if (this.film.isPlaying) this.film.setPlaying(true);
  }

  toggleLive() {
    if (this.live.isOn) {
      this.live.stop('');
      return;
    }
    const { project, film } = this;
    const { files } = this.sources();
    const script = new TextDecoder().decode(files.find(([path]) => path === project.script)?.[1] ?? new Uint8Array(0));
    film.setPlaying(false);
    this.runner.end();
    byId('live').setAttribute('aria-pressed', 'true');
    byId('screen').classList.add('live');
    this.runner.say('Arrow keys, Control (a), Alt (b), Shift (select), Home (start), characters and the mouse. Escape ends it.');
    const frame = film.shown[film.place]?.frame ?? 0;
    this.live.start(composeScript(script, project.settings), frame, this.runner.player(project, files));
  }

  /**
   * What was played becomes a script of the project, and its film is shown.
   * @param {string} script
   * @param {string} message
   */
  liveStopped(script, message) {
    byId('live').setAttribute('aria-pressed', 'false');
    byId('screen').classList.remove('live');
    this.runner.end();
    const base = this.project.main.replace(/\.\w+$/, '');
    let number = 1;
    const has = (/** @type {string} */ path) => this.project.files.some((file) => file.path === path);
    while (has(`${base}-played-${number}.script`)) number += 1;
    const path = `${base}-played-${number}.script`;
    this.putFile({ path, text: script, isBinary: false });
    Object.assign(this.project.settings, { args: '', input: '', ends: false, clock: '', frames: '0' });
    this.project.script = path;
    showSettings(this.project);
    this.keep();
    this.run(false);
    this.notice(`${message} What you played is the script ${path}.`.trim(), false);
  }

  async deleteProject() {
    if (await ask(`Delete the project ${this.project.name} from this browser?`, null) === null) return;
    const { key } = this;
    this.key = '';
    this.store.drop(key);
    const rest = this.store.all();
    if (rest.length) this.openKept(rest[0][0]);
    else this.openExample(FIRST);
  }

  async share() {
    this.keep();
    const link = `${window.location.href.split('#')[0]}#p=${await linkOf(this.project)}`;
    this.link = link;
    const size = link.length > MOST_LINK ? ' It is long: not every program takes such a link.' : '';
    try {
      await navigator.clipboard.writeText(link);
      this.notice(`The link with all of the project is copied (${link.length.toLocaleString('en')} characters).${size}`, false);
    } catch {
      await ask(`This link carries all of the project. Copy it.${size}`, link);
    }
  }

  saveRom() {
    if (this.rom) save(this.nameOfFile('.rom'), this.rom);
  }

  async saveProject() {
    save(`${this.project.name}.zip`, await zipOf(this.sources().files));
  }

  /** The film as far as it has come. */
  async saveFilm() {
    const button = byId('save-film');
    button.disabled = true;
    save(this.nameOfFile('.png'), await filmOf([...this.film.shown]), 'image/png');
    button.disabled = false;
  }

  saveSound() {
    save(this.nameOfFile('.wav'), wavOf(this.sound.samples), 'audio/wav');
  }

  /**
   * The program's name with another ending.
   * @param {string} end
   */
  nameOfFile(end) {
    return `${this.project.main.replace(/\.\w+$/, '')}${end}`;
  }

  /** @param {string} path */
  faultOfNewPath(path) {
    return faultOfPath(path) || (this.project.files.some((file) => file.path === path) ? 'A file has this name already.' : '');
  }

  async addFile() {
    const hasScript = this.project.files.some((file) => file.path.endsWith('.script'));
    const offered = hasScript ? 'lib.tal' : this.project.main.replace(/\.\w+$/, '.script');
    const path = await ask('The name of the new file. A .script drives the run.', offered, (each) => this.faultOfNewPath(each));
    if (path === null) return;
    this.putFile({ path, text: '', isBinary: false });
    this.showFile(path);
  }

  /**
   * Adds a file, or replaces the one of its name.
   * @param {import('./project.js').ProjectFile} file
   */
  putFile(file) {
    const { project } = this;
    project.files = [...project.files.filter((each) => each.path !== file.path), file];
    this.editor.documents.delete(file.path);
    if (!file.isBinary) this.editor.add(file.path, file.text);
    if (file.path.endsWith('.script') && !project.script) project.script = file.path;
    this.filesChanged();
  }

  filesChanged() {
    const { project } = this;
    const programs = project.files.filter(({ path }) => isProgram(path));
    if (!project.files.some(({ path }) => path === project.main)) project.main = (programs[0] ?? project.files[0]).path;
    if (!project.files.some(({ path }) => path === project.script)) project.script = '';
    showSettings(project);
    this.touch();
    this.showTabs();
    this.checker.soon();
  }

  async renameFile() {
    const { project } = this;
    const file = project.files.find((each) => each.path === project.open);
    if (!file) return;
    const path = await ask(`The new name of ${file.path}.`, file.path, (each) => (each === file.path ? '' : this.faultOfNewPath(each)));
    if (path === null || path === file.path) return;
    const old = file.path;
    file.text = this.editor.text(old) ?? file.text;
    this.editor.documents.delete(old);
    file.path = path;
    if (!file.isBinary) this.editor.add(path, file.text);
    if (project.main === old) project.main = path;
    if (project.script === old) project.script = path.endsWith('.script') ? path : '';
    this.showFile(path);
    this.filesChanged();
  }

  async removeFile() {
    const { project } = this;
    if (project.files.length < 2) return this.notice('The project has no other file.');
    if (await ask(`Remove ${project.open} from the project?`, null) === null) return undefined;
    project.files = project.files.filter((file) => file.path !== project.open);
    this.editor.documents.delete(project.open);
    this.showFile(project.files[0].path);
    return this.filesChanged();
  }

  /**
   * Takes files of the computer into the project.
   * @param {FileList} list
   */
  async takeFiles(list) {
    let last = '';
    for (const each of list) {
      const bytes = new Uint8Array(await each.arrayBuffer());
      if (faultOfPath(each.name)) {
        this.notice(`${each.name}: ${faultOfPath(each.name)}`);
        continue;
      }
      this.putFile(fileOfBytes(each.name, bytes));
      last = each.name;
    }
    byId('chooser').value = '';
    if (last) this.showFile(last);
  }
}

/**
 * @param {string} path
 * @param {Uint8Array} bytes
 * @returns {import('./project.js').ProjectFile}
 */
function fileOfBytes(path, bytes) {
  try {
    const text = new TextDecoder('utf-8', { fatal: true, ignoreBOM: true }).decode(bytes);
    if (!/[\0\r]/.test(text)) return { path, text, isBinary: false };
  } catch {
    // It is no text.
  }
  return { path, text: toBase64(bytes), isBinary: true };
}

async function main() {
  const started = performance.now();
  if (!WebAssembly.validate(WITH_MEMORY64)) {
    byId('notice').hidden = false;
    byId('notice').textContent = 'This browser cannot run the page: its WebAssembly has no 64-bit memory. '
      + 'Chrome, Edge and Chromium from 133 on and Firefox from 134 on have it.';
    for (const button of document.querySelectorAll('button, select')) button.setAttribute('disabled', '');
    return;
  }
  const module = dataOf('data-module').then((bytes) => WebAssembly.compile(bytes));
  const examples = JSON.parse(new TextDecoder().decode(await dataOf('data-examples')));
  const page = new Page(module, examples);
  Object.assign(globalThis, { uxnPage: page });
  await page.begin();
  await module;
  document.documentElement.dataset.ready = String(Math.round(performance.now() - started));
}

main();
