/** The editor: CodeMirror with a document for each file, and the fault beneath its word. */
import { meaningOf, placeOfColumn } from './faults.js';
import { linesMode, uxntalMode } from './mode.js';
import { isSource } from './paths.js';

/** @typedef {import('./faults.js').Fault} Fault */

/** @type {any} CodeMirror has no types here. */
const { CodeMirror } = /** @type {any} */ (globalThis);
const BREAKS = 'breaks';

/**
 * The word at a place of a line: where it begins and ends.
 * @param {string} line
 * @param {number} place
 */
export function wordAt(line, place) {
  let from = place;
  let to = place;
  while (from > 0 && line[from - 1] > ' ') from -= 1;
  while (to < line.length && line[to] > ' ') to += 1;
  return { from, to };
}

export class Editor {
  /**
   * @param {HTMLElement} parent
   * @param {{changed: () => void, run: () => void, define: (word: string) => void, breaks: () => void}} calls
   */
  constructor(parent, calls) {
    CodeMirror.defineMode('uxntal', () => uxntalMode);
    CodeMirror.defineMode('uxn-lines', () => linesMode);
    /** @type {Map<string, any>} */
    this.documents = new Map();
    this.path = '';
    /** @type {any[]} */
    this.shown = [];
    /** @type {any[]} */
    this.misses = [];
    this.leaves = false;
    this.calls = calls;
    this.view = CodeMirror(parent, {
      lineNumbers: true,
      gutters: [BREAKS, 'CodeMirror-linenumbers'],
      matchBrackets: true,
      styleActiveLine: true,
      indentWithTabs: true,
      indentUnit: 4,
      tabSize: 4,
      smartIndent: false,
      lineWrapping: false,
      screenReaderLabel: 'Source. Escape and then Tab leaves the editor.',
      extraKeys: this.keys(),
    });
    /** @type {{document: any, line: any} | null} */
    this.here = null;
    this.view.on('changes', () => calls.changed());
    this.view.on('gutterClick', (/** @type {any} */ _, /** @type {number} */ line) => this.toggleBreak(line));
    this.view.on('blur', () => {
      this.leaves = false;
    });
    this.view.getWrapperElement().addEventListener('click', (/** @type {MouseEvent} */ event) => {
      if (event.ctrlKey || event.metaKey) calls.define(this.wordAtCursor());
    });
  }

  keys() {
    const leaveOr = (/** @type {string} */ command) => (/** @type {any} */ view) => {
      if (this.leaves) return CodeMirror.Pass;
      return view.execCommand(command);
    };
    return {
      'Ctrl-Enter': () => this.calls.run(),
      'Cmd-Enter': () => this.calls.run(),
      F9: () => this.toggleBreak(this.view.getCursor().line),
      F12: () => this.calls.define(this.wordAtCursor()),
      Tab: leaveOr('defaultTab'),
      'Shift-Tab': leaveOr('indentLess'),
      Esc: () => {
        this.leaves = true;
      },
    };
  }

  wordAtCursor() {
    const { line, ch } = this.view.getCursor();
    const text = this.view.getLine(line);
    const { from, to } = wordAt(text, ch);
    return text.slice(from, to);
  }

  /**
   * Takes the files of a project; their histories are new.
   * @param {import('./project.js').ProjectFile[]} files
   */
  load(files) {
    this.documents.clear();
    for (const file of files) if (!file.isBinary) this.add(file.path, file.text);
  }

  /**
   * @param {string} path
   * @param {string} text
   */
  add(path, text) {
    this.documents.set(path, CodeMirror.Doc(text, isSource(path) ? 'uxntal' : 'uxn-lines'));
  }

  /**
   * Shows a file. A binary file is shown as a line of its size.
   * @param {string} path
   * @param {number} [bytes]
   */
  show(path, bytes = 0) {
    this.clearFault();
    this.path = path;
    const known = this.documents.get(path);
    this.view.swapDoc(known ?? CodeMirror.Doc(`${bytes} bytes`, 'uxn-lines'));
    this.view.setOption('readOnly', !known);
  }

  /**
   * @param {string} path
   * @returns {string | undefined}
   */
  text(path) {
    return this.documents.get(path)?.getValue('\n');
  }

  clearFault() {
    for (const each of this.shown) each.clear();
    this.shown = [];
  }

  /**
   * Marks the word of a fault, with what it means beneath it.
   * @param {Fault} fault
   */
  showFault(fault) {
    this.clearFault();
    if (fault.path !== this.path || !this.documents.has(this.path)) return;
    const line = Math.min(fault.line - 1, this.view.lastLine());
    const text = this.view.getLine(line);
    const { from, to } = wordAt(text, placeOfColumn(text, fault.column));
    const message = document.createElement('div');
    message.className = 'fault-line';
    message.textContent = `${fault.kind}: ${meaningOf(fault.kind)}`;
    this.shown.push(this.view.markText({ line, ch: from }, { line, ch: to }, { className: 'fault-word' }));
    const widget = this.view.addLineWidget(line, message);
    message.style.paddingLeft = `${Math.max(4, this.view.charCoords({ line, ch: from }, 'local').left)}px`;
    widget.changed();
    this.shown.push(widget);
  }

  /**
   * Shows what missed beneath the lines of a script.
   * @param {string} path
   * @param {{line: number, text: string}[]} misses  Lines count from 1.
   */
  showMisses(path, misses) {
    const shown = this.documents.get(path);
    for (const { line, text } of shown ? misses : []) {
      const message = document.createElement('div');
      message.className = 'miss-line';
      message.textContent = text;
      this.misses.push(shown.addLineWidget(line - 1, message));
    }
  }

  clearMisses() {
    for (const each of this.misses) each.clear();
    this.misses = [];
  }

  /**
   * Puts the cursor there.
   * @param {number} line
   * @param {number} place  both from 0
   */
  goTo(line, place) {
    this.view.setCursor({ line, ch: place });
    this.view.scrollIntoView(null, 80);
    this.view.focus();
  }

  /**
   * Sets a break at a line of the file that is shown, or takes it away.
   * @param {number} line
   */
  toggleBreak(line) {
    if (!isSource(this.path)) return;
    const mark = document.createElement('span');
    mark.className = 'break-mark';
    mark.textContent = '\u25CF';
    mark.title = 'Break';
    const isSet = Boolean(this.view.lineInfo(line).gutterMarkers?.[BREAKS]);
    this.view.setGutterMarker(line, BREAKS, isSet ? null : mark);
    this.calls.breaks();
  }

  /**
   * The lines with breaks, which go with their lines as one types.
   * @returns {{path: string, line: number}[]}
   */
  lineBreaks() {
    /** @type {{path: string, line: number}[]} */
    const found = [];
    for (const [path, each] of this.documents) {
      each.eachLine((/** @type {any} */ line) => {
        if (line.gutterMarkers?.[BREAKS]) found.push({ path, line: each.getLineNumber(line) });
      });
    }
    return found;
  }

  /** @param {{path: string, line: number}} found */
  dropLineBreak({ path, line }) {
    this.documents.get(path)?.setGutterMarker(line, BREAKS, null);
  }

  /**
   * Marks the line that the debugger is at; without one, none.
   * @param {number | null} line  from 0, of the file that is shown
   */
  showHere(line) {
    if (this.here) this.here.document.removeLineClass(this.here.line, 'background', 'here-line');
    this.here = null;
    if (line === null || line > this.view.lastLine()) return;
    const shown = this.view.getDoc();
    this.here = { document: shown, line: shown.addLineClass(line, 'background', 'here-line') };
    this.view.scrollIntoView({ line, ch: 0 }, 80);
  }

  refresh() {
    this.view.refresh();
  }
}
