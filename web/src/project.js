/** Projects: files with their settings, how the browser keeps them, and how a link carries one. */
import { deflate, fromBase64, fromLinkText, inflate, toLinkText } from './archive.js';
import { faultOfPath } from './paths.js';

/** @typedef {{path: string, text: string, isBinary: boolean}} ProjectFile  The text of a binary file is its base64. */
/** @typedef {{args: string, input: string, ends: boolean, clock: string, frames: string, budget: string, root: string}} Settings */
/**
 * @typedef {object} Project
 * @property {string} name
 * @property {ProjectFile[]} files
 * @property {string} main
 * @property {string} script  '' for none
 * @property {string} open  the file in the editor
 * @property {Settings} settings
 * @property {boolean} isExample  whether it is an example that nobody has changed
 */

/** @type {Settings} */
export const NO_SETTINGS = { args: '', input: '', ends: false, clock: '', frames: '0', budget: '', root: '' };
const MOST_SHARED = 16 << 20;
const PREFIX = 'uxn.project.';
const CURRENT = 'uxn.current';

/**
 * @param {unknown} value
 * @returns {value is Record<string, unknown>}
 */
function isRecord(value) {
  return typeof value === 'object' && value !== null && !Array.isArray(value);
}

/**
 * @param {unknown} value
 * @returns {ProjectFile}
 */
function fileOf(value) {
  if (!isRecord(value) || typeof value.path !== 'string' || typeof value.text !== 'string') throw new TypeError('a file has another form');
  if (faultOfPath(value.path)) throw new TypeError(`a file name is no path: ${value.path}`);
  const isBinary = value.isBinary === true;
  if (isBinary) fromBase64(value.text);
  return { path: value.path, text: value.text, isBinary };
}

/**
 * A project out of a value that anybody may have made.
 * @param {unknown} value
 * @returns {Project}
 */
export function projectOf(value) {
  if (!isRecord(value) || !Array.isArray(value.files) || !value.files.length) throw new TypeError('it is no project');
  const files = value.files.map(fileOf);
  const paths = files.map((file) => file.path);
  if (new Set(paths).size !== paths.length) throw new TypeError('two files have one name');
  const given = isRecord(value.settings) ? value.settings : {};
  const settings = Object.fromEntries(
    Object.entries(NO_SETTINGS).map(([name, none]) => [name, typeof given[name] === typeof none ? given[name] : none]),
  );
  /**
   * @param {unknown} path
   * @param {string} other
   */
  const oneOf = (path, other) => (typeof path === 'string' && paths.includes(path) ? path : other);
  const main = oneOf(value.main, paths[0]);
  return {
    name: typeof value.name === 'string' ? value.name.slice(0, 80) : 'project',
    files,
    main,
    script: oneOf(value.script, ''),
    open: oneOf(value.open, main),
    settings: /** @type {Settings} */ (settings),
    isExample: value.isExample === true,
  };
}

/** @param {ProjectFile} file */
export function bytesOfFile(file) {
  return file.isBinary ? fromBase64(file.text) : new TextEncoder().encode(file.text);
}

/**
 * The fragment of a link that carries a project.
 * @param {Project} project
 */
export async function linkOf(project) {
  return toLinkText(await deflate(new TextEncoder().encode(JSON.stringify({ ...project, isExample: false }))));
}

/** @param {string} text */
export async function projectOfLink(text) {
  return projectOf(JSON.parse(new TextDecoder().decode(await inflate(fromLinkText(text), MOST_SHARED))));
}

/** What the browser keeps. Where it keeps nothing, `fault` says why. */
export class Store {
  constructor() {
    this.fault = '';
    /** @type {Storage | null} */
    this.storage = this.tried(() => window.localStorage) ?? null;
  }

  /**
   * @template T
   * @param {() => T} call
   * @returns {T | undefined}
   */
  tried(call) {
    try {
      const value = call();
      this.fault = '';
      return value;
    } catch (error) {
      this.fault = error instanceof DOMException && error.name === 'QuotaExceededError'
        ? "The browser's storage is full. What you write now is lost when the page closes."
        : 'The browser keeps nothing for this page. What you write is lost when the page closes.';
      return undefined;
    }
  }

  /**
   * The kept projects, by their keys.
   * @returns {[string, Project][]}
   */
  all() {
    const { storage } = this;
    if (!storage) return [];
    const keys = this.tried(() => Object.keys(storage).filter((key) => key.startsWith(PREFIX)).sort()) ?? [];
    return keys.flatMap((key) => {
      const project = this.read(key);
      return project ? [/** @type {[string, Project]} */ ([key, project])] : [];
    });
  }

  /** @param {string} key */
  read(key) {
    try {
      return projectOf(JSON.parse(this.storage?.getItem(key) ?? 'null'));
    } catch {
      return null;
    }
  }

  /** A key that no project has. */
  newKey() {
    return `${PREFIX}${Date.now().toString(36)}.${Math.random().toString(36).slice(2, 8)}`;
  }

  /**
   * @param {string} key
   * @param {Project} project
   */
  keep(key, project) {
    const { storage } = this;
    if (!storage) return;
    this.tried(() => {
      storage.setItem(key, JSON.stringify(project));
      storage.setItem(CURRENT, key);
    });
  }

  /** @param {string} key */
  drop(key) {
    this.tried(() => this.storage?.removeItem(key));
  }

  /** The key of the project that was open last, if it is kept. */
  current() {
    const key = this.tried(() => this.storage?.getItem(CURRENT)) ?? '';
    return key && this.read(key) ? key : '';
  }
}
