/** The fields of a run, and what a project keeps of them. */
import { isRom, isSource } from './paths.js';

/** @typedef {import('./project.js').Project} Project */

const TEXTS = /** @type {const} */ (['args', 'input', 'clock', 'frames', 'budget', 'root']);

/** @param {string} id */
const field = (id) => /** @type {HTMLInputElement & HTMLSelectElement} */ (document.getElementById(id));

/**
 * @param {HTMLSelectElement} list
 * @param {[string, string][]} choices  values and texts
 * @param {string} chosen
 */
export function fillList(list, choices, chosen) {
  const made = choices.map(([value, text]) => {
    const option = document.createElement('option');
    option.value = value;
    option.textContent = text;
    return option;
  });
  list.replaceChildren(...made);
  list.value = chosen;
}

/** @param {string} path */
export function isProgram(path) {
  return isSource(path) || isRom(path) || path.endsWith('.setup');
}

/** @param {Project} project */
export function showSettings(project) {
  const paths = project.files.map((file) => file.path);
  fillList(field('main'), paths.filter(isProgram).map((path) => [path, path]), project.main);
  const scripts = paths.filter((path) => path.endsWith('.script'));
  fillList(field('script'), [['', 'none'], ...scripts.map((path) => /** @type {[string, string]} */ ([path, path]))], project.script);
  for (const name of TEXTS) field(name).value = project.settings[name];
  field('ends').checked = project.settings.ends;
}

/** @param {Project} project */
export function readSettings(project) {
  project.main = field('main').value || project.main;
  project.script = field('script').value;
  for (const name of TEXTS) project.settings[name] = field(name).value;
  project.settings.ends = field('ends').checked;
}

/** The fault of the fields; an empty text where they have none. */
export function faultOfSettings() {
  const wrong = [...document.querySelectorAll('#settings :invalid')].find((each) => each.matches('input, textarea'));
  if (!wrong) return '';
  document.querySelector('#settings')?.setAttribute('open', '');
  return `${wrong.parentElement?.firstChild?.textContent?.trim()}: this is no number of its form.`;
}
