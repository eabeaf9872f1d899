/** Questions in a dialog. */

/** @param {string} id */
const byId = (id) => /** @type {any} */ (document.getElementById(id));

/**
 * Asks for a text, or with `value` null for a yes; null where the answer is no.
 * @param {string} text
 * @param {string | null} value
 * @param {(value: string) => string} [faultOf]
 * @returns {Promise<string | null>}
 */
export function ask(text, value, faultOf = () => '') {
  /** @type {HTMLDialogElement} */
  const dialog = byId('ask');
  /** @type {HTMLInputElement} */
  const input = byId('ask-value');
  byId('ask-text').textContent = text;
  byId('ask-fault').textContent = '';
  input.hidden = value === null;
  input.value = value ?? '';
  const form = /** @type {HTMLFormElement} */ (dialog.firstElementChild);
  return new Promise((resolve) => {
    form.onsubmit = (event) => {
      const isYes = /** @type {SubmitEvent} */ (event).submitter?.getAttribute('value') !== 'no';
      const fault = isYes && value !== null ? faultOf(input.value) : '';
      byId('ask-fault').textContent = fault;
      if (fault) return event.preventDefault();
      dialog.onclose = null;
      return resolve(isYes ? input.value : null);
    };
    input.onkeydown = (event) => {
      if (event.key !== 'Enter') return;
      event.preventDefault();
      form.requestSubmit(/** @type {HTMLElement} */ (form.querySelector('.first')));
    };
    dialog.onclose = () => resolve(null);
    dialog.showModal();
    if (value !== null) input.select();
  });
}
