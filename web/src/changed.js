/** The files that a run changed, to look at and to save. */

/** @typedef {import('./machine.js').Change} Change */

const MOST_SHOWN = 4096;

/**
 * Saves bytes as a file of the computer.
 * @param {string} name
 * @param {Uint8Array} bytes
 * @param {string} [type]
 */
export function save(name, bytes, type = 'application/octet-stream') {
  const link = document.createElement('a');
  link.href = URL.createObjectURL(new Blob([bytes], { type }));
  link.download = name.split('/').at(-1) ?? name;
  link.click();
  setTimeout(() => URL.revokeObjectURL(link.href), 10_000);
}

/**
 * Bytes as text, or as lines of hexadecimal digits where they are none.
 * @param {Uint8Array} bytes
 */
function shownBytes(bytes) {
  const part = bytes.subarray(0, MOST_SHOWN);
  const more = bytes.length > part.length ? '\n..' : '';
  try {
    const text = new TextDecoder('utf-8', { fatal: true }).decode(part, { stream: true });
    // eslint-disable-next-line no-control-regex
    if (!/[\u0000-\u0008\u000e-\u001f]/.test(text)) return text + more;
  } catch {
    // It is no text.
  }
  const lines = [];
  for (let at = 0; at < part.length; at += 16) {
    const digits = [...part.subarray(at, at + 16)].map((byte) => byte.toString(16).padStart(2, '0'));
    lines.push(`${at.toString(16).padStart(4, '0')}  ${digits.join(' ')}`);
  }
  return lines.join('\n') + more;
}

/**
 * @param {string} name
 * @param {string | HTMLElement} content
 */
function cell(name, content) {
  const made = document.createElement(name);
  made.append(content);
  return made;
}

/** @param {Change} change */
function rowsOf({ path, bytes }) {
  const row = document.createElement('tr');
  if (!bytes) {
    row.append(cell('td', path), cell('td', 'deleted'), cell('td', ''));
    return [row];
  }
  const button = document.createElement('button');
  button.type = 'button';
  button.textContent = 'Save';
  button.setAttribute('aria-label', `Save ${path}`);
  button.addEventListener('click', () => save(path, bytes));
  row.append(cell('td', path), cell('td', `${bytes.length} bytes`), cell('td', button));
  const below = document.createElement('tr');
  const whole = document.createElement('td');
  whole.colSpan = 3;
  whole.append(cell('pre', shownBytes(bytes)));
  below.append(whole);
  return [row, below];
}

/**
 * @param {HTMLElement} panel
 * @param {Change[]} changed
 */
export function showChanges(panel, changed) {
  if (!changed.length) {
    panel.textContent = 'The run changed no file.';
    return;
  }
  const table = document.createElement('table');
  const head = document.createElement('tr');
  head.append(cell('th', 'File'), cell('th', 'Size'), cell('th', ''));
  table.append(head, ...changed.flatMap(rowsOf));
  panel.replaceChildren(table);
}
