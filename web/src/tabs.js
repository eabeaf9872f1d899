/** Lists of tabs that the arrow keys go along. */

/**
 * @param {HTMLElement} list
 * @param {(tab: HTMLElement) => void} choose
 */
export function makeTabs(list, choose) {
  list.addEventListener('click', (event) => {
    const tab = /** @type {HTMLElement} */ (event.target).closest('[role=tab]');
    if (tab) choose(/** @type {HTMLElement} */ (tab));
  });
  list.addEventListener('keydown', (event) => {
    const tabs = /** @type {HTMLElement[]} */ ([...list.querySelectorAll('[role=tab]')]);
    const at = tabs.indexOf(/** @type {HTMLElement} */ (document.activeElement));
    const to = { ArrowRight: at + 1, ArrowLeft: at - 1, Home: 0, End: tabs.length - 1 }[event.key];
    if (at < 0 || to === undefined) return;
    event.preventDefault();
    const name = tabs[(to + tabs.length) % tabs.length].id;
    choose(tabs[(to + tabs.length) % tabs.length]);
    document.getElementById(name)?.focus();
  });
}

/**
 * Marks one tab of a list as chosen.
 * @param {HTMLElement} list
 * @param {HTMLElement} chosen
 */
export function markTab(list, chosen) {
  for (const tab of list.querySelectorAll('[role=tab]')) {
    tab.setAttribute('aria-selected', String(tab === chosen));
    tab.setAttribute('tabindex', tab === chosen ? '0' : '-1');
  }
}
