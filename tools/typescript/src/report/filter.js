// The filter of the page: modules whose names have the text stay. It runs in a browser, and the page shows the field only where it does.
const field = /** @type {HTMLInputElement} */ (document.getElementById('filter'));
/** @type {(selector: string, show: (each: HTMLElement) => void) => void} */
const all = (selector, show) => /** @type {NodeListOf<HTMLElement>} */ (document.querySelectorAll(selector)).forEach(show);
field.hidden = false;
field.addEventListener('input', () => {
  const wanted = field.value.toLowerCase();
  all('[data-name]', (each) => { each.hidden = !(each.dataset.name || '').toLowerCase().includes(wanted); });
  all('nav details', (folder) => {
    const { length } = folder.querySelectorAll('li:not([hidden])');
    folder.hidden = length === 0;
    if (wanted && length) folder.setAttribute('open', '');
  });
});
