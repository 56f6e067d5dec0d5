// Sheets as tables, with changed cells marked by a word and a colour.

import { cellsOf, shown } from './changes.mjs';
import { label } from './names.mjs';

/** The most cells of a table: beyond it rows and columns without entries are left out, and then a list is shown. */
const MAX_CELLS = 6000;

export function element(tag, attributes, ...children) {
  const made = document.createElement(tag);
  for (const [name, value] of Object.entries(attributes)) made.setAttribute(name, value);
  made.append(...children);
  return made;
}

/**
 * The picture of a sheet. `changes` are cells to mark; `view` has the names and whether values are reports.
 */
export function picture(title, contents, changes, view) {
  const marks = new Map(changes.map((change) => [`${change.row},${change.col}`, change]));
  const all = (count) => Array.from({ length: count }, (_, number) => number);
  let [rows, cols] = [all(contents.rows), all(contents.cols)];
  let note = '';
  if (rows.length * cols.length > MAX_CELLS) {
    const places = [...contents.entries, ...changes.map(({ row, col }) => [row, col])];
    const used = (at) => [...new Set(places.map((place) => place[at]))].sort((a, b) => a - b);
    [rows, cols] = [used(0), used(1)];
    note = ` Of ${contents.rows} rows and ${contents.cols} columns, those without entries are left out.`;
  }
  const drawn =
    rows.length * cols.length > MAX_CELLS
      ? entryList(contents, marks, view)
      : table(rows, cols, cellsOf(contents), marks, view);
  const caption = `${title}. ${size(contents)}.${note}`;
  drawn.prepend(element('caption', {}, caption));
  return element('div', { class: 'scroll', role: 'region', tabindex: '0', 'aria-label': title }, drawn);
}

function size({ rows, cols, entries }) {
  return `${count(rows, 'row')}, ${count(cols, 'column')}, ${count(entries.length, 'entry', 'entries')}`;
}

/** A number with its noun. */
export function count(number, one, many = `${one}s`) {
  return `${number} ${number === 1 ? one : many}`;
}

function table(rows, cols, cells, marks, view) {
  const corner = element('td', { class: 'corner' });
  const heads = cols.map((col) => element('th', { scope: 'col' }, label(view.names, 'column', col)));
  const head = element('thead', {}, element('tr', {}, corner, ...heads));
  const body = rows.map((row) => {
    const first = element('th', { scope: 'row' }, label(view.names, 'row', row));
    const rest = cols.map((col) => cell(cells.get(`${row},${col}`), marks.get(`${row},${col}`), view));
    return element('tr', {}, first, ...rest);
  });
  return element('table', {}, head, element('tbody', {}, ...body));
}

function entryList(contents, marks, view) {
  const heads = ['row', 'column', 'value'].map((head) => element('th', { scope: 'col' }, head));
  const gone = [...marks.values()].filter(({ kind }) => kind === 'gone').map(({ row, col }) => [row, col, undefined]);
  const lines = [...contents.entries, ...gone].sort(([i, j], [k, l]) => i - k || j - l);
  const body = lines.map(([row, col, value]) =>
    element(
      'tr',
      {},
      element('th', { scope: 'row' }, label(view.names, 'row', row)),
      element('td', {}, label(view.names, 'column', col)),
      cell(value, marks.get(`${row},${col}`), view),
    ),
  );
  return element('table', {}, element('thead', {}, element('tr', {}, ...heads)), element('tbody', {}, ...body));
}

function cell(value, change, view) {
  const text = value === undefined ? element('span', { class: 'none' }, '·') : shown(value, view.asReports);
  if (value === undefined) text.setAttribute('aria-label', 'empty');
  if (value === undefined) text.setAttribute('role', 'img');
  if (!change) return element('td', {}, text);
  const marks = [change.kind];
  if (change.before !== undefined) marks.push(`was ${shown(change.before, view.asReports)}`);
  return element('td', { class: change.kind }, text, ...marks.map((mark) => element('small', {}, mark)));
}
