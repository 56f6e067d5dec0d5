// What is different between two sheets, and what their values mean.

/** How a cell changed: it has a value that it had not, a larger or a smaller one, or none any more. */
export const KINDS = ['new', 'newer', 'older', 'gone'];

/** The cells of a sheet's contents, by `row,column`. */
export function cellsOf({ entries }) {
  return new Map(entries.map(([row, col, value]) => [`${row},${col}`, value]));
}

/** The changed cells, row by row: { row, col, kind, before, after }. */
export function changesBetween(before, after) {
  const [old, now] = [cellsOf(before), cellsOf(after)];
  const places = [...new Set([...old.keys(), ...now.keys()])].map((key) => key.split(',').map(Number));
  places.sort(([i, j], [k, l]) => i - k || j - l);
  return places.flatMap(([row, col]) => {
    const [was, is] = [old.get(`${row},${col}`), now.get(`${row},${col}`)];
    return was === is ? [] : [{ row, col, kind: kindOf(was, is), before: was, after: is }];
  });
}

function kindOf(was, is) {
  if (was === undefined) return 'new';
  if (is === undefined) return 'gone';
  return is > was ? 'newer' : 'older';
}

const STATES = { 1: 'in use', 2: 'returned', 3: 'lost' };

/** A report's words: 14053 is 14:05, lost. Undefined where the number is no report. */
export function reportOf(value) {
  const [hour, minute, state] = [Math.floor(value / 1000), Math.floor(value / 10) % 100, STATES[value % 10]];
  if (value < 0 || hour > 23 || minute > 59 || state === undefined) return undefined;
  return { time: `${String(hour).padStart(2, '0')}:${String(minute).padStart(2, '0')}`, state };
}

/** A value as it is shown. */
export function shown(value, asReports) {
  const report = asReports ? reportOf(value) : undefined;
  return report ? `${report.time} ${report.state}` : String(value);
}
