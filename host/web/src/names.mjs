// Names files: a line `row 2 medicine cupboard`, `column 1 Anna` or `place 0 reports` for each name, from 0 on; blank
// lines and lines that begin with # are skipped.

import { FileProblem } from './shelf_file.mjs';

/** The names of rows, columns and places, by number. */
export function readNames(text) {
  const names = { row: new Map(), column: new Map(), place: new Map() };
  text.split('\n').forEach((line, at) => {
    const trimmed = line.trim();
    if (trimmed === '' || trimmed.startsWith('#')) return;
    const fail = (why) => {
      throw new FileProblem(`Line ${at + 1} of the names file: ${why}`);
    };
    const match = /^(row|column|place)\s+(\d{1,4})(?:\s+(.*))?$/u.exec(trimmed);
    if (!match) fail('write it as row 2 medicine cupboard, column 1 Anna or place 0 reports.');
    const [, kind, digits, name] = match;
    if (!name) fail(`${kind} ${digits} has no name.`);
    if (/\p{Cc}/u.test(name)) fail('the name has a control character.');
    if (names[kind].has(Number(digits))) fail(`${kind} ${digits} has a name already.`);
    names[kind].set(Number(digits), name);
  });
  return names;
}

export const NO_NAMES = { row: new Map(), column: new Map(), place: new Map() };

/** What stands for a row, column or place: its name, or its number. */
export function label(names, kind, number) {
  return names[kind].get(number) ?? String(number);
}
