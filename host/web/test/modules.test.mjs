// The page's modules in node, on the library for wasm32.
import assert from 'node:assert/strict';
import { readFileSync } from 'node:fs';
import test from 'node:test';
import { crc32 } from 'node:zlib';
import { changesBetween, reportOf, shown } from '../src/changes.mjs';
import { Refusal } from '../src/library.mjs';
import { readNames } from '../src/names.mjs';
import { openFile } from '../src/opened.mjs';
import { bytesOf, checksum, FileProblem, isGuarded, readGuarded, sheetsOf } from '../src/shelf_file.mjs';
import { shelfOf, VERSION, wordsNeeded, writeGuarded } from '../src/shelf_file.mjs';
import { library, limits, MASK, OFFICE, officeShelf, PHONE, sentences, sheet } from './files.mjs';

const open = (bytes) => openFile(library, limits, sentences, bytes);

test('a sheet goes to a file and back', () => {
  for (const entries of [[], [[0, 0, -5]], OFFICE, [[4, 3, 2147483647], [4, 2, -2147483648]]]) {
    const words = sheet(5, 4, entries);
    const file = library.writeSheet(words);
    assert.deepEqual(library.readSheet(file), words);
    assert.deepEqual(open(file), { sheets: [words], shelfWords: undefined });
    const sorted = [...entries].sort(([i, j], [k, l]) => i - k || j - l);
    assert.deepEqual(library.contents(words), { rows: 5, cols: 4, entries: sorted });
  }
});

test('the largest sheet, and one entry too many', () => {
  const entries = Array.from({ length: limits.MAX_ENTRIES }, (_, k) => [k % 1000, Math.floor(k / 1000), k]);
  const words = sheet(limits.MAX_ROWS, limits.MAX_COLS, entries);
  assert.equal(words.length, limits.MAX_MATRIX_WORDS);
  assert.deepEqual(library.readSheet(library.writeSheet(words)), words);
  const one = sheet(limits.MAX_ROWS, limits.MAX_COLS, [[999, 999, 1]]);
  assert.throws(() => library.merge(words, one), (error) => error instanceof Refusal && error.code === 10);
});

test('the merge keeps the later report, and an overwrite does not', () => {
  const [office, phone, mask] = [OFFICE, PHONE, MASK].map((entries) => sheet(5, 4, entries));
  const before = library.contents(office);
  const merged = changesBetween(before, library.contents(library.merge(office, phone, mask)));
  assert.deepEqual(merged, [{ row: 3, col: 0, kind: 'new', before: undefined, after: 11202 }]);
  const everywhere = changesBetween(before, library.contents(library.merge(office, phone)));
  assert.deepEqual(everywhere.map(({ row, kind }) => [row, kind]), [[0, 'newer'], [3, 'new']]);
  const over = changesBetween(before, library.contents(library.overwrite(office, phone)));
  const kinds = over.map(({ row, kind }) => [row, kind]);
  assert.deepEqual(kinds, [[0, 'newer'], [1, 'gone'], [2, 'older'], [3, 'new'], [4, 'gone']]);
  const once = library.merge(office, phone);
  assert.deepEqual(library.contents(library.merge(once, phone)), library.contents(once));
});

test('sheets of other shapes are refused', () => {
  const code = (run) => assert.throws(run, (error) => error instanceof Refusal && error.code === 8);
  code(() => library.merge(sheet(5, 4, []), sheet(4, 5, [])));
  code(() => library.merge(sheet(5, 4, []), sheet(5, 4, []), sheet(1, 4, [])));
});

test('shelf files, guarded and bare', () => {
  const shelf = officeShelf();
  for (const file of [writeGuarded(shelf), bytesOf(shelf)]) {
    const { sheets, shelfWords } = open(file);
    assert.equal(shelfWords, 256);
    assert.deepEqual(sheets.flatMap((words, place) => (words ? [place] : [])), [0, 2]);
    assert.equal(sheets.length, 8);
    assert.deepEqual(sheets[0], sheet(5, 4, OFFICE));
  }
  assert.deepEqual(shelfOf(sheetsOf(shelf, limits.SLOTS), 256), shelf);
  assert.equal(shelfOf(sheetsOf(shelf, limits.SLOTS), 40), undefined);
  assert.deepEqual(open(bytesOf(new Uint32Array(8))).sheets, Array(8).fill(undefined));
});

test('the guard is the one of the command', () => {
  assert.equal(checksum(new TextEncoder().encode('123456789')), 0xcbf43926);
  const file = writeGuarded(new Uint32Array(8));
  assert.equal(file.length, 20 + 32);
  assert.equal(new TextDecoder().decode(file.subarray(0, 8)), 'OSTRUBEL');
  assert.deepEqual([...file.subarray(8, 16)], [VERSION, 0, 0, 0, 8, 0, 0, 0]);
  if (crc32) assert.equal(checksum(file), crc32(file));
});

test('the version is the one that the command writes', () => {
  const source = readFileSync(new URL('../../command/src/form.rs', import.meta.url), 'utf8');
  const lines = source.matchAll(/^pub const (?:WITHOUT_REVISIONS|VERSION): u32 = (\d+);$/gmu);
  const versions = [...lines].map(([, number]) => Number(number));
  assert.deepEqual(versions, [VERSION - 1, VERSION]);
});

/** A shelf as it was before sheets had a revision, the two words in front. */
function earlierShelf(shelf, length) {
  const sheets = sheetsOf(shelf, limits.SLOTS).map((words) => words.subarray(words.length > 0 ? 2 : 0));
  return shelfOf(sheets, length);
}

test('shelves and sheets of before there were revisions', () => {
  const wanted = sheet(5, 4, OFFICE);
  const earlier = earlierShelf(officeShelf(), 100);
  const guarded = writeGuarded(earlier);
  guarded[8] = VERSION - 1;
  const { length } = guarded;
  new DataView(guarded.buffer).setUint32(length - 4, checksum(guarded.subarray(0, length - 4)), true);
  for (const file of [bytesOf(earlier), guarded]) {
    const { sheets, shelfWords } = open(file);
    assert.equal(shelfWords, 100);
    assert.deepEqual(library.contents(sheets[0]), library.contents(wanted));
    assert.equal(library.revision(sheets[0]), 0);
    assert.equal(sheets.filter(Boolean).length, 2);
  }
  assert.deepEqual(library.contents(open(bytesOf(wanted.subarray(2))).sheets[0]), library.contents(wanted));
  // one that was full has the words that it needs now
  const full = earlier.subarray(0, wordsNeeded(sheetsOf(earlier, limits.SLOTS)));
  assert.equal(open(bytesOf(full)).shelfWords, full.length + 4);
  full[1] = 9;
  assert.throws(() => open(bytesOf(full)), FileProblem);
});

test('revisions', () => {
  const [office, phone] = [OFFICE, PHONE].map((entries) => sheet(5, 4, entries));
  assert.deepEqual([office, phone].map((words) => library.revision(words)), [4, 3]);
  assert.equal(library.revision(library.merge(office, phone)), 5);
});

test('every changed bit and every cut of a guarded file is refused', () => {
  const file = writeGuarded(officeShelf(96));
  for (let bit = 0; bit < 8 * file.length; bit++) {
    const damaged = file.slice();
    damaged[bit >> 3] ^= 1 << (bit & 7);
    assert.throws(() => open(damaged), FileProblem, `bit ${bit}`);
  }
  for (let length = 0; length < file.length; length++) {
    assert.throws(() => open(file.subarray(0, length)), FileProblem, `${length} bytes`);
  }
});

test('a later version, and none, say so', () => {
  for (const [version, text] of [[VERSION + 1, /later version/u], [0, /damaged/u]]) {
    const file = writeGuarded(new Uint32Array(8));
    const view = new DataView(file.buffer);
    view.setUint32(8, version, true);
    view.setUint32(file.length - 4, checksum(file.subarray(0, -4)), true);
    assert.ok(isGuarded(file));
    assert.throws(() => readGuarded(file), text);
  }
});

test('damaged sheet files and other bytes get the refusal’s sentence', () => {
  const file = library.writeSheet(sheet(5, 4, OFFICE));
  const cut = file.subarray(0, file.length - 4);
  const refused = (error) => error instanceof FileProblem && error.message.startsWith(sentences[15]);
  for (const bytes of [cut, file.subarray(1), new Uint8Array(0), new Uint8Array(100000), new Uint8Array(30).fill(7)]) {
    assert.throws(() => open(bytes), refused);
  }
});

test('no damage of a sheet file throws anything but a refusal', () => {
  const file = library.writeSheet(sheet(5, 4, OFFICE));
  let refused = 0;
  for (let bit = 0; bit < 8 * file.length; bit++) {
    const damaged = file.slice();
    damaged[bit >> 3] ^= 1 << (bit & 7);
    try {
      library.contents(open(damaged).sheets.find(Boolean));
    } catch (error) {
      assert.ok(error instanceof FileProblem, String(error));
      refused++;
    }
  }
  assert.ok(refused > 0);
});

test('names', () => {
  const names = readNames('\n# keys\nrow 2 medicine cupboard\r\n  column 1   Anna \nplace 0 reports');
  assert.deepEqual([...names.row], [[2, 'medicine cupboard']]);
  assert.deepEqual([...names.column], [[1, 'Anna']]);
  assert.deepEqual([...names.place], [[0, 'reports']]);
  const wrong = ['row', 'row x y', 'row 1', 'row 1 a\nrow 1 b', 'row 1 a\u0007b', 'line 1 a', 'row 1 a\nrow -1 b'];
  for (const text of wrong) assert.throws(() => readNames(text), /^FileProblem|Line \d+ of the names file/u);
  assert.throws(() => readNames('row 0 a\n\nrow 0 b'), /Line 3/u);
});

test('reports', () => {
  assert.deepEqual(reportOf(14053), { time: '14:05', state: 'lost' });
  assert.equal(shown(8301, true), '08:30 in use');
  assert.equal(shown(8301, false), '8301');
  for (const value of [-1, 8300, 8304, 24001, 8601, 2147483647, 0]) assert.equal(shown(value, true), String(value));
});

test('each refusal has its sentence', () => {
  assert.deepEqual(Object.keys(sentences).map(Number), [1, 3, 4, 5, 6, 7, 8, 9, 10, 11, 12, 13, 14, 15]);
  assert.equal(sentences[13], 'The place holds no sheet: lay one there first.');
  assert.match(sentences[8], /1 to 1000 rows/u);
  for (const text of Object.values(sentences)) assert.doesNotMatch(text, /[{}\\]/u);
});
