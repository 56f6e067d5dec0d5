// Files as a person chose them: a sheet file, or a shelf file with a guard or bare, of today's form or an earlier one.

import { CODES, Refusal } from './library.mjs';
import { bytesOf, FileProblem, isGuarded, readGuarded, sheetsOf } from './shelf_file.mjs';
import { VERSION, wordsNeeded, wordsOf } from './shelf_file.mjs';

/**
 * What a file has: { sheets, shelfWords }. A sheet file has one sheet, and no shelf words; a shelf file has eight places,
 * a place without a sheet being undefined. `sentences` has the refusals' sentences by number.
 */
export function openFile(library, limits, sentences, bytes) {
  if (isGuarded(bytes)) {
    const { version, shelf } = readGuarded(bytes);
    const opened =
      version === VERSION ? openShelf(library, limits, shelf) : openEarlier(library, limits, sentences, shelf);
    if (!opened) throw new FileProblem(sentences[CODES.invalidStore]);
    return opened;
  }
  const sheet = unlessRefused(() => library.readSheet(bytes));
  if (sheet) return { sheets: [sheet], shelfWords: undefined };
  // No file is both: a sheet's first word is no count of a sheet's words.
  const shelf = bytes.length % 4 === 0 ? wordsOf(bytes) : new Uint32Array(0);
  const opened = openShelf(library, limits, shelf) ?? openEarlier(library, limits, sentences, shelf);
  if (!opened) {
    throw new FileProblem(`${sentences[CODES.invalidFile]} Nor is it a shelf file: ${sentences[CODES.invalidStore]}`);
  }
  return opened;
}

// A shelf of today's form; undefined where the words are none.
function openShelf(library, limits, shelf) {
  return unlessRefused(() => {
    const has = Array.from({ length: limits.SLOTS }, (_, place) => library.hasSheet(shelf, place));
    const sheets = sheetsOf(shelf, limits.SLOTS).map((sheet, place) => (has[place] ? sheet : undefined));
    return { sheets, shelfWords: shelf.length };
  });
}

// A shelf whose sheets have an earlier form, in which the library reads them from a file; undefined where the words are
// none. The sheets can be longer now, and so can the shelf.
function openEarlier(library, limits, sentences, shelf) {
  const sections = shelf.length <= limits.MAX_STORE_WORDS ? sheetsOf(shelf, limits.SLOTS) : undefined;
  if (!sections) return undefined;
  return unlessRefused(() => {
    const sheets = sections.map((words) => (words.length === 0 ? undefined : library.readSheet(bytesOf(words))));
    const needed = wordsNeeded(sheets.map((sheet) => sheet ?? []));
    if (needed > limits.MAX_STORE_WORDS) throw new FileProblem(sentences[CODES.insufficientSpace]);
    return { sheets, shelfWords: Math.max(shelf.length, needed) };
  });
}

function unlessRefused(work) {
  try {
    return work();
  } catch (error) {
    if (!(error instanceof Refusal)) throw error;
    return undefined;
  }
}
