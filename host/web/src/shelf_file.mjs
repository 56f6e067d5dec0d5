// Shelf files: the words of a shelf with a guard around them (the letters OSTRUBEL, a version, the number of words, the
// words, a checksum), or bare as they were before. And the places of a shelf, each a count of words and a sheet.

const MAGIC = [...'OSTRUBEL'].map((letter) => letter.charCodeAt(0));
const VERSION_AT = 8;
const COUNT_AT = 12;
const WORDS_AT = 16;
const SUM_BYTES = 4;

/** The version of files whose sheets have the form that this library has, and of those whose sheets have no revision. */
export const VERSION = 2;
const WITHOUT_REVISIONS = 1;

/** A file that is not opened, and why. */
export class FileProblem extends Error {}

/** Whether a file begins as one with a guard. */
export function isGuarded(bytes) {
  return MAGIC.every((letter, at) => bytes[at] === letter);
}

/** The version and the words of a file with a guard. */
export function readGuarded(bytes) {
  const view = new DataView(bytes.buffer, bytes.byteOffset, bytes.byteLength);
  const damaged = 'This shelf file is damaged or cut short: take a sound copy of it.';
  if (bytes.length < WORDS_AT + SUM_BYTES) throw new FileProblem(damaged);
  const end = bytes.length - SUM_BYTES;
  if (view.getUint32(end, true) !== checksum(bytes.subarray(0, end))) throw new FileProblem(damaged);
  const version = view.getUint32(VERSION_AT, true);
  if (version > VERSION) {
    throw new FileProblem('This shelf file was written by a later version: open it with that.');
  }
  if (version < WITHOUT_REVISIONS) throw new FileProblem(damaged);
  if (view.getUint32(COUNT_AT, true) * 4 !== end - WORDS_AT) throw new FileProblem(damaged);
  return { version, shelf: wordsOf(bytes.subarray(WORDS_AT, end)) };
}

/** The most bytes that a file has. */
export function longestFile(limits) {
  return WORDS_AT + 4 * limits.MAX_STORE_WORDS + SUM_BYTES;
}

/** The file of a shelf, with a guard. */
export function writeGuarded(shelf) {
  const bytes = new Uint8Array(WORDS_AT + 4 * shelf.length + SUM_BYTES);
  const view = new DataView(bytes.buffer);
  bytes.set(MAGIC);
  view.setUint32(VERSION_AT, VERSION, true);
  view.setUint32(COUNT_AT, shelf.length, true);
  bytes.set(bytesOf(shelf), WORDS_AT);
  const end = bytes.length - SUM_BYTES;
  view.setUint32(end, checksum(bytes.subarray(0, end)), true);
  return bytes;
}

/** The words of bytes, four each with the lowest first; a rest of fewer than four is left out. */
export function wordsOf(bytes) {
  const view = new DataView(bytes.buffer, bytes.byteOffset, bytes.byteLength);
  return Uint32Array.from({ length: Math.floor(bytes.length / 4) }, (_, at) => view.getUint32(4 * at, true));
}

/** The bytes of words. */
export function bytesOf(words) {
  const bytes = new Uint8Array(4 * words.length);
  const view = new DataView(bytes.buffer);
  words.forEach((word, at) => view.setUint32(4 * at, word, true));
  return bytes;
}

/**
 * The sheets of a shelf, place by place; an empty place has no words. Undefined where the counts do not fit the words,
 * which is not so of a shelf that the library has accepted.
 */
export function sheetsOf(shelf, places) {
  const sheets = [];
  let at = 0;
  for (let place = 0; place < places; place++) {
    const count = shelf[at];
    if (count === undefined || at + 1 + count > shelf.length) return undefined;
    sheets.push(shelf.slice(at + 1, at + 1 + count));
    at += 1 + count;
  }
  return shelf.subarray(at).every((word) => word === 0) ? sheets : undefined;
}

/** The words that a shelf with these sheets needs. */
export function wordsNeeded(sheets) {
  return sheets.reduce((sum, sheet) => sum + 1 + sheet.length, 0);
}

/** The shelf with these sheets, of as many words as are given; undefined where they do not fit. */
export function shelfOf(sheets, length) {
  if (wordsNeeded(sheets) > length) return undefined;
  const shelf = new Uint32Array(length);
  let at = 0;
  for (const sheet of sheets) {
    shelf[at] = sheet.length;
    shelf.set(sheet, at + 1);
    at += 1 + sheet.length;
  }
  return shelf;
}

/** The CRC-32 that gzip and PNG have. */
export function checksum(bytes) {
  let sum = 0xffffffff;
  for (const byte of bytes) {
    sum ^= byte;
    for (let bit = 0; bit < 8; bit++) sum = (sum >>> 1) ^ (sum & 1 ? 0xedb88320 : 0);
  }
  return (sum ^ 0xffffffff) >>> 0;
}
