// usage: node build.mjs LIBRARY.wasm OUT.html
// Puts the page together as one file: its modules in one script, its style, the library, the limits of ostrubel.h,
// and the refusals' sentences of host/ostrubel/src/error.rs, so that both stand once.
import { readFileSync, writeFileSync } from 'node:fs';
import { dirname, join } from 'node:path';
import { fileURLToPath } from 'node:url';

const web = dirname(fileURLToPath(import.meta.url));
const root = join(web, '../..');
const read = (path) => readFileSync(path, 'utf8');

/** The header's numbers, by their names without OSTRUBEL_. */
export function limitsOf(header) {
  const lines = [...header.matchAll(/^#define OSTRUBEL_(\w+) (\d+)\b/gmu)];
  return Object.fromEntries(lines.map(([, name, number]) => [name, Number(number)]));
}

/**
 * The refusals' sentences by number, from the source of the Rust crate. That of an unknown operator is put together from
 * the operators' names there, and left out: no call of the page has an operator that a person chose.
 */
export function sentencesOf(source, limits) {
  const constants = {
    ...limits,
    WORKSPACE_WORDS: limits.MIN_WORKSPACE_WORDS,
    FORMULA_WORDS: limits.MIN_FORMULA_WORDS,
    last: limits.SLOTS - 1,
  };
  const numbers = new Map([...source.matchAll(/^ {4}(\w+) = (\d+),$/gmu)].map(([, name, number]) => [name, number]));
  const body = source.slice(source.indexOf('fn sentence('));
  const found = [...body.matchAll(/Error::(\w+) => [^"]*"((?:[^"\\]|\\[^])*)"/gu)];
  if (found.length !== numbers.size || numbers.size === 0) {
    throw new Error(`error.rs: ${numbers.size} refusals and ${found.length} sentences were found`);
  }
  const sentences = found.flatMap(([, name, text]) => {
    if (name === 'UnknownOperator') return [];
    const whole = text.replace(/\\\n\s*/gu, '').replace(/\{(\w*)\}/gu, (_, constant) => {
      if (!(constant in constants)) throw new Error(`error.rs: {${constant}} is not known`);
      return String(constants[constant]);
    });
    return [[numbers.get(name), whole]];
  });
  return Object.fromEntries(sentences);
}

const MODULES = ['library', 'shelf_file', 'names', 'changes', 'opened', 'picture', 'page'];

/** The modules as one script: each a function of its own that gives what the module exports. */
function script() {
  return MODULES.map((name) => {
    const source = read(join(web, 'src', `${name}.mjs`));
    const exports = [...source.matchAll(/^export (?:async function|function|class|const) (\w+)/gmu)];
    const exported = exports.map(([, found]) => found);
    const body = source
      .replace(/^import (\{[^}]*\}) from '\.\/(\w+)\.mjs';$/gmu, 'const $1 = $2Module;')
      .replace(/^export /gmu, '');
    if (/^import /mu.test(body)) throw new Error(`${name}.mjs: an import that is not understood`);
    return `const ${name}Module = (() => {\n${body}return { ${exported.join(', ')} };\n})();\n`;
  }).join('\n');
}

function page(wasm) {
  const limits = limitsOf(read(join(root, 'include/ostrubel.h')));
  const sentences = sentencesOf(read(join(root, 'host/ostrubel/src/error.rs')), limits);
  const begin = [
    `const WASM = Uint8Array.from(atob('${wasm.toString('base64')}'), (letter) => letter.charCodeAt(0));`,
    `pageModule.start(WASM, ${JSON.stringify(limits)}, ${JSON.stringify(sentences)});`,
  ];
  const code = `(() => {\n'use strict';\n${script()}\n${begin.join('\n')}\n})();`.replaceAll('</script', '<\\/script');
  return read(join(web, 'src/page.html'))
    .replace('/* STYLE */', () => read(join(web, 'src/page.css')).trimEnd())
    .replace('/* SCRIPT */', () => code);
}

if (process.argv[1] === fileURLToPath(import.meta.url)) {
  const [wasm, out] = process.argv.slice(2);
  writeFileSync(out, page(readFileSync(wasm)));
}
