#!/usr/bin/env node
// Asks Node.js for the type of values, whether they can be called and what their texts are, for a table of tests.
//
// Usage, from the root of the repository: node bench/questions.js [--print]
//
// It checks that the tables of crates/apply_rows/src/tests/asked.rt are the answers, in this order; with --print it writes
// them. A node is written as # with its number; those from 62 on are made by the tests. Where the profile differs from
// Node.js, the answer is that of the profile, in a table of its own.

'use strict';
const fs = require('fs');
const path = require('path');

const FILE = path.join(__dirname, '..', 'crates', 'apply_rows', 'src', 'tests', 'asked.rt');

// The nodes: some of those that are there from the start, and one of each kind that the tests make.
const NODES = new Map([
  [0, Object.prototype], [1, Function.prototype], [2, Array.prototype], [4, Map.prototype], [6, Error.prototype], [10, Object],
  [15, Error], [19, console], [24, Object.prototype.hasOwnProperty], [29, Array.prototype.map],
  [62, {}], [63, []], [64, function () {}], [65, Math.max], [66, new Error()], [67, new Map()], [68, new Set()],
]);

const PLAIN = ['undefined', 'null', 'true', 'false', '0', '-7', '9007199254740991', "''", "'a'", "'undefined'", "'éa'"];
const NUMBERS = ['-9007199254740991', '10', '-1', '4294967296'];

const ROWS = [];
for (const word of [...PLAIN, ...[...NODES.keys()].map((number) => `#${number}`)]) ROWS.push(`typeof ${word}`);
for (const word of ['undefined', 'null', '0', "'a'", ...[...NODES.keys()].map((number) => `#${number}`)]) ROWS.push(`callable ${word}`);
for (const word of [...PLAIN, ...NUMBERS]) ROWS.push(`String ${word}`);

// This profile stops there, where ECMA-262 goes on.
const STOPS = ['String #0', 'String #10', 'String #62', 'String #63', 'String #66'];

function valueOf(word) {
  return word.startsWith('#') ? NODES.get(Number(word.slice(1))) : new Function(`return ${word};`)();
}

function answerOf(row) {
  const [verb, word] = row.split(' ');
  const value = valueOf(word);
  if (verb === 'typeof') return typeof value;
  if (verb === 'callable') {
    try {
      Reflect.apply(Function.prototype.toString, value, []);
      return 'true';
    } catch (error) {
      return 'false';
    }
  }
  return `'${String(value)}'`;
}

function table(name, comment, rows) {
  return `/// ${comment}\nconst ${name}: &str = "\\\n${rows.join('\n')}\n";\n`;
}

const tables = [
  table('SAME', 'Node.js gives these answers.', ROWS.map((row) => `${row} = ${answerOf(row)}`)),
  table('NOT_IN_PROFILE', 'Node.js gives a text of each.', STOPS.map((row) => `${row} = NotInProfile`)),
].join('\n');

if (process.argv.includes('--print')) {
  process.stdout.write(tables);
} else if (fs.readFileSync(FILE, 'utf8').includes(tables)) {
  console.log(`${ROWS.length} rows as in Node.js, ${STOPS.length} that differ`);
} else {
  console.log('the tables are not what Node.js gives');
  process.exitCode = 1;
}
