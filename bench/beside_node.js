#!/usr/bin/env node
// Asks Node.js again of the sources beside which the parser's tests have its answers.
//
// Usage, from the root of the repository: node bench/beside_node.js
//
// It reads the tables of crates/parse_rows/src/tests/beside_node.rt, makes each source a script with
// 'use strict'; before it, and prints each row whose mark is not the answer, or the number of the rows.

'use strict';
const fs = require('fs');
const path = require('path');
const vm = require('vm');

const FILE = path.join(__dirname, '..', 'crates', 'parse_rows', 'src', 'tests', 'beside_node.rt');
const ESCAPES = { n: '\n', t: '\t', '"': '"', '\\': '\\' };

function rowsOf(text) {
  const rows = [];
  for (const [, table] of text.matchAll(/&str = "((?:[^"\\]|\\[^])*)";/g)) {
    const plain = table.replace(/\\\n/g, '').replace(/\\(.)/g, (_, letter) => ESCAPES[letter]);
    rows.push(...plain.split('¶').slice(0, -1));
  }
  return rows;
}

function mark(source) {
  try {
    new vm.Script(`'use strict';${source}`);
    return '+';
  } catch {
    return '-';
  }
}

const rows = rowsOf(fs.readFileSync(FILE, 'utf8'));
const odd = rows.filter((row) => row[0] !== mark(row.slice(1)));
for (const row of odd) console.log(`not as Node.js says: ${JSON.stringify(row)}`);
const refused = rows.filter((row) => row[0] === '-').length;
console.log(`${rows.length} rows, ${refused} refused by Node.js, ${odd.length} not as it says`);
process.exitCode = odd.length === 0 ? 0 : 1;
