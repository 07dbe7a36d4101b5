#!/usr/bin/env node
// Asks Node.js again of the sources beside which the tests of early errors have its answers.
//
// Usage, from the root of the repository: node bench/early_errors.js
//
// It reads the tables of crates/scope_rows/src/tests/faults.rt and makes each source a script with
// 'use strict'; before it. It prints each row of which Node.js says something else than its table does, or the number
// of the rows.

'use strict';
const fs = require('fs');
const path = require('path');
const vm = require('vm');

const FILE = path.join(__dirname, '..', 'crates', 'scope_rows', 'src', 'tests', 'faults.rt');
const STRICT = "'use strict';";

// Whether an error stands at the mark. Node.js tells the `function` before a name that is declared twice.
function isAt(told, row) {
  const at = row.indexOf('|');
  return told !== null && (told.at === at || row.slice(told.at, at) === 'function ');
}

// What Node.js is to say of the sources of a table: an error where the mark is, an error elsewhere, or none.
const TABLES = {
  FAULTS: isAt,
  OWN_FAULTS: (told) => told === null,
  SEVERAL: isAt,
  OWN_SEVERAL: (told, row) => told !== null && !isAt(told, row),
  FINE: (told) => told === null,
};

function rowsOf(text, name) {
  const [, table] = text.match(new RegExp(`const ${name}: &str = "((?:[^"\\\\]|\\\\[^])*)";`));
  return table.replace(/\\\n/g, '').split('¶').slice(0, -1).map((row) => row.split('→')[0]);
}

function told(source) {
  try {
    new vm.Script(STRICT + source);
    return null;
  } catch (error) {
    const [, , carets] = error.stack.split('\n');
    return { at: carets.indexOf('^') - STRICT.length, message: error.message };
  }
}

const text = fs.readFileSync(FILE, 'utf8');
let count = 0;
let odd = 0;
for (const [name, agrees] of Object.entries(TABLES)) {
  for (const row of rowsOf(text, name)) {
    const answer = told(row.replace('|', ''));
    count += 1;
    if (!agrees(answer, row)) {
      odd += 1;
      console.log(`not as ${name} says: ${JSON.stringify(row)}, ${JSON.stringify(answer)}`);
    }
  }
}
console.log(`${count} rows, ${odd} not as Node.js says`);
process.exitCode = odd === 0 ? 0 : 1;
