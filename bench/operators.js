#!/usr/bin/env node
// Asks Node.js what operators give, for the tables of the operators' tests.
//
// Usage, from the root of the repository: node bench/operators.js [--print]
//
// It asks each question below, and checks that the tables of crates/apply_rows/src/tests/operators/beside_node.rt are
// the answers, in this order; with --print it writes the tables. A value is written as in a script, and a
// node as # with its number. Where the profile differs from Node.js, the answer is that of the profile, in a
// table of its own.

'use strict';
const fs = require('fs');
const path = require('path');

const FILE = path.join(__dirname, '..', 'crates', 'apply_rows', 'src', 'tests', 'operators', 'beside_node.rt');
const NODES = { '#70': { a: 1 }, '#71': { a: 1 } };

const MOST = '9007199254740991';
const NUMBERS = [
  ['1', '2'], ['7', '2'], ['7', '-2'], ['-7', '2'], ['-7', '-2'], ['6', '3'], ['6', '-3'], ['-6', '3'],
  ['0', '5'], ['5', '0'], ['0', '0'], ['0', '-5'], ['-5', '0'], [MOST, '1'], [MOST, '-1'], [`-${MOST}`, '1'],
  [`-${MOST}`, '-1'], [MOST, MOST], [`-${MOST}`, MOST], [MOST, '9007199254740990'], ['1', MOST],
  ['94906265', '94906265'], ['94906266', '94906266'], ['94906266', '-94906266'], ['3037000500', '3037000500'],
  ['4503599627370496', '2'], ['4503599627370495', '2'], ['true', '2'], ['2', 'true'], ['null', '3'],
  ['3', 'null'], ['2', 'false'], ['true', 'true'],
];
const BITS = [
  ['5', '3'], ['-1', '255'], ['4294967296', '5'], ['2147483648', '1'], ['-2147483649', '-1'], [MOST, MOST],
  [`-${MOST}`, '1'], ['4294967295', '-1'], ['-4294967297', '3'], ['true', '3'], ['null', '7'], ['6', 'false'],
];
const SHIFTS = [
  ['1', '0'], ['1', '31'], ['1', '32'], ['1', '33'], ['1', '63'], ['1', '-1'], ['-1', '0'], ['-1', '1'],
  ['-1', '31'], ['-1', '32'], ['-4', '1'], ['5', '1'], ['2147483648', '1'], ['4294967296', '1'],
  ['4294967297', '1'], ['-2147483648', '0'], ['-2147483649', '4'], [`-${MOST}`, '4'], [MOST, '4'],
  ['3', '4294967297'], ['3', '4294967327'], ['true', '1'], ['-1', 'null'], ['8', 'true'],
];
const ORDERS = [
  ['1', '2'], ['2', '1'], ['2', '2'], ['-1', '0'], ['-2', '-1'], ['10', '9'], [`-${MOST}`, MOST],
  ["'10'", "'9'"], ["'a'", "'b'"], ["'a'", "'a'"], ["'a'", "'ab'"], ["'ab'", "'b'"], ["''", "'a'"], ["''", "''"],
  ["'Z'", "'a'"], ["'é'", "'z'"], ["'😀'", "'｡'"], ["'😀'", "'😁'"], ['true', '0'], ['null', '1'],
  ['null', 'null'], ['false', 'null'], ['1', 'true'],
];
const PAIRS = [
  ['1', '1'], ['1', '2'], ['1', '-1'], ["'1'", '1'], ['1', "'1'"], ["'a'", "'a'"], ["'a'", "'b'"], ["'a'", "'aa'"],
  ["'ab'", "'ba'"], ["''", "''"], ["''", '0'], ['null', 'undefined'], ['undefined', 'undefined'], ['null', 'null'],
  ['null', '0'], ['undefined', "'undefined'"], ['true', 'true'], ['true', 'false'], ['false', 'false'],
  ['true', '1'], ['0', 'false'], ['#70', '#70'], ['#70', '#71'], ['#70', 'null'], ['#70', '70'], ["'#70'", '#70'],
  [MOST, MOST], [MOST, '9007199254740990'],
];
const TEXTS = [
  ["'a'", "'b'"], ["''", "''"], ["''", "'a'"], ["'1'", '2'], ['1', "'2'"], ["'1'", "'2'"], ["'a'", 'undefined'],
  ['undefined', "'a'"], ["'a'", 'null'], ['null', "'a'"], ["'a'", 'true'], ['false', "'a'"], ["'a'", '-12'],
  [MOST, "''"], [`-${MOST}`, "'x'"], ["'0'", '0'], ["'é'", "'😀'"], ["'#70'", "'a'"],
];
const ODD = [
  ['undefined', '1'], ['1', 'undefined'], ['undefined', 'undefined'], ["'1'", '1'], ['1', "'1'"], ["'1'", "'1'"],
  ['null', 'undefined'], ['#70', '1'], ['1', '#70'], ['#70', '#71'], ["'a'", '#70'], ['#70', "'a'"], ['5', "''"],
];
const ALONE = [
  '0', '1', '-1', '5', '-6', '2147483647', '2147483648', '-2147483648', '-2147483649', '4294967295', '4294967296',
  MOST, `-${MOST}`, 'true', 'false', 'null', 'undefined', "''", "'a'", "'0'", "'1'", '#70',
];

const ARITHMETIC = ['+', '-', '*', '/', '%'];
const BITWISE = ['&', '^', '|'];
const SHIFTING = ['<<', '>>', '>>>'];
const ORDERING = ['<', '>', '<=', '>='];
const SAMENESS = ['===', '!=='];
const UNARY = ['+', '-', '~', '!'];

const isText = (word) => word.startsWith("'");
const hasNumber = (word) => !isText(word) && !word.startsWith('#') && word !== 'undefined';

function valueOf(source) {
  return new Function('nodes', `return ${source.replace(/#\d+/g, (node) => `nodes['${node}']`)};`)(NODES);
}

// Texts that have a # in them are asked for by name, so that none is taken for a node.
function answerOf(op, words) {
  const names = ['left', 'right'].slice(2 - words.length);
  const values = words.map((word) => (isText(word) ? word.slice(1, -1) : valueOf(word)));
  return new Function(...names, `return ${names.length === 1 ? `${op} right` : `left ${op} right`};`)(...values);
}

// Whether the profile has what Node.js gives of these values, whatever it is.
function isInProfile(op, words) {
  if (op === '!' || SAMENESS.includes(op)) return true;
  if (op === '+' && words.length === 2 && words.some(isText)) return words.every((word) => !word.startsWith('#'));
  if (ORDERING.includes(op) && words.every(isText)) return true;
  return words.every(hasNumber);
}

function shown(answer) {
  if (Object.is(answer, -0)) return '0';
  return typeof answer === 'string' ? `'${answer}'` : String(answer);
}

const tables = { SAME: [], MINUS_ZERO: [], NOT_SAFE: [], NOT_IN_PROFILE: [] };

function ask(op, words) {
  const question = words.length === 1 ? `${op} ${words[0]}` : `${words[0]} ${op} ${words[1]}`;
  const answer = answerOf(op, words);
  const put = (table, said) => tables[table].push(`${question} = ${said}`);
  if (!isInProfile(op, words)) put('NOT_IN_PROFILE', 'NotInProfile');
  else if (typeof answer === 'number' && !Number.isSafeInteger(answer)) put('NOT_SAFE', 'NotSafeInteger');
  else put(Object.is(answer, -0) ? 'MINUS_ZERO' : 'SAME', shown(answer));
}

function askAll(ops, pairs) {
  for (const op of ops) for (const words of pairs) ask(op, words);
}

askAll(ARITHMETIC, NUMBERS);
askAll(BITWISE, BITS);
askAll(SHIFTING, SHIFTS);
askAll(ORDERING, ORDERS);
askAll(SAMENESS, PAIRS);
askAll(['+'], TEXTS);
askAll([...ARITHMETIC, '&', '|', '<<', '>>>', '<', '>='], ODD.filter(([left, right]) => !hasNumber(left) || !hasNumber(right)));
askAll(UNARY, ALONE.map((word) => [word]));
for (const [name, rows] of Object.entries(tables)) tables[name] = [...new Set(rows)];

if (process.argv[2] === '--print') {
  for (const [name, rows] of Object.entries(tables)) console.log(`const ${name}: &str = "\\\n${rows.join('\n')}\n";\n`);
} else {
  const file = fs.readFileSync(FILE, 'utf8');
  let odd = 0;
  for (const [name, rows] of Object.entries(tables)) {
    const kept = file.match(new RegExp(`const ${name}: &str = "\\\\\\n([^"]*)\\n";`))?.[1].split('\n') ?? [];
    const missing = rows.filter((row) => !kept.includes(row));
    const wrong = kept.filter((row) => !rows.includes(row));
    for (const row of missing) console.log(`${name} lacks: ${row}`);
    for (const row of wrong) console.log(`${name} has, and Node.js does not say: ${row}`);
    odd += missing.length + wrong.length;
    console.log(`${name}: ${kept.length} rows`);
  }
  process.exitCode = odd === 0 ? 0 : 1;
}
