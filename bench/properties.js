#!/usr/bin/env node
// Asks Node.js what reading, writing, deleting and testing properties gives, for the tables of the tests of property access.
//
// Usage, from the root of the repository: node bench/properties.js [--print]
//
// It asks each question below of new objects, and checks that the tables of
// crates/heap_rows/src/tests/access/beside_node.rt are the answers, in this order; with --print it writes the tables.
// A question is one or more steps, and its answer is that of the last. A node is written as # with its number.
// Where the profile differs from Node.js, the answer is that of the profile, in a table of its own.

'use strict';
const fs = require('fs');
const path = require('path');

const FILE = path.join(__dirname, '..', 'crates', 'heap_rows', 'src', 'tests', 'access', 'beside_node.rt');

// The nodes from number 62 on, as the tests make them.
function objects() {
  const plain = { a: 1, b: 'x' };
  const under = Object.create(plain);
  under.c = 3;
  const array = [1, 'y', plain];
  const frozenArray = Object.freeze([5, 6]);
  const frozen = Object.freeze({ p: 1, q: null });
  const underFrozen = Object.create(frozen);
  const error = new Error('m');
  const named = [7];
  named.k = 8;
  const bare = Object.create(null);
  bare.a = true;
  const underArray = Object.create(array);
  const deep = Object.create(under);
  return [plain, under, array, frozenArray, frozen, underFrozen, new Map(), new Set(), error, named, bare, underArray, deep];
}

const INTRINSICS = new Map([
  [Map.prototype, 4], [Set.prototype, 5],
  [Object, 10], [Array, 11], [String, 12], [Map, 13], [Set, 14], [Error, 15],
  [Object.prototype.hasOwnProperty, 24], [Array.prototype.push, 31], [Array.prototype.join, 28],
  [Array.prototype.slice, 32], [String.prototype.slice, 34], [String.prototype.charCodeAt, 33],
  [Map.prototype.get, 38], [Map.prototype.set, 40], [Set.prototype.add, 41], [Set.prototype.has, 45],
  [Array.prototype.map, 29], [Map.prototype.has, 39],
]);

const NAMES = ["'a'", "'b'", "'c'", "'d'", "''", "'constructor'", "'hasOwnProperty'"];
const ROWS = [];
for (const base of ['#62', '#63', '#72', '#74']) {
  for (const name of NAMES) ROWS.push(`get ${base} ${name}`);
}
for (const base of ['#64', '#65', '#71']) {
  for (const key of ['0', '1', "'0'", "'1'", '2', "'2'", '3', '-1', "'-1'", "'01'", "'00'", "'1.0'", "'4294967294'", '4294967295', "'4294967295'", "'length'", "'push'", "'k'", 'true', 'null', 'undefined']) {
    ROWS.push(`get ${base} ${key}`);
  }
}
for (const base of ["'abc'", "''", "'éa'"]) {
  for (const key of ['0', "'0'", '1', '2', '3', '-1', "'01'", "'length'", "'slice'", "'charCodeAt'", "'constructor'", "'x'"]) {
    ROWS.push(`get ${base} ${key}`);
  }
}
for (const base of ['undefined', 'null']) {
  for (const key of ["'a'", '0']) ROWS.push(`get ${base} ${key}`, `set ${base} ${key} 1`, `delete ${base} ${key}`);
}
ROWS.push(
  "get #66 'p'", "get #66 'q'", "get #67 'p'", "get #67 'r'", "get #68 'size'", "get #69 'size'", "get #68 'get'",
  "get #68 'set'", "get #69 'add'", "get #69 'has'", "get #70 'message'", "get #70 'name'", "get #70 'constructor'",
  "get #62 1", "get #62 true", "get #62 null", "get #62 undefined", "get #62 'size'",
  // A write creates on the receiver, behind all others, or changes in its place.
  "set #62 'a' 5; get #62 'a'", "set #62 'd' 5; get #62 'd'", "set #62 'd' 5; keys #62", "set #62 'a' 5; keys #62",
  "set #63 'a' 5; get #63 'a'", "set #63 'a' 5; get #62 'a'", "set #63 'a' 5; keys #63", "set #74 'c' 5; get #63 'c'",
  "set #74 'c' 5; keys #74", "set #62 '2' 1; set #62 '10' 2; set #62 '1' 3; keys #62", "set #62 7 1; keys #62",
  "set #62 true 1; keys #62", "set #62 null 1; get #62 'null'", "set #62 undefined 1; get #62 'undefined'",
  "set #62 -1 1; set #62 0 2; keys #62", "delete #62 'a'; keys #62", "delete #62 'a'; set #62 'a' 9; keys #62",
  "set #72 'constructor' 1; get #72 'constructor'",
  "set #62 'a' #64; get #62 'a'", "set #62 'a' undefined; keys #62", "set #62 'size' 3; get #62 'size'",
  // Elements.
  "set #64 0 9; get #64 0", "set #64 '0' 9; get #64 0", "set #64 3 9; get #64 'length'", "set #64 3 9; get #64 3",
  "set #64 '3' 9; get #64 3", "set #64 'k' 9; get #64 'k'", "set #64 'k' 9; get #64 'length'", "set #64 -1 9; get #64 -1",
  "set #64 '01' 9; get #64 '01'", "set #64 '01' 9; get #64 1", "set #64 4294967295 9; get #64 'length'",
  "set #73 0 9; get #73 0", "set #73 0 9; get #64 0", "set #71 'k' 9; get #71 'k'", "set #71 1 #71; get #71 1",
  // Frozen ones.
  "set #65 0 9", "set #65 '1' 9", "set #65 2 9", "set #65 9 9", "set #65 'k' 9", "set #65 'length' 0", "set #66 'p' 2",
  "set #66 'r' 2", "set #67 'p' 2", "set #67 'q' 2", "set #67 'r' 2; get #67 'r'", "set #67 'r' 2; get #66 'r'",
  "delete #66 'p'", "delete #66 'r'", "delete #67 'p'", "delete #67 'p'; get #67 'p'",
  // Deletes.
  "delete #62 'a'", "delete #62 'z'", "delete #62 'a'; get #62 'a'", "delete #63 'a'", "delete #63 'a'; get #63 'a'",
  "delete #63 'c'; get #63 'c'", "delete #71 'k'; get #71 'k'", "delete #62 1", "delete #70 'message'; get #70 'message'",
  // Primitives.
  "set true 'a' 1", "set 5 'a' 1", "set 5 0 1", "set 'abc' 0 1", "set 'abc' 9 1", "set 'abc' 'length' 1",
  "set 'abc' 'x' 1", "set '' 'x' 1", "set #68 'size' 1", "set #69 'size' 1",
);

// Tests of own properties, which look at no prototype.
for (const name of ["'a'", "'c'", "'hasOwnProperty'", "''"]) ROWS.push(`hasOwn #62 ${name}`, `hasOwn #63 ${name}`);
for (const base of ['#64', "'abc'", "''"]) {
  for (const key of ['0', "'0'", '2', "'2'", '3', '-1', "'01'", "'length'", "'slice'"]) ROWS.push(`hasOwn ${base} ${key}`);
}
ROWS.push(
  "hasOwn #72 'a'", "hasOwn #72 'constructor'", "hasOwn #73 0", "hasOwn #73 'length'", "hasOwn #71 'k'", "hasOwn #66 'q'", "hasOwn #67 'q'",
  "hasOwn #70 'message'", "hasOwn #70 'name'", "hasOwn #68 'size'", "hasOwn #69 'add'", "hasOwn #62 true", "hasOwn #62 undefined",
  "hasOwn #4 'size'", "hasOwn #5 'size'", "hasOwn #4 'get'", "hasOwn #10 'keys'", "hasOwn #10 'push'", "hasOwn undefined 'a'", "hasOwn null 0", "set #62 'd' undefined; hasOwn #62 'd'", "delete #62 'a'; hasOwn #62 'a'",
  "set #63 'a' 5; hasOwn #63 'a'", "set #64 3 9; hasOwn #64 3", "set #62 7 1; hasOwn #62 '7'",
);

// This profile stops there, where ECMA-262 goes on.
const STOPS = [
  ["get true 'a'", 'undefined'], ["get 5 'a'", 'undefined'], ["get 5 0", 'undefined'], ["delete true 'a'", 'true'],
  ["delete 5 'a'", 'true'], ["delete 'abc' 'x'", 'true'], ["delete 'abc' 0", 'TypeError'], ["delete 'abc' 'length'", 'TypeError'],
  ["set #64 4 9", 'ok'], ["set #64 '9' 9", 'ok'], ["set #64 4294967294 9", 'ok'], ["set #64 'length' 1", 'ok'],
  ["delete #64 0", 'true'], ["delete #64 'length'", 'TypeError'], ["delete #64 9", 'true'], ["delete #65 0", 'TypeError'],
  ["get #70 'stack'", null], ["set #70 'stack' 1", 'ok'], ["delete #70 'stack'", 'true'],
  ["get #62 '__proto__'", null], ["set #62 '__proto__' null", 'ok'], ["delete #62 '__proto__'", 'true'], ["get 'abc' '__proto__'", null],
  ["hasOwn #70 'stack'", null], ["hasOwn #10 'name'", 'true'], ["hasOwn #24 'length'", 'true'], ["hasOwn #62 '__proto__'", null], ["hasOwn 'abc' '__proto__'", null], ["hasOwn true 'a'", 'false'],
  ["hasOwn 5 0", 'false'], ["hasOwn #62 #64", 'false'], ["hasOwn 'abc' #64", 'false'], ["hasOwn undefined #64", 'TypeError'],
  ["get #62 #64", 'undefined'], ["set #62 #64 1", 'ok'], ["delete #62 #64", 'true'],
];

// The objects that are there from the start are frozen in this profile.
const FROZEN = [
  ["set #62 'hasOwnProperty' 1", 'ok'], ["set #62 'constructor' 1", 'ok'], ["set #64 'push' 1", 'ok'], ["set #70 'name' 'x'", 'ok'],
  ["set #68 'get' 1", 'ok'], ["set #69 'add' 1", 'ok'],
];

// Elements and the length of an array are read of the array alone.
const ALONE = [["get #73 '0'", '1'], ['get #73 0', '1'], ["get #73 '2'", '#62'], ["get #73 'length'", '3']];

function wordOf(value, nodes) {
  if (typeof value === 'string') return `'${value}'`;
  if (nodes.includes(value)) return `#${62 + nodes.indexOf(value)}`;
  if (INTRINSICS.has(value)) return `#${INTRINSICS.get(value)}`;
  return String(value);
}

const split = (step) => step.match(/'[^']*'|\S+/g);

function answerOf(row) {
  const nodes = objects();
  const nodeOf = (number) => (number < 62 ? [...INTRINSICS].find(([, n]) => n === number)[0] : nodes[number - 62]);
  const valueOf = (word) => (word.startsWith('#') ? nodeOf(Number(word.slice(1))) : new Function(`return ${word};`)());
  let answer;
  for (const step of row.split('; ')) {
    const [verb, base, key, held] = split(step);
    try {
      if (verb === 'get') answer = wordOf(valueOf(base)[valueOf(key)], nodes);
      else if (verb === 'set') { valueOf(base)[valueOf(key)] = valueOf(held); answer = 'ok'; }
      else if (verb === 'delete') answer = String(delete valueOf(base)[valueOf(key)]);
      else if (verb === 'hasOwn') answer = String(Object.prototype.hasOwnProperty.call(valueOf(base), valueOf(key)));
      else answer = Object.keys(valueOf(base)).join(',');
    } catch (error) {
      answer = error.constructor.name;
    }
  }
  return answer;
}

function table(name, comment, rows) {
  return `/// ${comment}\nconst ${name}: &str = "\\\n${rows.join('\n')}\n";\n`;
}

function checked(row, expected) {
  if (expected !== null && answerOf(row) !== expected) throw new Error(`Node.js gives ${answerOf(row)} of ${row}`);
  return row;
}

const tables = [
  table('SAME', 'Node.js gives these answers.', ROWS.map((row) => `${row} = ${answerOf(row)}`)),
  table('NOT_IN_PROFILE', 'Node.js goes on with these.', STOPS.map(([row, answer]) => `${checked(row, answer)} = NotInProfile`)),
  table('FROZEN', 'Node.js accepts these.', FROZEN.map(([row, answer]) => `${checked(row, answer)} = TypeError`)),
  table('ALONE', 'Node.js reads these along the prototypes.', ALONE.map(([row, answer]) => `${checked(row, answer)} = undefined`)),
].join('\n');

if (process.argv.includes('--print')) {
  process.stdout.write(tables);
} else if (fs.readFileSync(FILE, 'utf8').includes(tables)) {
  console.log(`${ROWS.length} rows as in Node.js, ${STOPS.length + FROZEN.length + ALONE.length} that differ`);
} else {
  console.log('the tables are not what Node.js gives');
  process.exitCode = 1;
}
