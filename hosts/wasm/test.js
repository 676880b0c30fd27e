// The library in WebAssembly under node:  node hosts/wasm/test.js DIR CASES LEVEL LINES..
// DIR has vegzump.wasm and vegzump.js (hosts/wasm/build), CASES is cases.bin, LINES are files of tests/cases with the requests' calls, of which those are run
// that hold at LEVEL. The conformance cases one by one and, by table, many in one call; the requests' lines, every byte and number compared; lengths round
// every limit; the deepest term; nothing at all; calls that the engine breaks off. All but these run on a thread with 16 MB of the engine's stack, for the
// deepest terms. The last line is `N cases, L lines of requests, M failures`.
"use strict";
const fs = require("fs"), path = require("path"), {Worker, isMainThread} = require("worker_threads");
const [folder, casesFile, level, ...lineFiles] = process.argv.slice(2);
const Vegzump = require(path.resolve(folder, "vegzump.js"));
const library = Vegzump.loadNow(fs.readFileSync(path.join(folder, "vegzump.wasm")));
let failures = 0;

function expect(what, found, wanted) {
  const [a, b] = [found, wanted].map(value => JSON.stringify(value, (_, v) => typeof v === "bigint" ? Number(v) : v));
  if (a === b) return;
  failures++;
  console.log(`${what}: expected ${b.slice(0, 200)}, found ${a.slice(0, 200)}`);
}
const numbers = ({number, a, b, c}) => [number, a, b, c].map(String).join(" ");
const asBuffer = view => Buffer.from(view.buffer, view.byteOffset, view.byteLength);
const same = (found, wanted) => asBuffer(found).equals(asBuffer(wanted));

function* cases() {
  const bytes = fs.readFileSync(casesFile);
  let at = 0;
  const number = () => bytes.readUInt32BE((at += 4) - 4);
  const large = () => String(bytes.readBigUInt64BE((at += 8) - 8));
  const part = () => { const size = number(); return bytes.subarray(at, at += size); };
  while (at < bytes.length) {
    const [table, formula] = [part(), part()], [cellsLent, textLent] = [number(), number()];
    const owed = [number(), large(), large(), large()].join(" ");
    const cells = new Uint32Array(cellsLent).fill(0xaaaaaaaa), text = new Uint8Array(textLent).fill(0xee);
    for (let i = 0, made = number(); i < made; i++) cells[i] = number();
    text.set(part());
    yield {table, formula, owed, cells, text};
  }
}

function oneByOne() {
  let n = 0;
  for (const {table, formula, owed, cells, text} of cases()) {
    const [found, foundText] = [new Uint32Array(cells.length).fill(0xaaaaaaaa), new Uint8Array(text.length).fill(0xee)];
    expect(`case ${n}`, numbers(library.expand(table, formula, found, foundText)), owed);
    expect(`room of case ${n}`, [same(found, cells), same(foundText, text)], [true, true]);
    const cause = parseInt(owed), whole = library.expandWhole(table, formula);
    if (cause === 0) {
      const rows = Uint32Array.from(whole.rows.flatMap(row => [...row])), made = cells.subarray(0, 4 * Number(whole.a));
      const printed = same(Buffer.from(whole.text), text.subarray(0, Number(whole.c)));
      expect(`the whole of case ${n}`, [numbers(whole), same(rows, made), printed], [owed, true, true]);
    }
    expect(`check of case ${n}`, numbers(library.check(table)), cause >= 1 && cause <= 13 ? owed : "0 0 0 0");
    n++;
  }
  return n;
}

// One call for all formulas of a table answers, and leaves cells and text, as one call for each does.
function manyAtOnce() {
  const byTable = new Map();
  for (const {table, formula} of cases()) {
    const key = table.toString("hex");
    if (!byTable.has(key)) byTable.set(key, {table, formulas: []});
    byTable.get(key).formulas.push(formula);
  }
  for (const {table, formulas} of byTable.values()) for (const lent of [0, 100, 65536]) {
    const rooms = () => [new Uint32Array(2000).fill(0xaaaaaaaa), new Uint8Array(lent).fill(0xee)];
    const [[cells, text], [cellsOwed, textOwed]] = [rooms(), rooms()], ends = [];
    let at = 0, end = 0;
    const owed = formulas.map(formula => {
      ends.push(end += formula.length);
      const answer = library.expand(table, formula, cellsOwed, textOwed.subarray(at));
      if (answer.number === 0) at += Number(answer.c);
      return numbers(answer);
    });
    expect("many at once", library.expandEach(table, Buffer.concat(formulas), ends, cells, text).map(numbers), owed);
    expect("room of many at once", [same(cells, cellsOwed), same(text, textOwed)], [true, true]);
  }
}

// What is lent as a line of cases tells it: all up to the last number that is not as it was set, in digits or as a count and a hash.
function shown(room, unset, wanted) {
  let size = room.length;
  while (size > 0 && BigInt(room[size - 1]) === BigInt(unset)) size--;
  const left = room.subarray(0, size), digits = 2 * room.BYTES_PER_ELEMENT;
  if (!wanted.includes("/")) return Array.from(left, value => value.toString(16).padStart(digits, "0")).join("") || "-";
  let hash = 0xcbf29ce484222325n;
  for (const byte of asBuffer(left)) hash = BigInt.asUintN(64, (hash ^ BigInt(byte)) * 0x100000001b3n);
  return `${size}/${hash.toString(16).padStart(16, "0")}`;
}

// The calls of the requests' lines: inputs and wanted outputs to outputs.
const calls = {
  check([table]) {
    return numbers(library.check(octets(table)));
  },
  expand([table, formula, cellsLent, textLent], owed) {
    const cells = new Uint32Array(+cellsLent).fill(0xaaaaaaaa), text = new Uint8Array(+textLent).fill(0xee);
    const answer = numbers(library.expand(octets(table), octets(formula), cells, text));
    return [answer, shown(text, 0xee, owed[4]), shown(cells, 0xaaaaaaaa, owed[5])].join(" ");
  },
  portions([table, formula, written, wanted, cellsLent, listLent], owed) {
    const cells = new Uint32Array(+cellsLent).fill(0xaaaaaaaa), list = new BigUint64Array(+listLent).fill(0xeeeeeeeeeeeeeeeen);
    const answer = numbers(library.portions(octets(table), octets(formula), BigInt(written), BigInt(wanted), cells, list));
    return [answer, shown(list, 0xeeeeeeeeeeeeeeeen, owed[4]), shown(cells, 0xaaaaaaaa, owed[5])].join(" ");
  },
  compare([a, b]) {
    const {equal, count} = library.compare(octets(a), octets(b));
    return `${equal ? 1 : 0} ${count}`;
  },
};
const octets = word => Uint8Array.from(word === "-" ? [] : Buffer.from(word, "hex"));

function byLines() {
  let n = 0;
  for (const line of lineFiles.flatMap(file => fs.readFileSync(file, "utf8").split("\n")).filter(line => line)) {
    const [given, owed] = line.split(" = "), [label, call, range, ...inputs] = given.split(" "), [from, to] = range.split("-");
    if (+level < +from || +level > +to || !calls[call]) continue;
    expect(label, calls[call](inputs, owed.split(" ")), owed);
    n++;
  }
  return n;
}

// Counts of portions that no 64 bits hold are refused as others over the limit are.
function counts() {
  const cells = new Uint32Array(4), list = new BigUint64Array(3);
  for (const count of [0, 10001, -1, 2n ** 64n + 1n]) {
    expect(`portions ${count}`, numbers(library.portions(words, "", count, 1, cells, list)), "25 0 0 0");
    expect(`portions 1 to ${count}`, numbers(library.portions(words, "", 1, count, cells, list)), "25 0 0 0");
  }
  expect("no numbers", library.portionsWhole(words, "", 2, 3).portions, []);
}

const field = (tag, ...value) => [tag, value.length >> 8, value.length & 255, ...value];

// A table of so many bytes: a word gives applications nested to the left with a variable at every end.
function tableOfLength(length) {
  const levels = Math.floor((length - 30) / 3), spare = length - 30 - 3 * levels;
  const template = [...Array(levels).fill(0x22), ...Array(levels + 1).fill([0x20, 0]).flat()];
  const name = Buffer.from("abc").subarray(0, 1 + spare);
  const fields = [field(2, ...name), field(3), field(4, 0, 0, 4), field(5), field(6, 1, 1), field(7, ...template), field(8, 0)];
  return [Uint8Array.from(fields.flat()), 2 * levels + 1];
}

// Any number of words, eight at a time; the term is a lone outside name.
const words = Uint8Array.from([field(2, 0x54), field(3), field(4, 0, 0, 4), field(5), ...Array(8).fill(field(6, 1, 1)), field(6, 4, 0), field(7, 8), field(5),
  field(7, 0x20, 0x10, 0), field(8, 0)].flat());

function limits() {
  for (const past of [-2, -1, 0]) {
    const [table, made] = tableOfLength(Vegzump.TABLE_BYTES + past);
    const {number, rows, text} = library.expandWhole(table, "x");
    expect(`table ${past}`, [library.check(table).number, number, rows.length, text.length], [0, 0, made, 12 * made]);
    const lent = (cells, bytes) => numbers(library.expand(table, "x", new Uint32Array(cells), new Uint8Array(bytes)));
    for (const spare of [0, 3]) expect("rows", lent(4 * made - 4 + spare, 12 * made), "21 1 0 0");
    expect("text", lent(4 * made, 12 * made - 1), `24 ${12 * made} 0 0`);
  }
  for (const length of [Vegzump.TABLE_BYTES + 1, 65536, 100000]) expect("long table", numbers(library.check(new Uint8Array(length))), "1 0 0 0");
  for (const past of [-1, 0, 1, 2, 200000]) {
    const {number, text} = library.expandWhole(words, " ".repeat(Vegzump.FORMULA_BYTES + past));
    expect(`formula ${past}`, [number, text], past > 0 ? [14, undefined] : [0, "mkTermVar(T)"]);
  }
  for (const [count, owed] of [[4095, "17 4095 1 1"], [4096, "0 1 1 12"], [4097, "16 0 0 0"]]) {
    expect(`${count} tokens`, numbers(library.expandWhole(words, "a ".repeat(count))), owed);
  }
}

function nothingAtAll() {
  const none = new Uint8Array(0), noCells = new Uint32Array(0);
  expect("no table", numbers(library.check(none)), "4 0 0 0");
  expect("nothing", numbers(library.expand(none, "", noCells, none)), "4 0 0 0");
  expect("no row", numbers(library.expand(words, "", noCells, none)), "21 0 0 0");
  expect("no text", numbers(library.expand(words, "", new Uint32Array(4), none)), "24 12 0 0");
  expect("no formulas", library.expandEach(words, "", [], noCells, none), []);
}

// The term that takes most stack: each x puts 129 functions round what there is, 16,383 in all.
const functions = Array(129).fill([0x21, 2]).flat();
const deep = Uint8Array.from([field(1, 0x78), field(2, 0x54), field(3), field(4, 0, 0, 4), field(5), field(6, 4, 1, 0x20, 0x10, 0), field(7, 0),
  field(4, 1, 0, 4, 4), field(5), field(6, 0, 0), field(6, 3, 0), field(6, 4, 1, ...functions, 0), field(7, 3), field(5), field(7, 0), field(8, 0)].flat());
const deepFormula = "x ".repeat(127);

function deepest() {
  const {number, b, text} = library.expandWhole(deep, deepFormula);
  expect("deepest", [number, b, text.slice(0, 28), text.slice(-16383 - 12, -16383)], [0, 16384n, "mkTermFun(_1 mkTermFun(_2 mk", "mkTermVar(T)"]);
}

// A call that exceeds the engine's stack, as node gives it, throws, and the next one is as ever, however often that happens.
function brokenOff() {
  for (let i = 0; i < 100; i++) {
    let thrown = null;
    try { library.expandWhole(deep, deepFormula); } catch (e) { thrown = e.name; }
    expect("broken off", thrown, "RangeError");
  }
  expect("after that", library.expandWhole(words, "").text, "mkTermVar(T)");
}

function all() {
  const lines = byLines(), count = oneByOne();
  counts();
  manyAtOnce();
  limits();
  deepest();
  nothingAtAll();
  console.log(`${count} cases, ${lines} lines of requests, ${failures} failures`);
  process.exitCode = failures || !count || !lines ? 1 : 0;
}

if (isMainThread) {
  brokenOff();
  const thread = new Worker(__filename, {argv: process.argv.slice(2), resourceLimits: {stackSizeMb: 16}});
  thread.on("exit", code => { process.exitCode = failures ? 1 : code; });
} else all();
