// The proved library in WebAssembly from JavaScript: a plain script for pages, where it makes the name Vegzump, and for node's require.
//
//     const library = await Vegzump.load(bytesOfVegzumpWasm);
//     const {number, text} = library.expandWhole(table, "fun(p)p(b)");
//
// The calls are those of include/vegzump.h. An answer has `number`, 0 on acceptance and else the cause, and `a`, `b` and `c`, which are BigInt: b of cause
// 17 is a set of 64 kinds. A table is a Uint8Array; a formula is one too, or a string, of which the UTF-8 bytes are taken.
//
// An engine has a stack of its own beside the module's, in node 1 MB: enough for formulas nested as deeply as is allowed. A term nested by the thousand,
// as long templates and lists make it, can exceed it: the call then throws RangeError, and later calls are as before.
"use strict";
const Vegzump = (() => {
  const TABLE_BYTES = 16384, FORMULA_BYTES = 65535, ROWS = 16384, ROW_CELLS = 4;
  const PAGE = 65536, ANSWER_BYTES = 32;
  // What an ordinary formula makes: all that is lent is copied, so that all rows at once would cost more than the call.
  const FEW_ROWS = 256, FEW_NUMBERS = 192;

  const bytesOf = given => typeof given === "string" ? new TextEncoder().encode(given) : given;
  const asBytes = view => new Uint8Array(view.buffer, view.byteOffset, view.byteLength);
  // What is too long is refused for its length alone, so no more than one byte too many is handed over.
  const tableOf = given => given.subarray(0, TABLE_BYTES + 1);
  const formulaOf = given => bytesOf(given).subarray(0, FORMULA_BYTES + 1);

  // The answer of a call; a comparison lies likewise, with `equal` for the number and the count for a.
  function answerAt(memory, place) {
    const view = new DataView(memory.buffer, place, ANSWER_BYTES);
    return {number: view.getUint8(0), a: view.getBigUint64(8, true), b: view.getBigUint64(16, true), c: view.getBigUint64(24, true)};
  }

  // The calls of one instance. It is not for several workers at once: each makes its own of the same module.
  function faceOf({memory, __heap_base, __stack_pointer, vegzump_check, vegzump_expand, vegzump_expand_each, vegzump_portions, vegzump_compare}) {
    const free = Number(__heap_base.value), top = __stack_pointer.value;

    // Runs a call on copies of views behind the library's own memory, with a place and a length (in elements) for each, and copies those lent back.
    function run(call, read, lent) {
      let end = free + ANSWER_BYTES;
      const placed = [...read, ...lent].map(view => {
        const place = Math.ceil(end / 16) * 16;
        end = place + view.byteLength;
        return [view, place];
      });
      const missing = Math.ceil((end - memory.buffer.byteLength) / PAGE);
      if (missing > 0) memory.grow(missing);
      const all = new Uint8Array(memory.buffer);
      for (const [view, place] of placed) all.set(asBytes(view), place);
      try {
        call(...placed.flatMap(([view, place]) => [BigInt(place), BigInt(view.length)]));
      } finally {
        __stack_pointer.value = top;
      }
      for (const [view, place] of placed.slice(read.length)) asBytes(view).set(all.subarray(place, place + view.byteLength));
    }
    const answered = (call, read, lent) => {
      run((...words) => call(BigInt(free), ...words), read, lent);
      return answerAt(memory, free);
    };

    // Checks a table: number 0, or a refusal 1 to 13.
    const check = table => answered(vegzump_check, [tableOf(table)], []);

    // Expands a formula into cells, a Uint32Array, and text, a Uint8Array. All that lies past what is written is as it was.
    const expand = (table, formula, cells, text) => answered(vegzump_expand, [tableOf(table), formulaOf(formula)], [cells, text]);

    // Expands the formulas that end at `ends`, and answers a list. Cells are lent to each; texts lie one behind the other.
    function expandEach(table, formulas, ends, cells, text) {
      const numbers = new BigUint64Array(4 * ends.length);
      run(vegzump_expand_each, [tableOf(table), bytesOf(formulas), BigUint64Array.from(ends, BigInt)], [numbers, cells, text]);
      return Array.from(ends, (_, i) => ({number: Number(numbers[4 * i]), a: numbers[4 * i + 1], b: numbers[4 * i + 2], c: numbers[4 * i + 3]}));
    }

    // Expands with as much room as the formula needs: an answer with `rows`, of four numbers each, and `text`, a string, if it is accepted.
    function expandWhole(table, formula) {
      let cells = new Uint32Array(FEW_ROWS * ROW_CELLS), text = new Uint8Array(4096), answer = expand(table, formula, cells, text);
      if (answer.number === 21) {
        cells = new Uint32Array(ROWS * ROW_CELLS);
        answer = expand(table, formula, cells, text);
      }
      if (answer.number === 24) {
        text = new Uint8Array(Number(answer.a));
        answer = expand(table, formula, cells, text);
      }
      if (answer.number !== 0) return answer;
      const rows = Array.from({length: Number(answer.a)}, (_, i) => cells.subarray(ROW_CELLS * i, ROW_CELLS * (i + 1)));
      return {...answer, rows, text: new TextDecoder().decode(text.subarray(0, Number(answer.c)))};
    }

    // Expands as `expand` does and writes, in place of a text, the term's numbers for another count of portions into `list`, a BigUint64Array: three for each
    // number, itself, the whole grams and the remainder. A count is a number or a BigInt; 25 refuses one that is 0 or over 10,000.
    function portions(table, formula, written, wanted, cells, list) {
      // A count that is no number of 64 bits is refused as 0 is.
      const counts = [written, wanted].map(count => BigInt(count) === BigInt.asUintN(64, BigInt(count)) ? BigInt(count) : 0n);
      const call = (answer, t, tSize, f, fSize, ...lent) => vegzump_portions(answer, t, tSize, f, fSize, ...counts, ...lent);
      return answered(call, [tableOf(table), formulaOf(formula)], [cells, list]);
    }

    // The same with as much room as the formula needs: an answer with `portions`, each of a number, grams and a remainder, if it is accepted.
    function portionsWhole(table, formula, written, wanted) {
      const cells = new Uint32Array(ROWS * ROW_CELLS);
      let list = new BigUint64Array(FEW_NUMBERS), answer = portions(table, formula, written, wanted, cells, list);
      if (answer.number === 24) {
        list = new BigUint64Array(Number(answer.a));
        answer = portions(table, formula, written, wanted, cells, list);
      }
      if (answer.number !== 0) return answer;
      const entry = (_, i) => ({number: list[3 * i], grams: list[3 * i + 1], remainder: list[3 * i + 2]});
      return {...answer, portions: Array.from({length: Number(answer.c) / 3}, entry)};
    }

    // Compares two runs of bytes, eight at a time and then the tail byte by byte: whether they are equal, and how many comparisons it took, a BigInt.
    function compare(a, b) {
      const {number, a: count} = answered(vegzump_compare, [bytesOf(a), bytesOf(b)], []);
      return {equal: number === 1, count};
    }
    return {check, expand, expandEach, expandWhole, portions, portionsWhole, compare};
  }

  const load = async bytes => faceOf((await WebAssembly.instantiate(bytes)).instance.exports);
  // At once, where that is allowed: node and workers; pages only for small modules.
  const loadNow = bytes => faceOf(new WebAssembly.Instance(new WebAssembly.Module(bytes)).exports);
  return {load, loadNow, TABLE_BYTES, FORMULA_BYTES, ROWS, ROW_CELLS};
})();
if (typeof module !== "undefined") module.exports = Vegzump;
