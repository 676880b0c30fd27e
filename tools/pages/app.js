// The workbench: sends the grammars that are changed and the formula to the local server as they are typed, and shows what comes back.
"use strict";
const $ = id => document.getElementById(id);
const el = Term.element;
const PAUSE = 20;   // ms without a key before the server is asked
const FIRST = ["compose.grammar", "mine.grammar"];   // what is shown if nothing is asked for
const NAME = /^[A-Za-z0-9][A-Za-z0-9_-]{0,63}\.grammar$/;
const BEGINNING = '\n\ngrammar\n  simpleTerm:Term |==\n    "half" a=term   => a\nend\n';

const shelf = new Shelf();
let current = null;      // the grammar that is shown
let answer = null;       // the last answer to grammar and formula
let turn = 0;            // of the questions; answers to older ones are dropped
let asking = null;       // ends the question that is under way
let typed = 0;           // when a key was pressed that is not answered yet
let notation = "plain";
let timer = 0;

const count = (n, what) => n.toLocaleString("en") + " " + what + (n === 1 ? "" : "s");
const words = t => t.split(/(`[^`]*`)/).map(p => p[0] === "`" ? el("code", "", p.slice(1, -1)) : p);
const sheet = more => ({name: current.name, texts: shelf.texts(current.name), ...more});

// Addresses are relative: the page's own has the word that the server asks for.
async function call(path, body, signal) {
  const r = await fetch("api/" + path, {method: "POST", headers: {"Content-Type": "application/json"}, body: JSON.stringify(body), signal});
  if (!r.ok) throw new Error(await r.text());
  return r;
}

const ask = async (path, body, signal) => (await call(path, body, signal)).json();

// --- typing and answers -----------------------------------------------------------------------------------------------------------------------
const grammar = new Editor("grammar", () => { current.value = grammar.value; changed(); });
const formula = new Editor("formula", () => { current.formula = formula.value; changed(); });
const editors = {grammar, formula};

function changed() {
  shelf.keep(current);
  mention();
  typed = performance.now();
  clearTimeout(timer);
  timer = setTimeout(expand, PAUSE);
}

// Name and state of the grammar that is shown, and of all in the list.
function mention() {
  const differs = shelf.changed(current);
  $("revert").hidden = !differs || current.stamp === "";
  $("save").disabled = !differs;
  $("file").textContent = current.name + (current.stamp === "" ? " (not saved yet)" : differs ? " (changed)" : "");
  $("grammars").replaceChildren(...shelf.names.map(name => {
    const o = el("option", "", name + (shelf.changed(shelf.get(name)) ? " •" : ""));
    o.value = name;
    return o;
  }));
  $("grammars").value = current.name;
}

async function expand() {
  const own = ++turn, began = performance.now();
  if (asking) asking.abort();
  asking = new AbortController();
  let got;
  try { got = await ask("expand", sheet({formula: formula.value}), asking.signal); }
  catch (e) {
    if (e.name === "AbortError" || own !== turn) return;
    got = {stage: "away", title: "The workbench does not answer", said: [e.message], text: "", marks: []};
  }
  if (own !== turn) return;
  answer = got;
  show();
  time(began);
  document.body.dataset.turn = own;
  tests.run();
}

function time(began) {
  const now = performance.now(), key = typed ? `shown ${Math.round(now - typed)} ms after the key, ` : "";
  const work = answer.ms === undefined ? "" : ` (${answer.ms} ms of it work)`, size = answer.table ? ` · table ${count(answer.table, "byte")}` : "";
  typed = 0;
  $("speed").textContent = key + `answer in ${Math.round(now - began)} ms` + work + size;
}

function show() {
  const ok = answer.stage === "done";
  for (const [name, editor] of Object.entries(editors)) editor.show(answer.marks.filter(m => m.where === name));
  $("tokens").textContent = answer.tokens ? count(answer.tokens.length, "token") : "";
  $("term").hidden = $("about").hidden = !ok;
  $("said").hidden = ok;
  $("copy").disabled = !ok;
  $("count").textContent = ok ? count(answer.answer[2], "constructor") + ", " + count(answer.answer[1], "cell") : "";
  if (!ok) return explain();
  view.term = Term.read(answer.text);
  draw();
}

// --- the term ---------------------------------------------------------------------------------------------------------------------------------
const view = new Term.View($("term"), {chosen});

function draw() {
  view.show(view.term, notation);
  view.from(null);
  $("as-plain").setAttribute("aria-pressed", String(notation === "plain"));
  $("as-house").setAttribute("aria-pressed", String(notation === "house"));
  if (notation === "house") readBack();
}

// The house's notation is written by this page; the proved library reads it back, and the terms are compared.
async function readBack() {
  const of = answer, spell = Term.wordsFor(view.term), written = Term.flat(view.term.root, Term.house, spell);
  if (written.length > 65535) return;
  const back = await ask("house", sheet({tests: [{formula: written, expected: Term.flat(view.term.root, Term.plain, spell)}]}));
  if (of !== answer || notation !== "house") return;
  const long = /^refused (14|16|19|2\d)/.test(back.got);
  $("count").textContent = back.same ? "reads back to the same term" : long ? "too long to be read back" : "not the house's: read the constructors";
}

function set(style) {
  notation = style;
  if (answer) show();
}

async function copy() {
  await navigator.clipboard.writeText(notation === "house" ? Term.flat(view.term.root, Term.house) : answer.text);
  $("about").textContent = "copied";
}

// --- a refusal --------------------------------------------------------------------------------------------------------------------------------
// Part by part: what is said, and stretches of lines as they stand.
function explain() {
  const number = answer.answer ? answer.answer[0] : 0, title = el("p", "title"), head = el("span");
  if (number) title.append(button("cause", String(number), () => causes(number)));
  head.append(...words(answer.title));
  title.append(head);
  const values = number ? [el("p", "quiet", "refused " + answer.answer.join(" "))] : [];
  const jumps = answer.marks.filter(m => m.start !== undefined).slice(0, 3).map(m =>
    button("jump", m.where === "formula" ? "Go to the formula" : "Go to line " + m.line, () => editors[m.where].go(m)));
  $("said").replaceChildren(title, ...answer.said.map(said), ...values, ...jumps);
}

function said(part) {
  const marked = part.startsWith("    "), e = el(marked ? "pre" : "p");
  e.append(...(marked ? [part.replace(/^    /gm, "")] : words(part)));
  return e;
}

function button(kind, text, work) {
  const b = el("button", kind, text);
  b.type = "button";
  b.addEventListener("click", work);
  return b;
}

function causes(number) {
  $("causes").showModal();
  for (const row of $("cause-rows").children) row.classList.toggle("here", +row.dataset.number === number);
  const here = number && $("cause-rows").querySelector(".here");
  if (here) here.scrollIntoView({block: "center"});
}

function causeRow(cause) {
  const row = el("tr"), number = el("th", "", String(cause.number));
  row.dataset.number = cause.number;
  number.scope = "row";
  row.append(number, ...[cause.words, cause.values, cause.example].map(t => {
    const cell = el("td");
    cell.append(...words(t));
    return cell;
  }));
  return row;
}

// --- where a part of the term came from -------------------------------------------------------------------------------------------------------
// Asked for once an answer is pointed at.
function origins() {
  const of = answer;
  if (of.origins || of.asked) return;
  of.asked = true;
  ask("origins", sheet({formula: formula.value})).then(o => {
    of.origins = o;
    if (of === answer) { view.point(view.now); caret(); }
  }, () => {});
}

function source(what) {
  const o = answer && answer.origins;
  if (!o || !o.began) return {};
  if (what.parts) return {token: o.began[what.at], place: o.places[o.made[what.at]]};
  const [kind, of] = o.names[what.at] || [];
  if (kind === "word") return {kind, token: of};
  if (kind === "fresh") return {kind, place: o.places[of]};
  return kind ? {kind, ...source(what.of)} : {};
}

const lineOf = place => place.where === "grammar" ? `line ${place.line}` : `${place.file}, line ${place.line}`;

function chosen(what) {
  if (!answer || answer.stage !== "done") return;
  if (what) origins();
  const from = what ? source(what) : {}, token = from.token !== undefined && answer.tokens ? answer.tokens[from.token] : null;
  formula.light(token ? [{start: token[0], end: token[1]}] : []);
  grammar.light(from.place && from.place.where === "grammar" ? [from.place] : []);
  const told = !what ? "" : what.parts ? aboutNode(what, from, token) : aboutName(what, from);
  $("about").textContent = told || "Point at a name, or touch it, to see where it belongs.";
}

function aboutNode(node, from, token) {
  const word = token ? `\`${formula.value.slice(token[0], token[1])}\`` : "the end";
  return `${node.head}: ` + (from.place ? `made by ${lineOf(from.place)}, for the phrase that begins at ${word}` : count(node.size, "constructor"));
}

function aboutName(name, from) {
  const binder = name.binder && name.binder !== name ? source(name.binder) : from, told = `${name.name}: ${Term.describe(name)}`;
  if (binder.kind === "fresh") return told + `; a fresh name of the phrase (${lineOf(binder.place)})`;
  if (name.role === "binder" && binder.kind === "word" && name.name[0] === "_")
    return told + "; the formula's own name, renamed since an outside name is spelled so";
  return told + ({outside: "; an outside name of the grammar", word: "; a word of the formula"}[from.kind] || "");
}

// The caret in the formula lights what came of its word.
function caret() {
  if (document.activeElement !== $("formula") || !answer || answer.stage !== "done" || !answer.tokens) return;
  if (!answer.origins) {
    clearTimeout(caret.timer);
    caret.timer = setTimeout(origins, 300);
    return;
  }
  const at = $("formula").selectionStart, i = answer.tokens.findIndex(t => t[0] <= at && at < t[1]);
  view.from(i < 0 ? null : x => x && source(x).token === i);
}

// --- grammars and files -----------------------------------------------------------------------------------------------------------------------
const tests = new TestList($("rows"), $("verdict"), {
  run: list => ask("tests", sheet({tests: list})),
  changed: () => shelf.keep(current),
  open: text => { write(text); formula.area.focus(); },
});

function write(text) {
  formula.value = current.formula = text;
  shelf.keep(current);
  expand();
}

function choose(name, text) {
  current = shelf.get(name) || shelf.get(shelf.names[0]);
  if (text !== undefined) current.formula = text;
  if (current.formula === undefined) current.formula = (current.tests[0] || {formula: ""}).formula;
  grammar.value = current.value;
  formula.value = current.formula;
  const options = current.tests.map((t, i) => { const o = el("option", "", t.formula || "(nothing)"); o.value = i; return o; });
  $("formulas").replaceChildren(el("option", "", "examples …"), ...options);
  grammar.area.scrollTop = 0;
  tests.show(current.list);
  mention();
  return expand();
}

// What came of something pressed; it stands until the next.
function note(text, kind) {
  $("note").textContent = text;
  $("note").className = kind;
}

function begin() {
  const name = prompt("Name of the new grammar", "mine.grammar");
  if (name === null) return;
  if (!NAME.test(name)) return note("a grammar's name is letters, digits, - or _, and .grammar", "bad");
  begun(name);
  choose(name);
}

// A new grammar uses the house's. Where the folder has none, it is put beside it, to be saved too.
function begun(name) {
  if (shelf.get(name)) return;
  const house = shelf.names.find(n => /(^|\/)house\.grammar$/.test(n)) || "house.grammar";
  if (!shelf.get(house)) shelf.add(house, shelf.house);
  if (name !== house) shelf.add(name, "use " + house + BEGINNING);
}

async function save() {
  const of = current, text = of.value;   // one may type on while it is saved
  if (!shelf.changed(of)) return;
  try {
    const made = await ask("save", {name: of.name, texts: {[of.name]: text}, stamp: of.stamp});
    shelf.saved(of, text, made.stamp);
    note(`${of.name} is saved`, "good");
  } catch (e) { note(e.message, "bad"); }
  mention();
}

async function saveTests() {
  try { note("saved as " + (await ask("save-tests", sheet({tests: current.list}))).file, "good"); } catch (e) { note(e.message, "bad"); }
}

// The grammar as it is in the folder now.
async function revert() {
  current.value = current.text;   // so it counts as unchanged, and the folder's text is taken
  await refresh();
  shelf.keep(current);
  choose(current.name);
}

// What another program has changed in the folder is seen when one comes back to the page.
async function refresh() {
  const before = current && current.value;
  shelf.take(await (await fetch("api/start")).json());
  if (current && current.value !== before) choose(current.name);
  else if (current) mention();
}

function download(name, blob) {
  const a = el("a");
  a.href = URL.createObjectURL(blob);
  a.download = name;
  a.click();
  setTimeout(() => URL.revokeObjectURL(a.href), 10000);
}

async function fetchFile(path, name, type) {
  try { download(name, new Blob([await (await call(path, sheet({formula: formula.value, tests: current.list}))).blob()], {type})); }
  catch (e) { note(e.message, "bad"); }
}

// --- all that can be pressed ------------------------------------------------------------------------------------------------------------------
function resize() {
  const page = document.documentElement, sizes = ["", "large", "huge"];
  page.dataset.size = sizes[(sizes.indexOf(page.dataset.size || "") + 1) % sizes.length];
  if (answer && answer.stage === "done") draw();
  formula.paint();
}

function darken() {
  const page = document.documentElement;
  page.dataset.theme = getComputedStyle(page).getPropertyValue("--is-dark").trim() === "1" ? "light" : "dark";
}

function keepFormula() {
  const found = !answer ? "" : answer.stage === "done" ? answer.text : answer.answer ? "refused " + answer.answer.join(" ") : "";
  tests.add(formula.value, found);
}

const PRESSED = {
  "new": begin, save, revert, copy, keep: keepFormula, "save-tests": saveTests, larger: resize, theme: darken,
  "as-plain": () => set("plain"), "as-house": () => set("house"),
  "to-tablet": () => fetchFile("tablet", current.name.replace(/^.*\//, "").replace(".grammar", ".html"), "text/html"),
  "to-table": () => fetchFile("table", "phrases.tab", "application/octet-stream"),
  "open-causes": () => causes(answer && answer.answer ? answer.answer[0] : 0), "close-causes": () => $("causes").close(),
};

function listen() {
  for (const [id, work] of Object.entries(PRESSED)) $(id).addEventListener("click", () => work());
  $("grammars").addEventListener("change", e => choose(e.target.value));
  $("formulas").addEventListener("change", e => {
    const test = current.tests[e.target.value];
    if (test) write(test.formula);
    e.target.selectedIndex = 0;
  });
  document.addEventListener("selectionchange", caret);
  document.addEventListener("keydown", e => { if ((e.ctrlKey || e.metaKey) && e.key === "s") { e.preventDefault(); save(); } });
  addEventListener("focus", () => refresh().catch(() => {}));
  let wide = innerWidth;
  addEventListener("resize", () => {
    if (innerWidth === wide) return;
    wide = innerWidth;
    if (answer && answer.stage === "done") draw();
  });
}

async function main() {
  const start = await (await fetch("api/start")).json(), asked = new URLSearchParams(location.hash.slice(1));
  shelf.take(start);
  if (!shelf.names.length) begun("mine.grammar");
  $("cause-rows").replaceChildren(...start.causes.map(causeRow));
  $("engine").textContent = `The term is that of the proved ${start.library}; packing and explanations are not proved. Folder: ${start.folder}`;
  listen();
  choose(asked.get("grammar") || FIRST.find(name => shelf.get(name)), asked.has("formula") ? asked.get("formula") : undefined);
}

main();
