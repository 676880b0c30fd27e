// Runs the pages of the workbench under node, on a document that has as much of a browser's as they use:  node tests/page.js ADDRESS FOLDER
// FOLDER is the one that is served: a copy of examples/, or an empty one.
// It is no browser: nothing is laid out or seen. tests/workbench starts the server and runs this where node is installed.
// Each failure has a line; the last line is `page: N checks, F failed`.
"use strict";
const fs = require("fs"), path = require("path"), vm = require("vm");
const [address, folder] = process.argv.slice(2);
const PAGES = path.join(__dirname, "..", "tools", "pages");
const COMPOSED = "mkTermFun(_1 mkTermApp(mkTermVar(x) mkTermApp(mkTermVar(y) mkTermVar(_1))))";
const CAUSES = fs.readFileSync(path.join(__dirname, "..", "causes.txt"), "utf8").split("\n").filter(line => /^\d/.test(line)).length;
let made = 0, failed = 0;

function same(what, found, wanted) {
  made++;
  if (JSON.stringify(found) === JSON.stringify(wanted)) return;
  failed++;
  console.log(`${what}: found ${JSON.stringify(found)}, wanted ${JSON.stringify(wanted)}`);
}

// --- a document -------------------------------------------------------------------------------------------------------------------------------
class Text {
  constructor(text) { this.textContent = String(text); }
  remove() { this.parentNode.childNodes = this.parentNode.childNodes.filter(c => c !== this); }
}

class Classes {
  constructor(element) { this.element = element; }
  get list() { return this.element.className.split(" ").filter(c => c); }
  has(name) { return this.list.includes(name); }
  toggle(name, on) { this.element.className = [...this.list.filter(c => c !== name), ...(on ? [name] : [])].join(" "); }
  add(...names) { for (const n of names) this.toggle(n, true); }
  remove(...names) { for (const n of names) this.toggle(n, false); }
}

class Element extends Text {
  constructor(tag, page) {
    super("");
    Object.assign(this, {tag, page, childNodes: [], dataset: {}, attributes: {}, handlers: {}, className: "", hidden: false, value: "", scrollTop: 0,
      scrollHeight: 20, clientWidth: 900, clientHeight: 400, selectionStart: 0, parentNode: null});
    this.classList = new Classes(this);
    this.style = {setProperty: (key, value) => { this.style[key] = value; }};
  }
  get textContent() { return this.childNodes ? this.childNodes.map(c => c.textContent).join("") : ""; }
  set textContent(text) { if (this.childNodes) this.replaceChildren(text); }
  get children() { return this.childNodes.filter(c => c instanceof Element); }
  get childElementCount() { return this.children.length; }
  get firstElementChild() { return this.children[0] || null; }
  get lastElementChild() { return this.children[this.childElementCount - 1] || null; }
  get lastChild() { return this.childNodes[this.childNodes.length - 1] || null; }
  taken(parts) {
    return parts.map(p => p instanceof Text ? p : new Text(p)).map(p => {
      if (p.parentNode) p.remove();
      p.parentNode = this;
      return p;
    });
  }
  append(...parts) { this.childNodes.push(...this.taken(parts)); }
  prepend(...parts) { this.childNodes.unshift(...this.taken(parts)); }
  replaceChildren(...parts) { this.childNodes = []; this.append(...parts); }
  replaceWith(other) {
    const siblings = this.parentNode.childNodes;
    other.parentNode = this.parentNode;
    siblings[siblings.indexOf(this)] = other;
  }
  setAttribute(key, value) { this.attributes[key] = value; }
  addEventListener(kind, work) { (this.handlers[kind] = this.handlers[kind] || []).push(work); }
  fire(kind, more) { for (const work of this.handlers[kind] || []) work({target: this, preventDefault() {}, stopPropagation() {}, ...more}); }
  click() { this.page.clicked.push(this); this.fire("click"); }
  focus() { this.page.document.activeElement = this; }
  setSelectionRange(start) { this.selectionStart = start; }
  getBoundingClientRect() { return {width: 10 * this.textContent.length}; }
  scrollIntoView() {}
  showModal() { this.open = true; }
  close() { this.open = false; }
  // A selector is a list of classes, [data-x], [data-x="v"] and [tabindex="0"].
  is(selector) {
    return selector.split(",").some(one => {
      const [, key, value] = /^\[data-(\w+)(?:="(.*)")?\]$/.exec(one) || [];
      if (key) return this.dataset[key] !== undefined && (value === undefined || String(this.dataset[key]) === value);
      return one[0] === "." ? one.slice(1).split(".").every(c => this.classList.has(c)) : one === '[tabindex="0"]' && this.tabIndex === 0;
    });
  }
  querySelectorAll(selector) { return this.children.flatMap(c => [...(c.is(selector) ? [c] : []), ...c.querySelectorAll(selector)]); }
  querySelector(selector) { return this.querySelectorAll(selector)[0] || null; }
  closest(selector) { return this.is(selector) ? this : this.parentNode ? this.parentNode.closest(selector) : null; }
}

// A page with the elements of its markup that have an id, all side by side, and with the scripts run.
class Page {
  constructor(markup, scripts, hash, stored) {
    this.clicked = [];
    this.blobs = [];
    this.prompted = "";
    this.window = new Element("window", this);
    this.elements = new Map();
    for (const [, tag, id, text] of markup.matchAll(/<(\w+)[^>]*\sid="([\w-]+)"[^>]*>([^<]*)/g)) {
      this.elements.set(id, new Element(tag, this));
      this.elements.get(id).textContent = text;
    }
    this.document = Object.assign(new Element("document", this), {body: new Element("body", this), documentElement: new Element("html", this),
      activeElement: null, getElementById: id => this.elements.get(id), createElement: tag => new Element(tag, this), createTextNode: t => new Text(t)});
    this.context = vm.createContext(this.globals(hash, stored));
    vm.runInContext(scripts, this.context);
  }

  globals(hash, stored) {
    const localStorage = {getItem: key => stored.has(key) ? stored.get(key) : null, setItem: (key, value) => stored.set(key, value),
      key: i => [...stored.keys()][i], get length() { return stored.size; }};
    return {document: this.document, localStorage, location: {hash}, navigator: {clipboard: {writeText: async t => { this.copied = t; }}}, innerWidth: 1200,
      addEventListener: (kind, work) => this.window.addEventListener(kind, work), prompt: () => this.prompted,
      getComputedStyle: () => ({lineHeight: "20px", getPropertyValue: () => "0"}), fetch: (rest, more) => fetch(address + rest, more),
      URL: {createObjectURL: blob => { this.blobs.push(blob); return "blob:"; }, revokeObjectURL() {}}, setTimeout, clearTimeout, performance, console,
      AbortController, URLSearchParams, Blob, TextEncoder, TextDecoder, WebAssembly, Uint8Array, Uint32Array, BigUint64Array, DataView, RangeError, atob};
  }

  $(id) { return this.elements.get(id); }
  text(id) { return this.$(id).textContent; }
  run(script) { return vm.runInContext(script, this.context); }
  marks(which, kind) { return this.$(which + "-under").querySelectorAll("." + kind).map(e => e.textContent); }
  async until(what, holds) {
    for (let i = 0; i < 2000; i++) {
      if (holds()) return;
      await new Promise(done => setTimeout(done, 10));
    }
    same("waited for: " + what, false, true);
  }
  // The last question that was answered, and the last that was asked.
  get turn() { return +this.document.body.dataset.turn || 0; }
  get asked() { return this.run("turn"); }
  // Types a text into an editor, and waits for the answer.
  async type(which, text) {
    const before = this.asked;
    this.$(which).value = text;
    this.$(which).fire("input");
    await this.until("an answer to " + text.slice(0, 40), () => this.turn > before);
  }
  async choose(name) {
    const before = this.asked;
    this.$("grammars").value = name;
    this.$("grammars").fire("change");
    await this.until(name, () => this.turn > before);
  }
  async press(id, what, holds) {
    this.$(id).click();
    await this.until(what, holds);
  }
}

const bare = text => text.replace(/\s+/g, "");
const onDisk = name => fs.readFileSync(path.join(folder, name), "utf8");
const read = name => fs.readFileSync(path.join(PAGES, name), "utf8");

async function open(hash, stored) {
  const markup = read("index.html"), scripts = [...markup.matchAll(/<script src="([\w.]+)">/g)].map(m => read(m[1])).join("\n");
  const page = new Page(markup, scripts, hash, stored);
  await page.until("the first answer", () => page.turn > 0);
  return page;
}

// --- the workbench ----------------------------------------------------------------------------------------------------------------------------
async function terms(page) {
  same("the term of x*y", bare(page.text("term")), bare(COMPOSED));
  await page.until("verdicts", () => page.text("verdict") !== "");
  same("the test list", [page.text("verdict"), page.$("verdict").className], ["1 of 1 as expected", "good"]);
  page.run("view.point(view.term.names[0])");
  await page.until("the place of a fresh name", () => page.marks("grammar", "lit").length > 0);
  same("lit in the grammar", page.marks("grammar", "lit"), ["x=local"]);
  same("binder and use are lit", page.$("term").querySelectorAll(".lit").map(e => e.textContent), ["_1", "_1"]);
  same("what is told", page.text("about"), "_1: binder, used once; a fresh name of the phrase (line 7)");
  page.run("view.point(view.term.nodes[0])");
  same("lit in the formula", page.marks("formula", "lit"), ["*"]);
  await page.press("as-house", "read back", () => page.text("count") === "reads back to the same term");
  same("the house's notation", bare(page.text("term")), "fun(_1)x(y(_1))");
  page.$("as-plain").click();
  await page.type("formula", "fun(x)(fun(x)x(y))(x)(fun(y)y)");
  const bound = e => e.textContent + (e.dataset.binder === undefined ? "-" : e.dataset.binder);
  same("the innermost binder", page.$("term").querySelectorAll("[data-name]").map(bound), ["x0", "x1", "x1", "y-", "x0", "y5", "y5"]);
  await page.type("formula", "fun(x)".repeat(510) + "x");
  same("a deep term is folded", page.$("term").querySelectorAll(".fold").length, 1);
  page.$("term").querySelector(".fold").click();
  same("and unfolded", page.$("term").querySelectorAll("[data-name]").length > 40, true);
}

async function refusals(page) {
  await page.type("formula", "x*fun(fun)p");
  same("the token at fault", page.marks("formula", "wrong"), ["fun"]);
  same("is not shown as a term", [page.$("term").hidden, page.$("said").hidden], [true, false]);
  same("its explanation", page.text("said").includes("fun is a keyword of this table"), true);
  await page.type("formula", "x*");
  same("the end of a formula", page.marks("formula", "wrong"), [" "]);
  const grammar = page.$("grammar").value;
  await page.type("grammar", grammar.replace("b=term", "b=trem"));
  same("a mistake of the grammar", page.marks("grammar", "wrong"), ["trem"]);
  same("its line", page.$("grammar-lines").querySelectorAll(".wrong").map(e => e.textContent), ["7"]);
  same("is told", page.text("said").includes("did you mean term"), true);
  await page.type("grammar", grammar);
  await page.type("formula", "x*y");
  same("mended", bare(page.text("term")), bare(COMPOSED));
  page.$("open-causes").click();
  same("the causes", page.$("cause-rows").childElementCount, CAUSES);
}

async function files(page) {
  const house = onDisk("house.grammar"), more = house + 'names two\ngrammar\n  simpleTerm:Term |==\n    "half" => mkTermVar(global(two))\nend\n';
  await page.choose("house.grammar");
  same("nothing to save", page.$("save").disabled, true);
  await page.type("grammar", more);
  same("changed", [page.$("save").disabled, page.text("file"), onDisk("house.grammar") === house], [false, "house.grammar (changed)", true]);
  await page.choose("compose.grammar");
  await page.type("formula", "half*half");
  same("a change counts for a grammar that uses it", page.text("term").includes("two"), true);
  await page.choose("house.grammar");
  await page.press("save", "saved", () => page.text("note") === "house.grammar is saved");
  same("on disk", [onDisk("house.grammar") === more, page.text("file")], [true, "house.grammar"]);
  fs.writeFileSync(path.join(folder, "house.grammar"), house);
  page.window.fire("focus");
  await page.until("another's change", () => page.$("grammar").value === house);
  await page.type("grammar", more);
  fs.writeFileSync(path.join(folder, "house.grammar"), house + "# another\n");
  page.window.fire("focus");
  await page.until("another's change behind one's own", () => page.run("shelf.get('house.grammar').text") === house + "# another\n");
  await page.press("save", "a conflict", () => page.text("note").includes("was changed by another program"));
  same("is not written over", onDisk("house.grammar"), house + "# another\n");
  await page.press("revert", "the other text", () => page.$("grammar").value === house + "# another\n");
  await page.type("grammar", house);
  await page.press("save", "saved again", () => onDisk("house.grammar") === house);
}

async function begun(page, stored) {
  page.prompted = "../mine.grammar";
  page.$("new").click();
  same("no such name", page.text("note").startsWith("a grammar's name"), true);
  page.prompted = "mine.grammar";
  await page.press("new", "a new grammar", () => page.text("file") === "mine.grammar (not saved yet)");
  await page.type("formula", "half rice");
  same("its term", page.text("term"), "mkTermVar(rice)");
  page.$("keep").click();
  await page.until("a verdict", () => page.text("verdict") === "1 of 1 as expected");
  page.run("tests.list[0].expected = 'mkTermVar(soup)'; tests.redo();");
  await page.until("another verdict", () => page.text("verdict") === "0 of 1 as expected");
  page.$("rows").querySelector(".verdict").querySelector(".small").click();
  await page.until("the answer taken", () => page.text("verdict") === "1 of 1 as expected");
  const again = await open("#grammar=mine.grammar", stored);
  same("kept in the browser", [again.text("term"), again.text("file")], ["mkTermVar(rice)", "mine.grammar (not saved yet)"]);
  await page.press("save", "saved", () => page.text("note") === "mine.grammar is saved");
  await page.press("save-tests", "the list is saved", () => page.text("note") === "saved as mine.tests");
  same("both files", [onDisk("mine.grammar") === page.$("grammar").value, onDisk("mine.tests")], [true, "half rice => mkTermVar(rice)\n"]);
}

// --- the tablet -------------------------------------------------------------------------------------------------------------------------------
async function tablet(page) {
  await page.choose("menu.grammar");
  await page.press("to-tablet", "a page for the tablet", () => page.blobs.length > 0);
  const file = await page.blobs[0].text(), [, held, script] = file.match(/id="held">(.*?)<\/script>\n<script>([\s\S]*)<\/script>/);
  if (Buffer.from(JSON.parse(held).wasm, "base64").length < 100) return console.log("page: the module is not built, and the tablet's page not run");
  const own = new Page(file.slice(0, file.indexOf("<script")), "", "", new Map());
  own.elements.set("held", new Element("script", own));
  own.$("held").textContent = held;
  own.run(script);
  await own.until("the module", () => own.turn > 0);
  same("its list", own.$("list").childElementCount, 3);
  const show = text => { own.$("formula").value = text; own.$("formula").fire("input"); };
  show("with portion as 3, menu dish soup for 4 portion end");
  same("the house's notation", bare(own.text("term")), "(fun(_1){soup=portion(4)(_1)})(3)");
  show("menu dish soup for four leek end");
  same("a refusal", [own.marks("formula", "wrong"), own.text("said").includes("expected: a number"), own.text("said").endsWith("refused 17 4 2 1")],
    [["four"], true, true]);
  show("menu \u{1f600}");
  same("a sign that may not stand there", own.marks("formula", "wrong"), ["\u{1f600}"]);
}

// --- the house's notation -----------------------------------------------------------------------------------------------------------------------
// Numbers that are the same at each run.
function drawing(seed) {
  return most => { seed = (seed * 1103515245 + 12345) % 2147483648; return Math.floor(seed / 65536) % most; };
}

function drawn(draw, depth) {
  const below = () => drawn(draw, depth - 1), kind = depth > 0 ? draw(5) : 0;
  if (kind === 0) return ["mkTermVar(x)", "mkTermVar(y)", "mkTermVar(a_1)", `mkTermNum(${draw(1000)})`][draw(4)];
  if (kind === 1) return `mkTermFun(${"xy"[draw(2)]} ${below()})`;
  if (kind === 2) return `mkTermApp(${below()} ${below()})`;
  if (kind === 3) return `mkTermDot(${below()} ${["x", "age"][draw(2)]})`;
  let fields = "mkFieldNil()";
  for (let i = draw(4); i > 0; i--) fields = `mkFieldCons(${"ab"[draw(2)]} ${below()} ${fields})`;
  return `mkTermRcd(${fields})`;
}

async function printing(page) {
  const draw = drawing(7), Term = page.run("Term"), tests = Array.from({length: 200}, () => {
    const expected = drawn(draw, draw(6)), term = Term.read(expected), formula = Term.flat(term.root, Term.house);
    same("what is measured", [term.root.inHouse, term.root.width], [formula.length, expected.length]);
    return {formula, expected};
  });
  const got = await page.run("ask")("tests", {name: "house.grammar", texts: {"house.grammar": onDisk("house.grammar")}, tests});
  got.results.forEach((r, i) => same("read back: " + tests[i].formula, r.got, tests[i].expected));
}

// A folder without a grammar: one is begun, and the house's is put beside it.
async function inEmptyFolder() {
  const page = await open("", new Map());
  same("begun", [page.text("file"), page.$("grammars").children.map(e => e.textContent)],
    ["mine.grammar (not saved yet)", ["house.grammar •", "mine.grammar •"]]);
  await page.type("formula", "half rice");
  same("its term", page.text("term"), "mkTermVar(rice)");
  await page.press("save", "saved", () => page.text("note") === "mine.grammar is saved");
  await page.choose("house.grammar");
  page.$("save").click();
  await page.type("grammar", page.$("grammar").value + "# typed on\n");
  await page.until("the house's is saved too", () => page.text("note") === "house.grammar is saved");
  same("what was typed on is a change", [page.text("file"), onDisk("house.grammar").includes("typed on")], ["house.grammar (changed)", false]);
  same("on disk", fs.readdirSync(folder).sort(), ["house.grammar", "mine.grammar"]);
}

async function inExamples() {
  const stored = new Map(), page = await open("#grammar=compose.grammar&formula=x*y", stored);
  await terms(page);
  await refusals(page);
  await files(page);
  await begun(page, stored);
  await printing(page);
  await tablet(page);
}

async function main() {
  await (fs.readdirSync(folder).length ? inExamples() : inEmptyFolder());
  console.log(`page: ${made} checks, ${failed} failed`);
  process.exit(failed ? 1 : 0);
}

main();
