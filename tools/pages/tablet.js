// The tablet's page: a packed table and the proved library are in the page itself.
"use strict";
(() => {
  const $ = id => document.getElementById(id), el = Term.element;
  const held = JSON.parse($("held").textContent);
  const bytes = s => Uint8Array.from(atob(s), c => c.charCodeAt(0));
  const table = bytes(held.table), house = bytes(held.house);
  const cells = new Uint32Array(16384), text = new Uint8Array(65536);   // as much as the program `phrase` lends
  let library = null, notation = "house", term = null;

  // The answer of the library, with the term if there is one.
  function expand(formula, table) {
    const answer = library.expand(table, formula, cells, text);
    return {...answer, text: answer.number ? "" : new TextDecoder().decode(text.subarray(0, Number(answer.c)))};
  }

  // Where token number i stands, by the rule of docs/LANGUAGE.md; behind the last one, the end.
  function token(formula, i) {
    const m = [...formula.matchAll(/[A-Za-z][A-Za-z0-9_]*|[0-9]+|[^\t\n\r ]/gu)][i], end = formula.trimEnd().length;
    return m ? [m.index, m.index + m[0].length] : [end, end + 1];
  }

  // The stretch of the formula that a refusal speaks of.
  function stretch(formula, r) {
    if (r.number >= 17 && r.number <= 21) return token(formula, Number(r.a));
    if (r.number !== 15) return null;
    const start = new TextDecoder().decode(new TextEncoder().encode(formula).subarray(0, Number(r.a))).length;
    return [start, start + String.fromCodePoint(formula.codePointAt(start)).length];
  }

  function paint(at) {
    const area = $("formula"), value = area.value;
    const parts = at ? [value.slice(0, at[0]), el("mark", "wrong", value.slice(at[0], at[1]) || " "), value.slice(at[1])] : [value];
    $("formula-under").replaceChildren(...parts);
    area.style.height = "auto";
    area.style.height = area.scrollHeight + "px";
  }

  const count = n => n.toLocaleString("en") + (n === 1 ? " constructor" : " constructors");
  const about = what => what.parts ? what.head + ": " + count(what.size) : what.name + ": " + Term.describe(what);
  const view = new Term.View($("term"), {chosen: what => {
    $("about").textContent = what ? about(what) : "Touch a name to see where it belongs.";
  }});

  // The house's notation is this page's own; the library reads it back, and if that is not the same term the constructors are shown.
  function readsBack() {
    const spell = Term.wordsFor(term), back = expand(Term.flat(term.root, Term.house, spell), house);
    return back.number === 0 && back.text === Term.flat(term.root, Term.plain, spell);
  }

  function draw() {
    const sure = notation === "plain" || readsBack();
    view.show(term, sure ? notation : "plain");
    if (!sure) $("count").textContent += ", too long for the house's notation or not in it";
    $("as-house").setAttribute("aria-pressed", String(notation === "house"));
    $("as-plain").setAttribute("aria-pressed", String(notation === "plain"));
  }

  // A browser has a stack of its own, which terms that are nested by the thousand can exceed: the library then gives no answer.
  function show() {
    try { showAnswer($("formula").value); } catch (e) {
      if (!(e instanceof RangeError)) throw e;
      $("term").hidden = $("about").hidden = true;
      $("said").hidden = false;
      $("said").textContent = "This formula is nested too deeply for this browser.";
    }
  }

  function showAnswer(formula) {
    const r = expand(formula, table), ok = r.number === 0;
    for (const b of $("list").children) b.setAttribute("aria-pressed", String(b.dataset.formula === formula));
    $("term").hidden = $("about").hidden = !ok;
    $("said").hidden = ok;
    $("count").textContent = ok ? count(Number(r.b)) : "";
    $("formula").setAttribute("aria-invalid", String(!ok));
    paint(ok ? null : stretch(formula, r));
    if (!ok) return explain(r);
    term = Term.read(r.text);
    draw();
  }

  function explain(r) {
    const title = el("p", "title"), fitting = r.number === 17 ? held.kinds.filter((_, i) => r.b >> BigInt(i) & 1n) : [];
    title.append(el("span", "cause", String(r.number)), el("span", "", held.causes[r.number]));
    const expected = fitting.length ? [el("p", "", "expected: " + fitting.join(", ").replace(/`/g, ""))] : [];
    $("said").replaceChildren(title, ...expected, el("p", "quiet", `refused ${r.number} ${r.a} ${r.b} ${r.c}`));
  }

  function write(formula) {
    $("formula").value = formula;
    show();
  }

  function choice(formula) {
    const b = el("button", "", formula);
    b.type = "button";
    b.dataset.formula = formula;
    b.addEventListener("click", () => write(formula));
    return b;
  }

  function set(style) {
    notation = style;
    show();
  }

  function resize() {
    const page = document.documentElement, size = getComputedStyle(page).getPropertyValue("--size").trim();
    page.style.setProperty("--size", {"20px": "24px", "24px": "28px"}[size] || "20px");
    show();
  }

  function darken() {
    const page = document.documentElement;
    page.dataset.theme = getComputedStyle(page).getPropertyValue("--is-dark").trim() === "1" ? "light" : "dark";
  }

  const known = [...new Set([held.formula, ...held.formulas])].filter(f => f !== "");
  const pressed = {"as-house": () => set("house"), "as-plain": () => set("plain"), larger: resize, theme: darken};
  $("name").textContent = held.name.replace(".grammar", "");
  $("formula").value = held.formula;
  $("list").replaceChildren(...known.map(choice));
  $("formula").addEventListener("input", show);
  for (const [id, work] of Object.entries(pressed)) $(id).addEventListener("click", work);
  Vegzump.load(bytes(held.wasm)).then(loaded => {
    library = loaded;
    show();
    document.body.dataset.turn = 1;
  }).catch(e => {
    $("said").hidden = false;
    $("said").textContent = "This browser cannot run the library: " + e.message;
  });
})();
