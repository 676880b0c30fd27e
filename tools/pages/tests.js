// The list of formulas with what is expected of each. The server runs it; a verdict stands at each line.
"use strict";

class TestList {
  // hooks: run(tests) asks the server, changed() is told of each change, open(formula) shows a formula
  constructor(body, said, hooks) {
    this.body = body;
    this.said = said;
    this.hooks = hooks;
    this.list = [];
    this.turn = 0;
  }

  show(list) {
    this.list = list;
    this.draw();
  }

  draw() {
    this.body.replaceChildren(...this.list.map((test, i) => this.row(test, i)));
  }

  row(test, i) {
    const row = Term.element("tr"), end = Term.element("td");
    end.append(this.button("Open", `Open test ${i + 1}`, () => this.hooks.open(test.formula)),
      this.button("×", `Remove test ${i + 1}`, () => { this.list.splice(i, 1); this.redo(); }));
    row.append(this.field(test, "formula", `Formula ${i + 1}`), this.field(test, "expected", `Expected ${i + 1}`), Term.element("td", "verdict"), end);
    return row;
  }

  field(test, key, label) {
    const cell = Term.element("td"), input = Term.element("input");
    input.value = test[key];
    input.spellcheck = false;
    input.setAttribute("aria-label", label);
    input.addEventListener("input", () => {
      test[key] = input.value;
      this.hooks.changed();
      clearTimeout(this.timer);
      this.timer = setTimeout(() => this.run(), 120);
    });
    cell.append(input);
    return cell;
  }

  button(text, label, work) {
    const b = Term.element("button", "small", text);
    b.type = "button";
    b.setAttribute("aria-label", label);
    b.addEventListener("click", work);
    return b;
  }

  redo() {
    this.hooks.changed();
    this.draw();
    return this.run();
  }

  add(formula, expected) {
    this.list.push({formula, expected});
    return this.redo();
  }

  async run() {
    const turn = ++this.turn;
    if (!this.list.length) return this.say("no tests yet", "quiet");
    let got;
    try { got = await this.hooks.run(this.list); } catch (e) { return this.say(e.message, "bad"); }
    if (turn !== this.turn) return;
    [...this.body.querySelectorAll(".verdict")].forEach((cell, i) => this.verdict(cell, got.results[i], i));
    const judged = got.results.filter(r => r.same !== null), right = judged.filter(r => r.same).length;
    if (got.trouble) this.say("the grammar cannot be read", "bad");
    else this.say(`${right} of ${judged.length} as expected`, right < judged.length ? "bad" : "good");
  }

  say(text, kind) {
    this.said.textContent = text;
    this.said.className = kind;
  }

  verdict(cell, result, i) {
    const take = label => this.button(label, `Expect this answer of test ${i + 1}`, () => { this.list[i].expected = result.got; this.redo(); });
    const shown = t => t.length > 26 ? t.slice(0, 24) + "…" : t;
    cell.className = "verdict " + (!result ? "" : result.same === null ? "open" : result.same ? "right" : "wrong");
    cell.title = result ? result.got + (result.why ? ": " + result.why : "") : "";
    if (!result) cell.replaceChildren("–");
    else if (result.same === null) cell.replaceChildren(take("Take the answer"));
    else if (result.same) cell.replaceChildren("✓ as expected");
    else cell.replaceChildren("✗ " + shown(result.got), take("Take"));
  }
}
