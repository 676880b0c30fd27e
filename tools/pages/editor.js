// A text area over a copy of its text that carries the marks: red waves for faults, grey for what was being read, yellow for what is pointed at.
"use strict";

class Editor {
  // The area with this id lies over the element ID-under; ID-lines, if it is there, has the numbers of the lines.
  constructor(id, typed) {
    this.area = document.getElementById(id);
    this.under = document.getElementById(id + "-under");
    this.lines = document.getElementById(id + "-lines");
    this.marks = [];    // what an answer says: {start, end, fault, line}
    this.lights = [];   // what is pointed at
    this.area.addEventListener("input", () => { this.clear(); typed(); });
    this.area.addEventListener("scroll", () => this.scrolled());
  }

  get value() { return this.area.value; }

  set value(text) {
    this.area.value = text;
    this.clear();
  }

  clear() {
    this.marks = [];
    this.lights = [];
    this.paint();
  }

  show(marks) {
    this.marks = marks;
    this.lights = [];
    this.area.setAttribute("aria-invalid", String(marks.some(m => m.fault)));
    this.paint();
  }

  light(lights) {
    this.lights = lights;
    this.paint();
  }

  // The stretches to mark from the left; one that begins within another is left out.
  stretches() {
    const size = this.value.length, out = [];
    const all = [...this.marks.map(m => ({...m, kind: m.fault ? "wrong" : "context"})), ...this.lights.map(m => ({...m, kind: "lit"}))];
    for (const m of all.filter(m => m.start <= size).sort((a, b) => a.start - b.start || a.end - b.end))
      if (!out.length || m.start >= out[out.length - 1].end) out.push(m);
    return out;
  }

  paint() {
    const text = this.value, out = [];
    let at = 0;
    for (const m of this.stretches()) {
      const marked = text.slice(m.start, m.end);
      out.push(text.slice(at, m.start), Term.element("mark", m.kind, marked === "" || marked === "\n" ? " " + marked : marked));
      at = Math.min(m.end, text.length);
    }
    out.push(text.slice(at) + "\n");
    this.under.replaceChildren(...out);
    if (this.lines) this.number(); else this.grow();
    this.scrolled();
  }

  // An editor without line numbers is as high as its text, up to a limit.
  grow() {
    this.area.style.height = "auto";
    this.area.style.height = Math.min(this.area.scrollHeight, 240) + "px";
  }

  number() {
    const count = this.value.split("\n").length, wrong = new Set(this.marks.filter(m => m.fault).map(m => m.line));
    if (this.lines.childElementCount !== count)
      this.lines.replaceChildren(...Array.from({length: count}, (_, i) => Term.element("span", "", String(i + 1))));
    [...this.lines.children].forEach((e, i) => e.classList.toggle("wrong", wrong.has(i + 1)));
  }

  scrolled() {
    this.under.scrollTop = this.area.scrollTop;
    this.under.scrollLeft = this.area.scrollLeft;
    if (this.lines) this.lines.scrollTop = this.area.scrollTop;
  }

  // Puts the caret at a mark, and its line in sight.
  go(mark) {
    this.area.focus();
    this.area.setSelectionRange(mark.start, Math.min(mark.end, this.value.length));
    if (!this.lines) return;
    const height = parseFloat(getComputedStyle(this.area).lineHeight), top = mark.line * height;
    if (top < this.area.scrollTop + height || top > this.area.scrollTop + this.area.clientHeight - height)
      this.area.scrollTop = Math.max(0, top - this.area.clientHeight / 2);
  }
}
