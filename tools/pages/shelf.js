// The grammars of the page. Each is as it is in the folder (text, with its stamp), and as it is here (value). Changes are kept in this browser until they are
// saved, and count for all grammars that use the changed one.
"use strict";

class Shelf {
  constructor() {
    this.all = new Map();
    this.folder = "";
    this.house = "";   // the text of the house's grammar
  }

  get names() { return [...this.all.keys()].sort(); }

  get(name) { return this.all.get(name); }

  changed(grammar) { return grammar.value !== grammar.text; }

  // Takes over what the server has read from the folder. A grammar that is changed here stays as it is here.
  take(start) {
    this.folder = start.folder;
    this.house = start.house;
    const found = new Set(start.grammars.map(g => g.name));
    for (const grammar of [...this.all.values()])
      if (!found.has(grammar.name) && grammar.stamp !== "" && !this.changed(grammar)) this.all.delete(grammar.name);
    for (const g of start.grammars) this.put(g);
    this.restore();
  }

  // Grammars that were begun here and never saved.
  restore() {
    for (let i = 0; i < localStorage.length; i++) {
      const key = localStorage.key(i), name = key.startsWith(this.key("")) ? key.slice(this.key("").length) : "";
      const kept = name && !this.all.has(name) ? this.kept(name) : null;
      if (kept && kept.grammar !== undefined && kept.stamp === "") {
        this.add(name, kept.grammar);
        Object.assign(this.get(name), {formula: kept.formula, list: kept.list || []});
      }
    }
  }

  put(read) {
    const text = read.text.replace(/\r\n?/g, "\n"), known = this.all.get(read.name);
    if (!known) {
      const kept = this.kept(read.name) || {};
      const changed = kept.grammar !== undefined && kept.grammar !== text;
      this.all.set(read.name, {name: read.name, text, tests: read.tests, value: changed ? kept.grammar : text,
        stamp: changed ? kept.stamp : read.stamp, formula: kept.formula, list: kept.list || read.tests.map(t => ({...t}))});
    } else if (this.changed(known)) {
      known.text = text;   // its stamp stays that of the text which the changes began with: saving then tells of the other text
    } else {
      Object.assign(known, {text, value: text, stamp: read.stamp, tests: read.tests});
    }
  }

  add(name, value) {
    this.all.set(name, {name, text: "", tests: [], value, stamp: "", formula: "", list: []});
  }

  // The text of this grammar, and of all others that are changed.
  texts(name) {
    const out = {};
    for (const g of this.all.values()) if (g.name === name || this.changed(g)) out[g.name] = g.value;
    return out;
  }

  saved(grammar, text, stamp) {
    grammar.text = text;
    grammar.stamp = stamp;
    this.keep(grammar);
  }

  key(name) { return "phrase-workbench:" + this.folder + ":" + name; }

  keep(grammar) {
    const kept = {formula: grammar.formula, list: grammar.list, ...(this.changed(grammar) ? {grammar: grammar.value, stamp: grammar.stamp} : {})};
    try { localStorage.setItem(this.key(grammar.name), JSON.stringify(kept)); } catch (e) { /* no room: nothing is kept */ }
  }

  kept(name) {
    try { return JSON.parse(localStorage.getItem(this.key(name))); } catch (e) { return null; }
  }
}
