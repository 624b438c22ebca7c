// Tabs, of which one is shown; the arrows go from one to the next that is there.

export class Tabs {
  /** `at` gives the elements of the page, of which each panel and its tab, `NAME-tab`, have one of these names. `changed` is
      called where another one is shown. */
  constructor(at, names, changed) {
    Object.assign(this, { at, names, changed, shown: names[0] });
    for (const name of names) {
      at(`${name}-tab`).addEventListener("click", () => this.show(name));
      at(`${name}-tab`).addEventListener("keydown", (event) => this.press(event));
    }
  }

  show(name) {
    this.shown = name;
    for (const one of this.names) {
      const tab = this.at(`${one}-tab`);
      tab.ariaSelected = one === name;
      tab.tabIndex = one === name ? 0 : -1;
      this.at(one).hidden = one !== name;
    }
    this.changed();
  }

  press(event) {
    if (event.key !== "ArrowRight" && event.key !== "ArrowLeft") return;
    event.preventDefault();
    const there = this.names.filter((name) => !this.at(`${name}-tab`).hidden);
    const by = event.key === "ArrowRight" ? 1 : there.length - 1;
    this.show(there[(there.indexOf(this.shown) + by) % there.length]);
    this.at(`${this.shown}-tab`).focus();
  }
}
