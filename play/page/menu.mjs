// The menu: the lessons, the examples and the corpus, each with what it shows, and a field that filters them.

const element = (name, content) => Object.assign(document.createElement(name), { textContent: content });

export class Menu {
  /** `choose` is called with the plan that is chosen. */
  constructor(dialog, plans, choose) {
    this.dialog = dialog;
    this.filter = dialog.querySelector("input");
    this.none = dialog.querySelector(".none");
    this.rows = plans.map((plan) => this.row(plan, choose));
    this.groups = this.grouped(plans);
    dialog.querySelector(".list").append(...this.groups.map(({ section }) => section));
    this.filter.addEventListener("input", () => this.narrow());
    dialog.addEventListener("keydown", (event) => this.move(event));
    // A press beside the menu closes it.
    dialog.addEventListener("click", (event) => { if (event.target === dialog) dialog.close(); });
  }

  open() {
    this.dialog.showModal();
    this.filter.select();
  }

  row(plan, choose) {
    const button = element("button", "");
    button.type = "button";
    button.append(element("b", plan.group === "lessons" ? plan.title : plan.name), element("span", plan.rule));
    button.addEventListener("click", () => {
      this.dialog.close();
      choose(plan);
    });
    const words = `${plan.group} ${plan.name} ${plan.title ?? ""} ${plan.rule} ${plan.section ?? ""} ${plan.text}`;
    return { button, group: plan.group, words: words.toLowerCase() };
  }

  grouped(plans) {
    return [...new Set(plans.map((plan) => plan.group))].map((name) => {
      const section = element("section", "");
      const rows = this.rows.filter((row) => row.group === name);
      section.append(element("h3", name), ...rows.map((row) => row.button));
      return { section, rows };
    });
  }

  narrow() {
    const words = this.filter.value.toLowerCase().split(/\s+/);
    for (const row of this.rows) row.button.hidden = !words.every((word) => row.words.includes(word));
    for (const { section, rows } of this.groups) section.hidden = rows.every((row) => row.button.hidden);
    this.none.hidden = this.groups.some(({ section }) => !section.hidden);
  }

  /** The arrows go from row to row; Enter in the field takes the first. */
  move(event) {
    const shown = this.rows.map((row) => row.button).filter((button) => !button.hidden);
    const at = shown.indexOf(document.activeElement);
    if (event.key === "ArrowDown") (shown[at + 1] ?? shown[0])?.focus();
    else if (event.key === "ArrowUp") (at > 0 ? shown[at - 1] : this.filter).focus();
    else if (event.key === "Enter" && document.activeElement === this.filter) shown[0]?.click();
    else return;
    event.preventDefault();
  }
}
