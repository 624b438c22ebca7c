// What a script printed, line by line, each with whether an engine has to print it.

const element = (name, content) => Object.assign(document.createElement(name), { textContent: content });

export class Printed {
  /** `choose` is called with the number of a line's event. */
  constructor(place, choose) {
    this.place = place;
    place.addEventListener("click", ({ target }) => {
      const line = target.closest("[data-event]");
      if (line !== null) choose(Number(line.dataset.event));
    });
  }

  show(lines) {
    const isAlone = new Set(lines.map(({ agent }) => agent)).size < 2;
    const list = element("ol", "");
    list.className = "printed";
    list.append(...lines.map((line) => row(line, isAlone)));
    const may = lines.filter((line) => line.may !== null).length;
    this.place.replaceChildren(list, element("p", lines.length === 0 ? "The script prints nothing." : said(lines.length, may)));
  }
}

function row({ agent, text, event, may }, isAlone) {
  const item = element("li", ""), button = element("button", "");
  button.type = "button";
  button.dataset.event = event;
  button.className = may ? "may" : "must";
  if (!isAlone) button.append(element("b", agent));
  button.append(element("code", text));
  if (may) button.append(element("i", "may differ"));
  button.title = may ?? "Every engine prints this line.";
  item.append(button);
  return item;
}

function said(all, may) {
  if (may === 0) return "Every engine prints these lines.";
  const others = all === may ? "" : " The others every engine prints.";
  return `Lines with "may differ" hang on when an engine collects: here gc() collects all that nothing reaches.${others}`;
}
