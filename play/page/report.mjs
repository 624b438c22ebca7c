// The report as the page shows it: its own letters, with the lines that one looks for set apart.

const APART = /^(agent|cluster|emptied|cleanup|error|skipped)\b/;
/** A longer report is shown without them. */
const MOST_LINES = 20000;

export function show(place, report) {
  const lines = report.split("\n");
  if (lines.length > MOST_LINES) {
    place.textContent = report;
    return;
  }
  const parts = lines.map((line, at) => {
    const ended = at < lines.length - 1 ? `${line}\n` : line;
    const kind = line.match(APART)?.[1];
    return kind === undefined ? ended : Object.assign(document.createElement("span"), { className: kind, textContent: ended });
  });
  place.replaceChildren(...parts);
}

/** How much there is of something, as "1 line" or "12 lines". */
export function counted(count, word) {
  return `${count.toLocaleString("en")} ${word}${count === 1 ? "" : "s"}`;
}

/** How long something took. */
export function lasting(milliseconds) {
  return milliseconds < 1000 ? `${milliseconds.toFixed(milliseconds < 10 ? 1 : 0)} ms` : `${(milliseconds / 1000).toFixed(1)} s`;
}
