// What two runs of a random script may differ in: an engine may keep what nothing reaches, and call callbacks later or never.

const isCleanup = (line) => /^s\d+ cleaned /.test(line);

/** The first line that differs, beside node's; null where there is none. */
function firstDiffering(ours, theirs) {
  for (let place = 0; place < Math.max(ours.length, theirs.length); place += 1) {
    if (ours[place] !== theirs[place]) return { place, ours: ours[place], theirs: theirs[place] };
  }
  return null;
}

/** Whether node's line says the same, but that some WeakRefs still answer, or that callbacks were not called yet. */
function isRetained({ ours, theirs }) {
  if (/^gone /.test(ours) && /^gone /.test(theirs)) return true;
  const [mine, other] = [ours, theirs].map((line) => (/^refs \[ (.*) \]$/.exec(line ?? "")?.[1] ?? "").split(", "));
  if (mine.length !== other.length || mine[0] === "" || other[0] === "") return false;
  return mine.every((one, place) => one === other[place] || (one === "'none'" && /^\d+$/.test(other[place])));
}

/** Lines of two agents apart: an engine has its own turns. */
const byAgent = (lines) => (lines.every((line) => /^[ab] /.test(line)) ? ["a", "b"].flatMap((name) => lines.filter((line) => line.startsWith(name))) : lines);

/** Whether each line is among the others as often. */
function isPartOf(some, all) {
  const left = [...all];
  return some.every((line) => {
    const place = left.indexOf(line);
    if (place >= 0) left.splice(place, 1);
    return place >= 0;
  });
}

/** "same", "retained", or what no engine may say. After a first line with what is retained nothing more is compared. */
export function judge(ours, theirs, name) {
  const [mine, other] = [ours, theirs].map((lines) => byAgent(lines.filter((line) => !isCleanup(line))));
  const found = firstDiffering(mine, other);
  if (found !== null) return isRetained(found) ? "retained" : `line ${found.place + 1}: here ${found.ours}, on node ${found.theirs}`;
  const [called, others] = [ours, theirs].map((lines) => lines.filter((line) => line.startsWith(`${name} cleaned `)));
  if (!isPartOf(others, called)) return `callbacks: here ${called}, on node ${others}`;
  return called.length === others.length ? "same" : "retained";
}
