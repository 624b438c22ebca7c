// The words of the command line for node: those of the program, and `plan`.

/** What each command does, and the words that may stand behind it: options without a value, numbers with their bounds, and words
    of some. */
const COMMANDS = {
  run: { about: "Runs a plan by turns and writes its report", flags: ["turns"], numbers: { helpers: [1, 8], watch: [0, 1000] }, choices: { engine: ["node"] } },
  check: { about: "Says ok where the file is a plan", flags: [], numbers: {} },
  explain: { about: "Says what the first fault is, and where; or ok", flags: [], numbers: {} },
  trace: { about: "Runs a plan by turns and writes what happened, a row for each event", flags: ["all", "json", "dot"], numbers: { why: [1, 1_000_000] } },
  plan: { about: "Writes the plan of a script in JavaScript", flags: [], numbers: {} },
};
const OPTIONS = {
  turns: "Move the agents by turns, as node always does",
  helpers: "How many helpers mark in threads, 1 to 8; by turns none do",
  watch: "How many audits are made beside the agents, 0 to 1000; by turns none are",
  engine: "Run a script on node's own objects too, and compare its lines",
  all: "Tell of each value that stays what keeps it, not only of what is held weakly",
  json: "Write a line of JSON for each event",
  why: "Say instead all that leads to value N after each collection",
  dot: "Draw each heap after a collection, in Graphviz's language",
};
const VALUES = { helpers: " N", watch: " K", engine: " node", why: " N" };
const USAGE = `Usage: clusterrun
       clusterrun run [FILE] [--turns] [--helpers N] [--watch K] [--engine node]
       clusterrun check [FILE]
       clusterrun explain [FILE]
       clusterrun trace [FILE] [--all] [--json | --dot | --why N]
       clusterrun plan [FILE]
`;

/** Why words are none of this command line. */
class Mistake extends Error {}

/** What the words ask for: a command with its file, which is null for standard input, and its options; or a text to show, as
    `help`, or as `mistake` where they are none. Without words it is `run`. */
export function requestOf(words) {
  if (words.length === 0) return { command: "run", file: null, options: {} };
  try {
    return asked(words);
  } catch (error) {
    if (error instanceof Mistake) return { mistake: `error: ${error.message}\n\n${USAGE}\nFor more, try '--help'.\n` };
    throw error;
  }
}

function asked([command, ...words]) {
  if (command === "--help" || command === "-h") return { help: help() };
  if (command === "--version" || command === "-V") return { version: true };
  if (!Object.hasOwn(COMMANDS, command)) throw new Mistake(`'${command}' is no command`);
  const found = { command, file: null, options: {} };
  for (let isPlain = false; words.length > 0; ) {
    const word = words.shift();
    if (!isPlain && (word === "--help" || word === "-h")) return { help: helpOf(command) };
    if (!isPlain && word === "--") isPlain = true;
    else if (!isPlain && word.startsWith("-") && word !== "-") takeOption(found, word, words);
    else if (found.file !== null) throw new Mistake(`'${word}' is a second file`);
    else found.file = word;
  }
  mayStandTogether(Object.keys(found.options));
  return found;
}

/** Words of which one alone may stand there. */
const APART = [["json", "dot"], ["why", "all"], ["why", "json"], ["why", "dot"]];

function mayStandTogether(given) {
  const wrong = APART.find((pair) => pair.every((name) => given.includes(name)));
  if (wrong) throw new Mistake(`'--${wrong[0]}' may not stand beside '--${wrong[1]}'`);
}

function takeOption({ command, options }, word, words) {
  const [, name, value] = /^--([^=]*)(?:=(.*))?$/s.exec(word) ?? [];
  const { flags, numbers, choices = {} } = COMMANDS[command];
  const has = (options) => name !== undefined && Object.hasOwn(options, name);
  const isNumber = has(numbers), isChoice = has(choices);
  if (!isNumber && !isChoice && !flags.includes(name)) throw new Mistake(`'${word}' is no option of ${command}`);
  if (Object.hasOwn(options, name)) throw new Mistake(`'--${name}' stands twice`);
  if (isNumber) options[name] = numberOf(name, value ?? words.shift(), numbers[name]);
  else if (isChoice) options[name] = choiceOf(name, value ?? words.shift(), choices[name]);
  else if (value !== undefined) throw new Mistake(`'--${name}' takes no value`);
  else options[name] = true;
}

function choiceOf(name, value, known) {
  if (!known.includes(value)) throw new Mistake(`'--${name}' takes ${known.map((one) => `'${one}'`).join(" or ")}`);
  return value;
}

function numberOf(name, value, [least, most]) {
  const number = /^\+?\d+$/.test(value ?? "") ? Number(value) : NaN;
  if (!(number >= least && number <= most)) throw new Mistake(`'--${name}' takes a number from ${least} to ${most}`);
  return number;
}

// Help

const column = (name, text) => `  ${name.padEnd(14)}  ${text}\n`;

function help() {
  const commands = Object.entries(COMMANDS).map(([name, { about }]) => column(name, about)).join("");
  const options = column("-h, --help", "Print help") + column("-V, --version", "Print version");
  return `Runs the agents of a plan by turns and reports what they said; without words, the plan on standard input.
A file whose name ends in .js or .mjs is a script in JavaScript; each other file is a plan in JSON.

${USAGE}
Commands:
${commands}
Options:
${options}`;
}

function helpOf(command) {
  const { about, flags, numbers, choices = {} } = COMMANDS[command], usage = USAGE.split("\n").find((line) => line.includes(` ${command} `)).trim();
  const options = [...flags, ...Object.keys(numbers), ...Object.keys(choices)].map((name) => column(`--${name}${VALUES[name] ?? ""}`, OPTIONS[name])).join("");
  const file = command === "plan" ? "The script [default: standard input]" : "The plan or the script [default: the plan on standard input]";
  return `${about}

Usage: ${usage}

Arguments:
${column("[FILE]", file)}
Options:
${options}${column("-h, --help", "Print help")}`;
}
