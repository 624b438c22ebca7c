// What is wrong in a command: crates/es_explain/specs/Causes.antt in JavaScript.

import { isFloat } from "../json.mjs";
import { noAgent, noCallback } from "./absent.mjs";
import { illText, isName, isText, noName } from "./names.mjs";
import { quoted, valueText } from "./texts.mjs";
import { lettersOf, nearest, sinceOf, TRY, typesOf } from "./words.mjs";

const MOST_WORDS = 16384;
/** What an operand of a type has to be. */
const WANTED = {
  name: "a name", literal: "null, true, false, a number or a text", text: "a text", callback: "the name of a callback",
  agent: "the name of an agent", whole: "a number", amount: "a name or a number", words: "a number",
};

const isString = ({ content }) => typeof content === "string";
const isNumber = ({ content }) => typeof content === "number";

const TRY_TAKES = "try takes a variable, and then the word of a command and its operands.";

/** The sentence on a command of an agent, by its number, which may stand behind `try` and a variable. */
export function commandSentence(code, plan, agent, command) {
  if (command[0].content !== TRY || versionOf(plan) < 3) return bareSentence(code, plan, agent, command);
  const [, variable, ...tried] = command;
  if (tried.length === 0 || !isString(variable) || !isString(tried[0])) return TRY_TAKES;
  if (code === "S5" && !isName(variable.content)) return `The variable of try is a name, and ${noName(variable.content)}`;
  return bareSentence(code, plan, agent, tried);
}

function bareSentence(code, plan, agent, [{ content: word }, ...operands]) {
  if (code === "S9") return `${word} can't stand in a callback: collect in a job.`;
  const types = typesOf(word, operands.length, versionOf(plan));
  if (types === null) return noWord(word);
  if (types.length !== operands.length) return `${word} takes ${lettersOf(word)}, and here ${operandsHere(operands.length)}.`;
  const at = types.findIndex((type, number) => IS_WRONG[code](type, operands[number]));
  if (at < 0) return "";
  return SENTENCES[code]({ plan, agent, word, type: types[at], operand: operands[at], called: `Operand ${at + 1} of ${word}` });
}

/** The version that the plan says; of one that says none it does not matter. */
const versionOf = (plan) => ({ 2: 2, 3: 3 })[plan.members.get("version")?.value.written] ?? 1;

/** A version has no such word. */
function noWord(word) {
  const since = sinceOf(word), near = nearest(word);
  if (word === TRY) return "try stands before a command, once, in plans of version 3.";
  if (since !== undefined) return `${word} is a command of version ${since}.`;
  return `There is no command ${quoted(word)}.${near === null ? "" : ` Did you mean ${near}?`}`;
}

function operandsHere(count) {
  if (count === 0) return "are no operands";
  return count === 1 ? "is 1 operand" : `are ${count} operands`;
}

/** Whether an operand is of the JSON kind that its type asks for. */
function fits(type, operand) {
  if (type === "literal") return !operand.items && !operand.members;
  if (type === "amount" && isNumber(operand)) return true;
  return type === "whole" || type === "words" ? isNumber(operand) : isString(operand);
}

/** Whether a number is whole, and one of the profile. */
const isWhole = (operand) => !isFloat(operand) && Number.isSafeInteger(operand.content);

/** By the code of a fault, whether an operand of a type has it. */
const IS_WRONG = {
  S5: (type, operand) => ["name", "callback", "agent", "amount"].includes(type) && isString(operand) && !isName(operand.content),
  S6: (type) => type === "callback" || type === "agent",
  S7: (type, operand) => !fits(type, operand),
  S8: (type, operand) => (isNumber(operand) ? !isWhole(operand) : (type === "literal" || type === "text") && isString(operand) && !isText(operand.content)),
  S10: (type) => type === "words",
};

const ADVICE = " A text is said by a variable that let gave it.";

/** By the code of a fault, the sentence on the operand that has it. */
const SENTENCES = {
  S5: ({ word, type, operand, called }) => (
    `${called} is ${WANTED[type === "amount" ? type : "name"]}, and ${noName(operand.content)}${word === "say" ? ADVICE : ""}`),
  S6: ({ plan, agent, type, operand }) => (type === "callback" ? noCallback(plan, agent, operand.content) : noAgent("post to", plan, agent, operand.content)),
  S7: ({ type, operand, called }) => `${called} is ${WANTED[type]}, and here stands ${valueText(operand)}.`,
  S8: ({ operand, called }) => `${called}${isNumber(operand) ? illNumber(operand) : illText(operand.content)}`,
  S10: ({ operand }) => (operand.content < 0 ? "A buffer can't have fewer than 0 words." : `A buffer has at most ${MOST_WORDS} words.`),
};

function illNumber(operand) {
  const range = "from -9007199254740991 to 9007199254740991.";
  return isFloat(operand) ? ` has a point or an exponent, is -0, or is too large: a number is whole, ${range}` : ` is not ${range}`;
}
