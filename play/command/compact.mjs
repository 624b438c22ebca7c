// A value of a plan as the program writes it: JSON without blanks, an object's keys in order, and each number in one form.

import { isFloat, namesOf } from "../page/json.mjs";

/** The exponents of a float that is written without one are from -5 to 15. */
const LEAST = -5, MOST = 15;

export function compact(value) {
  if (value.items) return `[${value.items.map(compact).join(",")}]`;
  if (value.members) return `{${namesOf(value).map((name) => `${JSON.stringify(name)}:${compact(value.members.get(name).value)}`).join(",")}}`;
  if (typeof value.content === "string") return JSON.stringify(value.content);
  return typeof value.content === "number" && isFloat(value) ? floatText(value.content) : value.written;
}

/** The fewest digits that read back as the float, with a point or an exponent. */
function floatText(number) {
  const [, sign, first, rest = "", exponent] = number.toExponential().match(/^(-?)(\d)(?:\.(\d+))?e([+-]\d+)$/);
  const power = Number(exponent), digits = first + rest, minus = Object.is(number, -0) ? "-" : sign;
  if (power < LEAST || power > MOST) return `${minus}${first}${rest && `.${rest}`}e${exponent}`;
  if (power < 0) return `${minus}0.${"0".repeat(-power - 1)}${digits}`;
  return `${minus}${digits.slice(0, power + 1).padEnd(power + 1, "0")}.${digits.slice(power + 1) || "0"}`;
}
