// Whether a text is a plan in JSON or a script in JavaScript. A plan is an object with quoted keys, which no script begins with.

export const isPlan = (text) => /^\s*\{\s*("|\}?\s*$)/.test(text);
