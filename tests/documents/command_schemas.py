#!/usr/bin/env python3
"""What the schemas of plans and of traces say of each command, from the rows of commands.json.

Usage: command_schemas.py --write. Writes it into docs/plan.schema.json and docs/trace.schema.json; schema.py tests that it
stands there. The two commands that no callback may have stand in the schema of plans by hand, alone and behind `try`.
"""

import json
import os
import sys
import textwrap

TOP = os.path.dirname(os.path.dirname(os.path.dirname(os.path.abspath(__file__))))
sys.path.insert(0, os.path.join(TOP, "tests", "lib"))

import rules

DOCS = os.path.join(TOP, "docs")
# what the schema calls an operand, by what it is for
DEFINED = dict.fromkeys(rules.READ, "read") | {
    "x": "assigned", "k": "key", "l": "literal", "t": "text", "c": "callback", "a": "other_agent", "z": "words",
    **dict.fromkeys("inpq", "number"),
}


def form(word, row):
    """The form of a command in the schema of plans: its word, what it does, and its operands."""
    items = [f'{{"const": {json.dumps(word)}, "description": {json.dumps(row["does"])}}}']
    items += [reference(name) for name in (["assigned"] if word == "try" else definitions(row))]
    rest = ['          "anyOf": [', ",\n".join(f"            {one}" for one in tried()), "          ]"]
    if word != "try":
        rest = [f'          "minItems": {len(row["operands"]) + 1},', f'          "maxItems": {len(items)}']
    return "\n".join([
        "        {",
        '          "prefixItems": [',
        ",\n".join("            " + item for item in items),
        "          ],",
        *rest,
        "        }",
    ])


def definitions(row):
    return [DEFINED[use] for use in row["operands"] + row.get("and", "")]


def reference(name):
    return f'{{"$ref": "#/$defs/{name}"}}'


def tried():
    """What stands behind `try`: a variable, the word of a command, and its operands. Words with the same stand together."""
    alike = {}
    for word in in_callbacks():
        if word != "try":
            row = rules.COMMANDS[word]
            alike.setdefault((len(row["operands"]), *definitions(row)), []).append(word)
    for (least, *names), words in alike.items():
        items = ["{}", "{}", f'{{"enum": {json.dumps(words)}}}', *map(reference, names)]
        yield f'{{"prefixItems": [{", ".join(items)}], "minItems": {least + 3}, "maxItems": {len(items)}}}'


def in_callbacks():
    """The words of the commands that a callback may have."""
    return [word for word in rules.COMMANDS if word not in rules.COLLECTING]


def plan_schema(text):
    """The schema of plans with the forms of all commands that a callback may have."""
    forms = [form(word, rules.COMMANDS[word]) for word in in_callbacks()]
    start = text.index('        {\n          "prefixItems"', text.index('\n    "command": {'))
    end = text.index("\n      ]\n", start)
    return text[:start] + ",\n".join(forms) + text[end:]


def trace_schema(text):
    """The schema of traces with the words of all commands but `try`, which a line has no command with."""
    known = [word for word in rules.COMMANDS if word != "try"]
    words = textwrap.fill(", ".join(map(json.dumps, known)), 120, initial_indent=" " * 12, subsequent_indent=" " * 12)
    start = text.index('"enum": [\n', text.index('\n    "command": {')) + len('"enum": [\n')
    return text[:start] + words + text[text.index("\n          ]", start):]


SCHEMAS = {"plan.schema.json": plan_schema, "trace.schema.json": trace_schema}


def written(name):
    """A schema as it stands, and as the rows have it."""
    with open(os.path.join(DOCS, name), encoding="utf-8") as file:
        text = file.read()
    return text, SCHEMAS[name](text)


def main():
    if sys.argv[1:] != ["--write"]:
        sys.exit(__doc__)
    for name in SCHEMAS:
        _, text = written(name)
        with open(os.path.join(DOCS, name), "w", encoding="utf-8") as file:
            file.write(text)


if __name__ == "__main__":
    main()
