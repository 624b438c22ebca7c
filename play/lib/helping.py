"""The help of the page's editor: of plans the commands and keys of docs/plan.schema.json, of scripts the calls of
docs/SCRIPTS.md. Each word has its form and one line of meaning."""

import json
import re

from menu import plain, read


def words():
    schema = json.loads(read("docs", "plan.schema.json"))
    return {"commands": [*commands(schema)], "keys": [*keys(schema)], "calls": [*calls()]}


def commands(schema):
    """The commands in the order of their names; a description is the form, a colon and the meaning."""
    kinds = schema["$defs"]["job_command"]["anyOf"] + schema["$defs"]["command"]["anyOf"]
    for word in sorted((kind["prefixItems"][0] for kind in kinds if "prefixItems" in kind), key=lambda word: word["const"]):
        form, _, meaning = word["description"].partition(": ")
        yield {"word": word["const"], "form": form, "meaning": meaning}


def keys(schema):
    """The keys of a plan, of an agent and of a job."""
    parts = [schema, schema["$defs"]["agent"], schema["$defs"]["job"]]
    for name, about in ((name, about) for part in parts for name, about in part["properties"].items()):
        about = about if "description" in about else schema["$defs"][about["$ref"].rsplit("/", 1)[1]]
        yield {"word": name, "form": f'"{name}"', "meaning": about["description"]}


def calls():
    """The rows of the table of calls; the word of a call is the name before its bracket."""
    table = read("docs", "SCRIPTS.md").split("\n## Calls\n")[1].split("\n## ")[0]
    for form, meaning in re.findall(r"^\| `(.*?)` \| (.*) \|$", table, re.M):
        yield {"word": re.search(r"(\w+)\(", form)[1], "form": form, "meaning": plain(meaning)}
