#!/usr/bin/env python3
"""An engine that is none: it answers plans by the rules, as the interpreter in a host does. It stands for an engine where
none is installed, sound or with a fault, which the variable FAULT names.

Usage: engine_of_rules.py < plans; with --help it says its version.

Faults: `silent` writes a word on standard error and ends; `dies` ends at a plan of which a job has nothing but `keys x`;
`retains` never empties and never calls a callback; `wrong` says 7 for true; `once` does so in one plan, when it is run
the first time: after that the file that the variable ONCE names is there. Where a refusal is caught, `ends` ends the job,
`clears` lets go what is kept alive, `assigns` gives the text to what the command assigns too, and `leaves` to nothing.
"""

import json
import os
import sys

TOP = os.path.dirname(os.path.dirname(os.path.dirname(os.path.abspath(__file__))))
sys.path.insert(0, os.path.join(TOP, "tests", "lib"))

import rules

FAULT = os.environ.get("FAULT", "")


class Told(rules.Agent):
    """An agent that tells what an interpreter tells."""

    def do(self, word, args):
        if word == "collect":
            self.empty(set() if FAULT == "retains" else rules.Graph(self).unreached())
            return None
        line = super().do(word, args)
        if word == "deref" or rules.COMMANDS[word].get("tells"):
            self.notes.append(f"# {'deref' if word == 'deref' else 'gave'} {rules.printed(self.value(args[0]))}")
        return line.replace("true", "7") if line == "say true" and is_wrong() else line

    def tried(self, name, command):
        try:
            return self.do(command[0], command[1:])
        except rules.TypeRefused as refused:
            if FAULT == "ends":
                raise
            assigned = [] if FAULT == "leaves" else [name]
            if FAULT == "assigns" and command[0] in rules.ASSIGNING:
                assigned.append(command[1])
            self.variables |= dict.fromkeys(assigned, ("text", str(refused)))
            self.kept = [] if FAULT == "clears" else self.kept
            return None

    def run(self, commands):
        for command in commands:
            self.notes = []
            line = self.do(command[0], command[1:])
            yield from [*self.notes, *([line] if line else [])]

    def job(self, job):
        yield "# job"
        yield from super().job(job)
        yield "# ended"

    def cleanup_job(self, registry):
        """The callbacks, each followed by the note that it has ended."""
        number = None
        for line in super().cleanup_job(registry):
            if line.startswith("cleanup "):
                if number:
                    yield f"# cleaned {number}"
                number = line.split()[1]
            yield line
        if number:
            yield f"# cleaned {number}"


def is_wrong():
    if FAULT == "once" and not os.path.exists(os.environ["ONCE"]):
        with open(os.environ["ONCE"], "w", encoding="utf-8"):
            return True
    return FAULT == "wrong"


def answer(plan):
    agents = {agent["name"]: Told(agent, ledger) for ledger in [rules.Ledger()] for agent in plan["agents"]}
    rules.run_turns(agents)
    return {"agents": [agent.lines[1:-1] for agent in agents.values()]}


def main():
    if "--help" in sys.argv:
        print("rules")
        return
    if FAULT == "silent":
        print("this shell has no WeakRef", file=sys.stderr)
        return
    for line in sys.stdin:
        plan = rules.read_plan(line.encode())
        if FAULT == "dies" and any(["keys", "x"] == command for job in plan["agents"][0]["jobs"] for command in job["run"]):
            sys.exit(1)
        print(json.dumps(answer(plan)), flush=True)


main()
