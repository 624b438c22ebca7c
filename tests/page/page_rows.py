"""The rows of the page's list of a plan, beside trace_model.py: those of the trace, with the kinds and the names of values, with
what KeptAlive takes and lets go, and with since when nothing led to what a collection emptied. The ledger's rows are left out
where they are not asked for."""

import re

import rules
import trace_forms
import trace_model
from trace_kept import kind_of, number

VALUE = re.compile(r"\b(?:object|symbol) (\d+)$")
LONGEST = 40
# So many of what a collection emptied have a row.
MOST = 100


class Agent:
    """What is said of an agent's values: their kinds, the places that had them first, and what these have now."""

    def __init__(self, teller):
        self.teller = teller
        self.kinds, self.births, self.places, self.gone = {}, {}, {}, set()
        self.kept, self.targets, self.reached, self.lost = [], [], set(), {}

    def put(self, place, name, value):
        one = number(value)
        if one and one not in self.kinds:
            self.kinds[one] = kind_of(self.teller, one)
        if one and one not in self.births:
            self.births[one] = place, name
        self.places[place] = one

    def see(self, event):
        """Takes over an event that was done, and says what KeptAlive takes by it."""
        match event["event"]:
            case "message":
                variable = self.teller.jobs[self.teller.done - 1]["on"][1]
                self.put(variable, variable, event["value"])
            case "taken":
                self.put("held", "held", event["held"])
            case "caught":
                self.put(event["variable"], event["variable"], ("text", event["error"]))
            case "emptied":
                self.gone |= {*event["identities"]}
            case "did":
                return self.see_command(event)
        return None

    def see_command(self, event):
        (word, *operands), values, answer = event["command"], event["values"], event["answer"]
        if answer and "gives" in answer:
            self.put(operands[0], operands[0], answer["gives"])
        if word == "set":
            self.put((number(values[0]), operands[1]), operands[1], values[1])
        if word == "delete":
            self.places[number(values[0]), operands[2]] = None
        if word == "register":
            self.targets.append(number(values[1]))
        taken = number(values[0] if word == "weakref" else answer["gives"]) if word in ("weakref", "deref") else None
        if not taken or taken in self.kept:
            return None
        self.kept.append(taken)
        return taken

    def called(self, one):
        place, name = self.births[one]
        is_there = self.places.get(place) == one and one not in self.gone
        return f"{self.kinds[one]} {one} ({'' if is_there else 'made as '}{name})"

    def named(self, words):
        """Words of a row that end with a value."""
        return VALUE.sub(lambda found: self.called(int(found[1])), words)


class Rows:
    """The rows, as far as they came."""

    def __init__(self, has_ledger):
        self.has_ledger, self.found = has_ledger, []

    def add(self, name, event, answer=""):
        self.found.append([name, event, answer])

    def of_agent(self, agent, event):
        name, taken, kept = event["agent"], agent.see(event), agent.kept
        words, answer = (*trace_forms.told_of_agent(event), "")[:2]
        if event["event"] == "job ends":
            agent.kept = []
            answer = f"KeptAlive lets go: {', '.join(map(agent.called, kept))}" if kept else ""
        if event["event"] == "taken":
            words = f"registration {event['registration']} of {agent.called(agent.targets[event['registration'] - 1])} taken"
        if event["event"] == "did" and event["command"][0] == "let" and event["command"][2] is None:
            answer = "undefined, a plan's null"
        is_plain = event["event"] not in ("did", "refused", "caught", "taken")
        self.add(name, agent.named(words) if is_plain else words, agent.named(answer))
        shown = words if len(words) <= LONGEST else f"{words[:LONGEST - 1]}…"
        since = f"row {len(self.found)} ({agent.named(shown) if is_plain else shown})"
        if taken:
            self.add(name, "KeptAlive takes", agent.called(taken))
        emptied = event.get("identities", [])
        for one in emptied[:MOST]:
            self.add(name, f"nothing leads to {agent.called(one)}", f"since {agent.lost[one]}")
        if emptied[MOST:]:
            self.add(name, f"emptied {len(emptied[MOST:])} more")
        reached = agent.teller.reached()
        agent.lost |= dict.fromkeys(agent.reached - reached, since)
        agent.reached = reached

    def of_ledger(self, turn):
        if not self.has_ledger:
            return
        for event in turn.ledger_events:
            self.add("-", *trace_forms.of_ledger(event))
        for block in turn.released:
            self.add("-", f"block {block} released")


def rows_of(data, has_ledger):
    """The rows of a plan without a fault."""
    cluster = trace_model.Cluster(rules.read_plan(data))
    agents = {name: Agent(teller) for name, teller in cluster.agents.items()}
    rows = Rows(has_ledger)
    for turn in cluster.turns():
        if turn.event:
            rows.of_agent(agents[turn.event["agent"]], turn.event)
        rows.of_ledger(turn)
    return rows.found
