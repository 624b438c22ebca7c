"""Agents by the rules that go on by one event at a time, clusters of them by lists of turns, and random such lists."""

import collections
import json

import random_plans
import rules
import third_plans


class Player(rules.Agent):
    """An agent that goes on by one event at a time. Between jobs it rests."""

    def __init__(self, plan, ledger):
        super().__init__(plan, ledger)
        self.lines = []
        self.rests, self.waits_for = True, None
        self.events = self.all_events()

    def all_events(self):
        """Goes on after each event."""
        while (job := self.next_job()) is not None:
            self.done += 1
            self.rests = False
            yield from self.job_events(job)
            while self.queue:
                yield from self.cleanup_events()
            self.rests = True
            yield
        self.close()
        yield

    def close(self):
        self.end()
        self.lines.pop()

    def job_events(self, job):
        """The events of a job, but for its end: where it waited, what came is the first, before its beginning."""
        try:
            if "on" in job:
                self.receive(*job["on"])
                yield
            yield
            yield from self.command_events(job["run"])
        except rules.TypeRefused as refused:
            self.lines.append(f"error {refused}")
            yield
        for line in self.finish():
            self.lines.append(line)
            yield
        self.kept = []
        if self.queue:
            yield

    def cleanup_events(self):
        """The events of a cleanup job; its end is the last of the move where no other cleanup job is due."""
        registry = self.next_registry()
        self.queue.remove(registry)
        yield
        try:
            while self.awaiting(registry):
                self.lines.append(self.take_cell(registry))
                yield
                yield from self.command_events(self.callbacks[self.registries[registry]])
        except rules.TypeRefused as refused:
            self.lines.append(f"error {refused}")
            if self.awaiting(registry):
                self.queue.append(registry)
            yield
        self.kept = []
        if self.queue:
            yield

    def command_events(self, commands):
        """The events of commands. To fall asleep is none: what comes after it is that of the `wait`."""
        for command in commands:
            line = self.do(command[0], command[1:])
            if self.sleep:
                yield
                self.wake()
            if line is not None:
                self.lines.append(line)
            yield

    def awaits(self):
        """Whether a job comes next that waits for a message."""
        job = self.next_job()
        return self.rests and not self.ended and job is not None and "on" in job

    def skip(self):
        self.done += 1
        self.waits_for = None
        self.lines.append(f"skipped {self.done}")

    def go_on(self):
        """The next event; what is awaited is there."""
        self.waits_for = None
        next(self.events)


class Cluster:
    def __init__(self, plan):
        self.ledger = rules.Ledger()
        self.players = [Player(agent, self.ledger) for agent in plan["agents"]]
        self.names = {player.name: player for player in self.players}

    def is_stuck(self, player, sender):
        """Whether a player that waits for a message of this sender finds none, and may still get one."""
        return not self.ledger.ports[sender, player.name] and not self.names[sender].ended

    def waits_in_vain(self, player):
        """Whether a player that was told to wait has to go on waiting, or one that sleeps was not taken."""
        if player.sleep:
            return not player.sleep.answer
        return player.waits_for is not None and self.is_stuck(player, player.waits_for)

    def is_chosen(self, player):
        """Whether all that have not ended were told to wait, or sleep, and this one is the first of them."""
        going = [other for other in self.players if not other.ended]
        return going[0] is player and all(self.waits_in_vain(other) for other in going)

    def step(self, player):
        """One turn of a player."""
        if player.ended:
            return "Ended"
        if not player.sleep and player.awaits() and not player.has_message(player.next_job()):
            return self.ask(player, player.next_job()["on"][0])
        if not player.sleep:
            player.go_on()
        return self.ask_asleep(player) if player.sleep else "Moved"

    def ask(self, player, sender):
        """One turn of a player that finds no message of this sender."""
        if self.is_stuck(player, sender):
            player.waits_for = sender
            if not self.is_chosen(player):
                return "Waiting"
        player.skip()
        return "Moved"

    def ask_asleep(self, player):
        """One turn of a player that sleeps, which it may have fallen asleep in."""
        if not player.sleep.answer:
            if not self.is_chosen(player):
                return "Waiting"
            self.ledger.time_out(player.sleep)
        player.go_on()
        return "Moved"

    def stays(self, player):
        """Whether a player waits for a message in vain, asked or not, or sleeps and was not taken."""
        if player.sleep:
            return not player.sleep.answer
        return player.awaits() and self.is_stuck(player, player.next_job()["on"][0])

    def move(self, player):
        """The rest of a player's job with its cleanup jobs, up to where it falls asleep; or, between jobs, the next, or its
        skip, or the end. One that sleeps and was not taken times out."""
        if player.sleep and not player.sleep.answer:
            self.ledger.time_out(player.sleep)
        elif not player.sleep and player.awaits() and not player.has_message(player.next_job()):
            player.skip()
            return
        player.go_on()
        while not player.rests and not player.ended and not player.sleep:
            player.go_on()

    def run_turns(self):
        while going := [player for player in self.players if not player.ended]:
            self.move(next((player for player in going if not self.stays(player)), going[0]))
        self.ledger.drain()

    def audit(self):
        """The blocks, how many of them are released, the tickets in agents and in messages, and those of each block."""
        in_agents = sum(len(player.buffers) for player in self.players)
        in_ports = sum(message[0] == "block" for port in self.ledger.ports.values() for message in port)
        counts = collections.Counter(block for player in self.players for block in player.buffers.values())
        counts.update(message[1] for port in self.ledger.ports.values() for message in port if message[0] == "block")
        each = [counts[block] for block in range(len(self.ledger.words))]
        assert each == self.ledger.tickets, "the second implementation has lost a ticket"
        released = sum(words is None for words in self.ledger.words)
        return " ".join([f"audit {len(each)} {released} {in_agents} {in_ports}:", *map(str, each)])


def a_plan(rng):
    """A plan without a fault, as it is written and as it is read."""
    while True:
        plan = random_plans.shared_plan(rng, rng.choice(random_plans.VERSIONS))
        data = json.dumps(third_plans.in_variables(rng, plan) if rng.random() < 0.3 else plan).encode()
        try:
            return data, rules.read_plan(data)
        except rules.Refused:
            continue


def turns_of(rng, agents):
    """A list of turns: in stretches, of all agents alike, or of some before others."""
    turns = []
    for _ in range(rng.randint(0, 6)):
        weights = [rng.choice([0, 1, 1, 4]) for _ in range(agents)]
        if any(weights):
            turns += rng.choices(range(agents), weights, k=rng.choice([1, 3, 10, 40]))
    return turns
