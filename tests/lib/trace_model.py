"""What happens in a run by turns, event by event, from the rules in rules.py and not from the program: for each turn the
agent's event, the heap after a collection, the ledger's events, and the blocks that were released.

An event is a dictionary whose members are those of its line by `clusterrun trace --json`, in their order. Its values are
those of rules.py. docs/TRACES.md says what is told; trace_forms.py writes it, and trace_kept.py checks what keeps values.
"""

import rules
from trace_kept import Heap



def read_by(command):
    """The variables that a command reads, in the order of its operands. Those are some of them that may be numbers too."""
    uses = rules.USES[command[0]] + rules.ONE_MORE_USE.get(command[0], "")
    is_read = {use: use in rules.READ or rules.KINDS[use] == "i" for use in uses}
    return [operand for use, operand in zip(uses, command[1:]) if is_read[use] and isinstance(operand, str)]


class Ticket(int):
    """A ticket of a block. To rules.py it is the block's number, from 0; its own is its serial, from 1."""

    def __new__(cls, block, serial):
        ticket = super().__new__(cls, block)
        ticket.serial = serial
        return ticket


class Ledger(rules.Ledger):
    """A ledger that notes its events, of agents of these names."""

    def __init__(self, names):
        super().__init__()
        self.names, self.events, self.mover = names, [], None
        self.blocks = []  # of each ticket its block, from 1, by rising serial

    def note(self, what, **members):
        self.events.append({"ledger": what, **members})

    def ticket(self, block):
        self.blocks.append(block + 1)
        return Ticket(block, len(self.blocks))

    def open(self, words):
        ticket = self.ticket(super().open(words))
        self.note("opened", block=ticket + 1, words=words, ticket=ticket.serial, agent=self.mover)
        return ticket

    def spend(self, block):
        self.note("spent", ticket=block.serial)
        super().spend(block)

    def post(self, sender, receiver, message):
        if message[0] == "block":
            message = ("block", self.ticket(message[1]))
        super().post(sender, receiver, message)
        self.note("posted", sender=sender, receiver=receiver, carries=message)

    def take(self, sender, receiver):
        self.note("taken", sender=sender, receiver=receiver)
        return super().take(sender, receiver)

    def sleep(self, block, index, variable):
        sleep = super().sleep(block, index, variable)
        sleep.agent = self.mover
        self.note("slept", agent=self.mover, ticket=block.serial, index=index, word=self.words[block][index])
        return sleep

    def notify(self, block, index, count):
        woken = super().notify(block, index, count)
        self.note("notified", ticket=block.serial, index=index, woken=woken)
        return woken

    def time_out(self, sleep):
        super().time_out(sleep)
        self.note("timed out", agent=sleep.agent)

    def drain(self):
        """By rising receiver, then by rising sender, in order of posting."""
        for receiver in self.names:
            for sender in self.names:
                self.drain_port(sender, receiver)

    def drain_port(self, sender, receiver):
        port = self.ports[sender, receiver]
        while port:
            message = port.popleft()
            self.drained += 1
            self.note("drained", sender=sender, receiver=receiver)
            if message[0] == "block":
                self.spend(message[1])


class Teller(rules.Agent):
    """An agent that goes on by one event at a time, and tells it."""

    def __init__(self, plan, ledger):
        super().__init__(plan, ledger)
        self.rests, self.waits_for, self.dead = True, None, None
        self.going = self.all_events()

    def event(self, what, **members):
        return {"agent": self.name, "event": what, **members}

    def empty(self, dead):
        self.dead = sorted(dead)
        return super().empty(dead)

    # The events

    def all_events(self):
        while (job := self.next_job()) is not None:
            self.done += 1
            self.rests = False
            yield from self.job_events(job)
            while self.queue:
                yield from self.cleanup_events()
        self.end()
        yield self.event("agent ends")

    def job_events(self, job):
        """Where a job waited, what came is its first event, before its beginning."""
        try:
            if "on" in job:
                yield self.received(*job["on"])
            yield self.event("job", job=self.done)
            yield from self.command_events(job["run"])
        except rules.TypeRefused as refused:
            yield self.refused(refused)
        if self.open:
            list(self.finish())
            yield self.event("emptied", command=None, identities=self.dead)
        yield self.of_end()

    def received(self, sender, name):
        try:
            self.receive(sender, name)
        except rules.TypeRefused as refused:
            refused.command = None
            raise
        return self.event("message", sender=sender, value=self.value(name))

    def of_end(self):
        """A job's end, or a cleanup job's. The agent rests after it, where no cleanup job is due."""
        self.kept = []
        self.rests = not self.queue
        return self.event("job ends")

    def cleanup_events(self):
        registry = self.next_registry()
        self.queue.remove(registry)
        yield self.event("cleanup job", registry=registry)
        try:
            while self.awaiting(registry):
                number = self.next_cell(registry)
                self.take_cell(registry)
                yield self.event("taken", registration=number, held=self.value("held"))
                yield from self.command_events(self.callbacks[self.registries[registry]])
        except rules.TypeRefused as refused:
            yield self.refused(refused)
            if self.awaiting(registry):
                self.queue.append(registry)
        yield self.of_end()

    def command_events(self, commands):
        for command in commands:
            try:
                yield from self.told(command)
            except rules.TypeRefused as refused:
                refused.command = command
                raise

    def refused(self, refused):
        return self.event("refused", command=refused.command, error=str(refused))

    def told(self, command):
        """The event of a command that is done, or whose refusal is caught; and None before it where the agent sleeps."""
        done = rules.bared(command)
        values, self.caught = [*map(self.value, read_by(done))], None
        self.do(command[0], command[1:])
        if self.sleep:
            while not self.sleep.answer:
                yield None
            self.wake()
        if self.caught:
            yield self.event("caught", variable=command[1], command=done, error=self.caught)
        else:
            yield self.of_command(done, values)

    def of_command(self, command, values):
        """The event of a command that was done, which does not show whether it stood behind `try`."""
        word, args = command[0], command[1:]
        if word == "collect":
            return self.event("emptied", command=command, identities=self.dead)
        answer = None
        if word == "keys":
            answer = {"keys": [*self.object(args[0])]}
        elif word in rules.ASSIGNING:
            answer = {"gives": self.value(args[0])}
        return self.event("did", command=command, values=values, answer=answer)

    def tried(self, name, command):
        try:
            return self.do(command[0], command[1:])
        except rules.TypeRefused as refused:
            self.caught = str(refused)
            self.variables[name] = ("text", self.caught)
            return None

    # What is an event of the ledger too

    def access(self, word, operands):
        """A word of a block that is read or written."""
        words, index = self.place(operands["b"], operands["i"])
        at = {"ticket": self.block(operands["b"]).serial, "index": index}
        old, number = words[index], self.as_word(operands.get("n"))
        super().access(word, operands)
        if word == "load" or (word == "compareexchange" and old != number):
            self.ledger.note("loaded", **at, word=old)
        elif word == "add":
            self.ledger.note("added", **at, old=old, addend=number)
        else:
            self.ledger.note("stored", **at, word=words[index])

    def wait(self, operands):
        """A word that is another than is waited for."""
        words, index = self.place(operands["b"], operands["i"])
        ticket = self.block(operands["b"])
        super().wait(operands)
        if not self.sleep:
            self.ledger.note("loaded", ticket=ticket.serial, index=index, word=words[index])

    def wake(self):
        if self.sleep.answer == "ok":
            self.ledger.note("woke", agent=self.name)
        super().wake()

    # The turns

    def awaits(self):
        """Whether a job comes next that waits for a message."""
        job = self.next_job()
        return self.rests and not self.ended and job is not None and "on" in job

    def skip(self):
        self.done += 1
        return self.event("skipped", job=self.done, sender=self.jobs[self.done - 1]["on"][0])


class Turn:
    """What a turn tells: the agent's event and, after a collection, its heap; and what the ledger did."""

    def __init__(self, event, heap, ledger_events, released):
        self.event, self.heap, self.ledger_events, self.released = event, heap, ledger_events, released


class Cluster:
    def __init__(self, plan):
        self.names = [agent["name"] for agent in plan["agents"]]
        self.ledger = Ledger(self.names)
        self.agents = {agent["name"]: Teller(agent, self.ledger) for agent in plan["agents"]}

    def turn(self, agent, event):
        """What is told since the last turn."""
        events, self.ledger.events = self.ledger.events, []
        is_emptied = event is not None and event["event"] == "emptied"
        return Turn(event, Heap(agent) if is_emptied else None, events, self.released(events))

    def released(self, events):
        """The blocks of which a ticket was spent and none is left, by the last spending of each, from 1."""
        spent = [self.ledger.blocks[event["ticket"] - 1] for event in events if event["ledger"] == "spent"]
        once = reversed(dict.fromkeys(reversed(spent)))
        return [block for block in once if self.ledger.tickets[block - 1] == 0]

    def ask(self, agent):
        """One turn of an agent that has not ended: its event, or None where it waits or sleeps."""
        self.ledger.mover = agent.name
        if agent.sleep:
            return self.ask_asleep(agent)
        if not agent.awaits() or agent.has_message(agent.next_job()):
            agent.waits_for = None
            event = next(agent.going)
            return self.ask_asleep(agent) if agent.sleep else event
        sender = agent.next_job()["on"][0]
        if agent.waits_for is None:
            agent.waits_for = sender
            self.ledger.note("waiting", agent=agent.name, sender=sender)
        if not self.agents[sender].ended and not self.is_chosen(agent):
            return None
        agent.waits_for = None
        self.ledger.note("passed", agent=agent.name, sender=sender)
        return agent.skip()

    def ask_asleep(self, agent):
        """One turn of an agent that sleeps, which it may have fallen asleep in."""
        if not agent.sleep.answer and self.is_chosen(agent):
            self.ledger.time_out(agent.sleep)
        return next(agent.going) if agent.sleep.answer else None

    def is_chosen(self, agent):
        """Whether all who have not ended were told to wait and still wait in vain, or sleep, and this agent is the first of
        them."""
        going = [other for other in self.agents.values() if not other.ended]
        return going[0] is agent and all(self.is_stuck(other) for other in going)

    def is_stuck(self, agent):
        if agent.sleep:
            return not agent.sleep.answer
        sender = agent.waits_for
        return sender is not None and not self.ledger.ports[sender, agent.name] and not self.agents[sender].ended

    def turns(self):
        """The turns of a run to its end, and last what was drained. Each agent moves by a whole job with its cleanup jobs, or
        up to where it falls asleep."""
        while not all(agent.ended for agent in self.agents.values()):
            for agent in self.agents.values():
                moved = False
                if not agent.ended:
                    moved, told = self.asked(agent)
                    yield told
                if moved:
                    break
            else:
                continue
            while moved and not agent.rests and not agent.ended:
                moved, told = self.asked(agent)
                yield told
        self.ledger.drain()
        yield self.turn(None, None)

    def asked(self, agent):
        event = self.ask(agent)
        if event is not None and event["event"] == "agent ends":
            self.ledger.note("ended", agent=agent.name)
        return event is not None, self.turn(agent, event)
