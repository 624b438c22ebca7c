"""A plan of several agents by the rules, along the turns that a host gave its threads, command by command.

A turn is a place among the agents, the number of a job, and that of a command in it: 0 for the job's beginning, where its
message is taken or it is skipped, and for the agent's end, which comes as the job after the last. A command of a callback
has 0 for both. What is between two turns of an agent concerns no other agent.
"""

import following
import rules

BORDER = object()  # stands among the lines of an agent where its next turn begins


class Stepping(following.Tagged):
    """An agent that goes on by turns."""

    def begin(self):
        self.going = self.turns()
        self.step()

    def step(self):
        """Does all up to the next turn."""
        next(self.going, None)

    def turns(self):
        while not self.ended:
            yield BORDER
            for line in self.moving():
                if line is BORDER:
                    yield line
                else:
                    self.lines.append(line)

    def moving(self):
        """The lines of the next job and the callbacks after it, with the borders among them."""
        job = self.next_job()
        if job is None:
            self.end()
            return
        self.done += 1
        if "on" in job and not self.has_message(job):
            self.inside, self.count = 0, 0
            yield from self.tagged([f"skipped {self.done}"])
            self.ends[self.done] = self.clock.now
            return
        yield from self.job(job)
        yield from self.cleanup_jobs()

    def run(self, commands):
        for command in commands:
            yield BORDER
            yield from super().run([command])

    def tagged(self, lines):
        for line in lines:
            yield from [line] if line is BORDER else super().tagged([line])


class Following(Stepping, following.Following):
    """An agent that follows what an engine said, along its turns."""

    def moving(self):
        yield from self.late()
        yield from super().moving()

    def late(self):
        while self.next().startswith("cleanup "):
            yield from self.called()


def run(agents, order):
    """Runs agents along these turns, and then what is left of each."""
    for agent in agents:
        agent.begin()
    for place, _job, _command in order:
        agents[place].step()
    for agent in agents:
        while not agent.ended:
            agent.step()
        if agent.ahead:
            agent.fail(agent.unlooked_for(), "(nothing)", agent.next(), following.ANSWERED_IN["say"])


def contradiction(plan, answer, order):
    """What contradicts an engine's lines of each agent along these turns, if anything. The plan was read by the rules.
    Each agent has a heap of its own, so a collection is one of its agent alone."""
    ledger, clock = rules.Ledger(), following.Clock()
    agents = [Following(agent, ledger, clock, said, {}) for agent, said in zip(plan["agents"], answer, strict=True)]
    clock.following = []
    try:
        run(agents, order)
    except following.Contradiction as found:
        return found
    return None
