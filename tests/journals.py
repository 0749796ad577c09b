"""What the journal of a session over the least engine says, by a second writing of the rules of docs/JOURNAL.md, which shares nothing
with the program. The engine counts what it was asked, a shutdown sets it back to 0, at 4 it dies, and at 2 it holds a handle, with which
it can't move. It finds no memory for the question `complete`, nor to be packed under one weight, nor to be unpacked on host 2.
`session_show` has it.
"""

HOSTS = 3
MOST_WEIGHT = 1_000_000
NO_MEMORY = 7
FULL = 4
# With a handle, which can be neither copied nor opened again.
HELD = 2
# A host that has no memory.
SMALL = 2


class Session:
    def __init__(self):
        self.owner, self.count, self.is_dead, self.told = 0, 0, False, ["opened:0"]

    def refusal(self, host, weight):
        """The first reason not to move, if there is one."""
        if self.is_dead:
            return "dead-kernel"
        if host == self.owner:
            return "same-host"
        if host >= HOSTS:
            return "unknown-host"
        if weight > MOST_WEIGHT:
            return "bad-weights"
        return "stuck" if self.count == HELD and weight != NO_MEMORY else None

    def move(self, host, weight):
        owner, reason = self.owner, self.refusal(host, weight)
        if reason:
            self.told.append(f"{reason}:{owner}")
        elif weight == NO_MEMORY:
            self.told.append(f"resumed:{owner}")
        else:
            self.told += [f"sealed:{owner}:{host}", f"moved:{host}"]
            self.told.append(f"resumed:{owner}" if host == SMALL else f"adopted:{owner}:{host}")
            self.owner = owner if host == SMALL else host

    def work(self, word):
        after = 0 if word in ("restart", "end") else self.count + 1
        if self.is_dead:
            self.told.append(f"dead:{self.owner}:{self.count}")
        elif after == FULL or word == "complete":
            self.told.append(f"died:{self.owner}:{self.count}")
            self.is_dead = True
        else:
            self.told.append(f"ran:{self.owner}:{after}")
            self.count, self.is_dead = after, word == "end"


def journal(asked):
    """One word for each entry, with its numbers: hosts, and the count of a reply, a death or a dead session."""
    session = Session()
    for ask in asked.split():
        word, *numbers = ask.split(":")
        if word == "move":
            session.move(*map(int, numbers))
        else:
            session.work(word)
    return " ".join(session.told)
