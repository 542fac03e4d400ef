"""A schedule from a seed: replicas choose their events as their threads do, in turns that a generator draws.

At each turn one replica is drawn among those that have not left, and makes the event that it chooses. Where it chooses
none, or is stuck at the one that it chooses, it leaves, and no event is written. A replica waits where a `yield` is its
last command and it has sent there; the draw is among those that don't wait, or among all that are left where each
waits. It ends where nobody is left, or at the limit of events. So what anybody sends at its end is there when those
that wait receive, and one `yield` at the end of each script is enough for all that finish to hear everything.
"""

from .rules import attempt, chosen, start

LARGEST_SEED = (1 << 64) - 1
MULTIPLIER, STREAM = 6364136223846793005, 54


def words(seed):
    """The words of the generator PCG32 (XSH RR 64/32) with this seed."""
    increment = STREAM << 1 | 1
    state = ((seed + increment) * MULTIPLIER + increment) & LARGEST_SEED
    while True:
        mixed, turn = (state >> 18 ^ state) >> 27 & 0xFFFFFFFF, state >> 59
        yield (mixed >> turn | mixed << (-turn & 31)) & 0xFFFFFFFF
        state = (state * MULTIPLIER + increment) & LARGEST_SEED


def waits(replica, last):
    """Whether a yield is the replica's last command, and its last event was made there."""
    is_last = len(replica.left) == 1 and replica.left[0][0] == "yield"
    return is_last and last is not None and last[0] in ("send", "recv", "apply")


class Loom:
    """The network to which the events so far lead, the replica's last events, and how each replica that left ended."""

    def __init__(self, scenario, seed):
        self.network, self.words = start(scenario), words(seed)
        self.schedule, self.last, self.left = [], {}, {}

    def made(self, event):
        """Makes the event, where it isn't stuck; else why is given."""
        stuck = attempt(self.network, event)
        if not stuck:
            self.schedule.append(event)
            self.last[event[1]] = event
        return stuck

    def turn(self):
        """One turn of a replica that is drawn; false where nobody is left."""
        here = [p for p in range(len(self.network)) if p not in self.left]
        eager = [p for p in here if not waits(self.network[p], self.last.get(p))]
        pool = eager or here
        if not pool:
            return False
        p = pool[next(self.words) % len(pool)]
        event = chosen(self.network, p, self.last.get(p))
        stuck = self.made(event) if event else None
        if stuck or not event:
            self.left[p] = (stuck, event)
        return True


def woven(scenario, seed, limit):
    """The loom at its end."""
    loom = Loom(scenario, seed)
    while len(loom.schedule) < limit and loom.turn():
        pass
    return loom


def weave(scenario, texts, seed, limit, out, err):
    """Writes the scenario with the schedule, and how each replica ended, and gives the status."""
    loom = woven(scenario, seed, limit)
    out.write(texts.scenario(scenario._replace(schedule=loom.schedule)))
    is_stuck = False
    for p, replica in enumerate(loom.network):
        stuck, event = loom.left.get(p, (None, None))
        end = texts.stuck(stuck, event).decode().rstrip("\n") if stuck else "limit" if replica.left else "finished"
        made = sum(event[1] == p for event in loom.schedule)
        err.write(f"{texts.names[p].decode()} made {made} {end}\n")
        is_stuck = is_stuck or stuck is not None
    return 3 if is_stuck else 0
