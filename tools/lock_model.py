#!/usr/bin/env python3
"""Searches all interleavings of the lock of jt_turn (src/turn.rt: lock, take_soon, unlock) for a lost wake-up.

    tools/lock_model.py [--broken] [THREADS ACTS]      without numbers: 2 to 4 threads with 2 acts each

A thread may look as often as it likes before it sleeps, so every number of looks is covered. Said is how many states there
are, that never two threads have the lock, and that from every state in which some thread has acts left some step leads on;
with --broken an unlock that wakes nobody is tried, which has to be found.
"""
import command_line

FREE, TAKEN, CONTENDED = range(3)
LOOK, SWAP, PARK, ASLEEP, INSIDE, WAKE, DONE = range(7)


def steps(state, wakes):
    """The states after one step of one thread. A thread is (what it does next, the word that it would put, acts left)."""
    word, threads = state
    for me, (at, taken, left) in enumerate(threads):
        def to(word_now, *mine, others=threads):
            return word_now, others[:me] + (mine,) + others[me + 1:]

        if at == LOOK:
            if word == FREE:
                yield to(taken, INSIDE, taken, left)
            seen = CONTENDED if word == CONTENDED else taken
            yield to(word, LOOK, seen, left)
            yield to(word, SWAP, seen, left)
        elif at == SWAP:
            yield to(CONTENDED, INSIDE if word == FREE else PARK, taken, left)
        elif at == PARK:
            # A thread sleeps only where the word still says so; the two are one step.
            yield to(word, ASLEEP if word == CONTENDED else LOOK, CONTENDED, left)
        elif at == INSIDE:
            if word == CONTENDED and wakes:
                yield to(FREE, WAKE, taken, left)
            else:
                yield to(FREE, LOOK if left > 1 else DONE, TAKEN, left - 1)
        elif at == WAKE:
            after = LOOK if left > 1 else DONE
            asleep = [i for i, other in enumerate(threads) if other[0] == ASLEEP]
            if not asleep:
                yield to(word, after, TAKEN, left - 1)
            for i in asleep:
                woken = threads[:i] + ((LOOK, CONTENDED, threads[i][2]),) + threads[i + 1:]
                yield to(word, after, TAKEN, left - 1, others=woken)


def search(count, acts, wakes=True):
    """How many states there are, or the first that is wrong."""
    first = FREE, ((LOOK, TAKEN, acts),) * count
    seen, open_states = {first}, [first]
    while open_states:
        state = open_states.pop()
        if sum(it[0] == INSIDE for it in state[1]) > 1:
            return f"two have the lock: {state}"
        nexts = {it for it in steps(state, wakes) if it != state}
        if not nexts and any(it[0] != DONE for it in state[1]):
            return f"some sleep for ever: {state}"
        open_states += nexts - seen
        seen |= nexts
    return f"{len(seen)} states, and none is wrong"


def main():
    asked = command_line.Words(__doc__)
    asked.add_argument("--broken", action="store_true", help="an unlock wakes nobody")
    asked.add_argument("threads", metavar="THREADS", nargs="?", type=command_line.positive)
    asked.add_argument("acts", metavar="ACTS", nargs="?", type=command_line.positive, default=2)
    words = asked.parse_args()
    for count in (2, 3, 4) if words.threads is None else (words.threads,):
        print(f"{count} threads, {words.acts} acts each: {search(count, words.acts, not words.broken)}")
    return 0


if __name__ == "__main__":
    command_line.run(main)
