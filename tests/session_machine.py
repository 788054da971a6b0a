#!/usr/bin/env python3
"""The machine of `play`, as a table of steps in Python, and a walk through all its orders.

Sixteen sessions share one file under SQLite's lock states. `Machine` has a method for each step, which is one row of the table: from the
committed file, the session's own state and those of the others it gives the answer, the session's new state and the file. It is written
from the table alone and shares nothing with the program. What a page is and which key opens it is told by another object: `SmallPages`
below for the walk, and pages by the reference in tests/reference/oracle/check_plays.py, which drives the program beside this machine.

    session_machine.py [DEPTH]

walks every order of steps of three sessions on two pages and under two keys, to this depth, or, where none is given, until no new state
comes, which is every order of any length. States that are the same are one, and so are states that differ in which of the sessions is
which, since the table treats them alike. At each step the rules in `RULES` have to hold, which are not the table again; and with each of
the wrong tables in `WRONG` put in, one of them has to be broken. `tour` gives the same walk as one row of steps, for the program.
"""
import itertools
import sys
import time
from typing import NamedTuple

CLOSED, UNLOCKED, SHARED, RESERVED, PENDING = "closed", "unlocked", "shared", "reserved", "pending"
HOLDING = (SHARED, RESERVED, PENDING)       # the locks under which a session reads
WRITING = (RESERVED, PENDING)               # those of which one session at most has one
DONE, BUSY, MISUSE = "done", "busy", "misuse"
HEADER = 100                                # bytes of page 1 that never change


class Refused(Exception):
    """A file that does not open; its text is the answer."""


def refused_page(n):
    return f"page {n}: tag refused"


# ------------------------------------------------------------------ the table

class Session(NamedTuple):
    lock: str = CLOSED
    access: object = None           # profile and secret, by which it opens the file
    changes: tuple = ()             # its changed pages, as pairs of number and plain page, ascending
    renewed: object = None          # profile and secret to which it rekeys, if it does


class State(NamedTuple):
    file: object                    # the committed file
    sessions: tuple


def has_other(others, lock):
    return any(other.lock == lock for other in others)


class Machine:
    """The table of steps. A row gets the committed file, the session's own state and those of all others, and gives the answer with the
    new state and file; the answer Page is the page itself."""

    def __init__(self, pages):
        self.pages = pages

    # open: CLOSED or UNLOCKED; a profile of the file's layout, a secret exactly for one that encrypts
    def open(self, file, me, others, access):
        if me.lock not in (CLOSED, UNLOCKED) or not self.pages.fits(access):
            return MISUSE, me, file
        return DONE, Session(UNLOCKED, access), file

    # share: UNLOCKED. It waits for a PENDING session, which a new reader would keep from its commit
    def share(self, file, me, others):
        if me.lock != UNLOCKED:
            return MISUSE, me, file
        if has_other(others, PENDING):
            return BUSY, me, file
        try:
            self.pages.count(file, me.access)
        except Refused as refusal:
            return str(refusal), me, file
        return DONE, me._replace(lock=SHARED), file

    # read n: SHARED, RESERVED or PENDING. Its own changed page, else the committed one
    def read(self, file, me, others, n):
        if me.lock not in HOLDING or not self.has_page(file, me, n):
            return MISUSE, me, file
        page = self.seen(file, me, n)
        return refused_page(n) if page is None else page, me, file

    # reserve: SHARED
    def reserve(self, file, me, others):
        if me.lock != SHARED:
            return MISUSE, me, file
        if has_other(others, RESERVED) or has_other(others, PENDING):
            return BUSY, me, file
        return DONE, me._replace(lock=RESERVED), file

    # change n: RESERVED. One byte of its own page n, behind the header of page 1
    def change(self, file, me, others, n, at, byte):
        if me.lock != RESERVED or not self.has_page(file, me, n) or at >= self.pages.usable or n == 1 and at < HEADER:
            return MISUSE, me, file
        page = self.seen(file, me, n)
        if page is None:
            return refused_page(n), me, file
        changes = {**dict(me.changes), n: page[:at] + bytes([byte]) + page[at + 1:]}
        return DONE, me._replace(changes=tuple(sorted(changes.items()))), file

    # rekey: RESERVED; profile and secret as for open. Every page has to be changed or accepted
    def rekey(self, file, me, others, access):
        if me.lock != RESERVED or not self.pages.fits(access):
            return MISUSE, me, file
        for n in self.numbers(file, me):
            if self.seen(file, me, n) is None:
                return refused_page(n), me, file
        return DONE, me._replace(renewed=access), file

    # commit: RESERVED or PENDING. It waits for the SHARED sessions, and lets no new one in meanwhile
    def commit(self, file, me, others):
        if me.lock not in WRITING:
            return MISUSE, me, file
        if has_other(others, SHARED):
            return BUSY, me._replace(lock=PENDING), file
        sealed = dict(me.changes) if me.renewed is None else {n: self.seen(file, me, n) for n in self.numbers(file, me)}
        access = me.access if me.renewed is None else me.renewed
        return DONE, Session(UNLOCKED, access), self.pages.sealed(file, access, sealed)

    # release: not CLOSED. Its changes and its new key are dropped
    def release(self, file, me, others):
        if me.lock == CLOSED:
            return MISUSE, me, file
        return DONE, Session(UNLOCKED, me.access), file

    def numbers(self, file, me):
        return range(1, self.pages.count(file, me.access) + 1)

    def has_page(self, file, me, n):
        return n in self.numbers(file, me)

    def seen(self, file, me, n):
        """Page n for this session: as it changed it, else as committed; none where that is not accepted."""
        changes = dict(me.changes)
        return changes[n] if n in changes else self.pages.page(file, me.access, n)

    def step(self, state, number, name, *words):
        """The answer and the new state of one step of the session of this number. `stop` looks at no number."""
        if name == "stop":
            return DONE, State(state.file, tuple(Session() for _ in state.sessions))
        others = state.sessions[:number] + state.sessions[number + 1:]
        answer, me, file = getattr(self, name)(state.file, state.sessions[number], others, *words)
        return answer, State(file, state.sessions[:number] + (me,) + state.sessions[number + 1:])


# ------------------------------------------------------------------ the walk

class SmallPages:
    """Files for the walk: a page is its key and its plain bytes, as a pair, and is accepted by that key alone."""
    usable = HEADER + 1

    def fits(self, access):
        return access in ("A", "B")

    def count(self, file, access):
        if file[0][0] != access:
            raise Refused("key refused")
        return len(file)

    def page(self, file, access, n):
        key, plain = file[n - 1]
        return plain if key == access else None

    def sealed(self, file, access, pages):
        return tuple((access, pages[n]) if n in pages else page for n, page in enumerate(file, 1))


def small_page(byte):
    return bytes(HEADER) + bytes([byte])


SOUND = ("A", small_page(0)), ("A", small_page(0))
DAMAGED = ("A", small_page(0)), ("B", small_page(0))      # its page 2 is accepted by another key
# What a session may do in the walk: steps that are done, and some whose need is not met. "B" opens no file until a session rekeys to it.
STEPS = [("open", "A"), ("open", "B"), ("open", "C"), ("share",), ("read", 0), ("read", 1), ("read", 2), ("read", 3), ("reserve",),
         *(("change", n, HEADER, byte) for n in (1, 2) for byte in (0, 1)), ("change", 1, HEADER - 1, 1), ("change", 2, HEADER + 1, 1),
         ("change", 3, HEADER, 1), ("rekey", "A"), ("rekey", "B"), ("rekey", "C"), ("commit",), ("release",)]
SESSIONS = 3
EVERY = [(number, *step) for number in range(SESSIONS) for step in STEPS] + [(0, "stop")]


def start(file):
    return State(file, (Session(),) * SESSIONS)


RANKS = {}


def rank(session):
    """A number of its own for each state of a session."""
    return RANKS.setdefault(session, len(RANKS))


def order_of(state):
    """The numbers of the sessions in an order that their states alone decide."""
    return sorted(range(len(state.sessions)), key=lambda number: rank(state.sessions[number]))


def same_for_all(state):
    """The state with its sessions in this order: which of them is which says nothing."""
    return State(state.file, tuple(sorted(state.sessions, key=rank)))


# ------------------------------------------------------------------ rules

def others_of(state, number):
    return state.sessions[:number] + state.sessions[number + 1:]


def alone(state, number):
    """The state in which all others are closed."""
    return State(state.file, tuple(it if at == number else Session() for at, it in enumerate(state.sessions)))


def one_writer(machine, old, number, step, answer, new):
    """At most one session is reserved or pending."""
    return sum(it.lock in WRITING for it in new.sessions) <= 1


def committed_alone(machine, old, number, step, answer, new):
    """The file changes in a commit that is done alone, and no other session holds a lock then: each reads one file from its share to
    its release."""
    if step[0] != "commit" or answer != DONE:
        return new.file == old.file
    return not any(it.lock in HOLDING for it in others_of(old, number))


def no_starving(machine, old, number, step, answer, new):
    """No session begins to read while another is pending."""
    return not (any(it.lock == PENDING for it in others_of(old, number)) and step[0] == "share" and answer == DONE)


def own_steps(machine, old, number, step, answer, new):
    """A step changes no other session, but a stop, which closes all."""
    if step[0] == "stop":
        return all(it == Session() for it in new.sessions)
    return others_of(old, number) == others_of(new, number)


def blind_to_others(machine, old, number, step, answer, new):
    """But for share, reserve and commit a step is answered and done as if no other session were there: none sees what another changed."""
    if step[0] in ("share", "reserve", "commit", "stop"):
        return True
    answer_alone, new_alone = machine.step(alone(old, number), number, *step)
    return answer == answer_alone and new.sessions[number] == new_alone.sessions[number] and new.file == new_alone.file


def refusals_change_nothing(machine, old, number, step, answer, new):
    """What is not done changes nothing, but that a commit which is busy is pending then."""
    if answer == DONE:
        return True
    waits = old.sessions[number]._replace(lock=PENDING) if step[0] == "commit" and answer == BUSY else old.sessions[number]
    return new.sessions[number] == waits and new.file == old.file


def kept_by_writers(machine, old, number, step, answer, new):
    """Changes and a new key are those of a session that is reserved or pending."""
    return all(it.lock in WRITING or not it.changes and it.renewed is None for it in new.sessions)


def commits_what_was_seen(machine, old, number, step, answer, new):
    """After a commit a new session by its key reads what the session read before it, and a page that it did not change, without a rekey,
    is stored as it was."""
    if step[0] != "commit" or answer != DONE:
        return True
    before, now = old.sessions[number], new.sessions[number]
    if now.access != (before.access if before.renewed is None else before.renewed):
        return False
    opened, reader = machine.step(State(new.file, (Session(UNLOCKED, now.access),)), 0, "share")
    if opened != DONE:
        return False
    for n in range(1, len(new.file) + 1):
        page = machine.step(reader, 0, "read", n)[0]
        if before.renewed is None and n not in dict(before.changes):
            if new.file[n - 1] != old.file[n - 1]:
                return False
        elif not isinstance(page, bytes) or page != machine.step(alone(old, number), number, "read", n)[0]:
            return False
    return True


def can_commit(machine, old, number, step, answer, new):
    """A session that is reserved or pending commits once the others have released their locks."""
    for writer, session in enumerate(new.sessions):
        if session.lock in WRITING and machine.step(alone(new, writer), writer, "commit")[0] != DONE:
            return False
    return True


RULES = [one_writer, committed_alone, no_starving, own_steps, blind_to_others, refusals_change_nothing, kept_by_writers,
         commits_what_was_seen, can_commit]


# ------------------------------------------------------------------ wrong tables, each of which breaks a rule

class CommitPassesShared(Machine):
    def commit(self, file, me, others):
        return super().commit(file, me, ())


class ReadShowsOthers(Machine):
    def read(self, file, me, others, n):
        changed = [dict(other.changes)[n] for other in others if n in dict(other.changes)]
        answer = super().read(file, me, others, n)
        return (changed[0], me, file) if changed and answer[0] != MISUSE else answer


class ReserveBesidePending(Machine):
    def reserve(self, file, me, others):
        return super().reserve(file, me, [other for other in others if other.lock != PENDING])


class ShareBesidePending(Machine):
    def share(self, file, me, others):
        return super().share(file, me, ())


class ReleaseKeepsKey(Machine):
    def release(self, file, me, others):
        answer, now, file = super().release(file, me, others)
        return answer, now._replace(renewed=me.renewed), file


class ChangeIsCommitted(Machine):
    def change(self, file, me, others, n, at, byte):
        answer, now, file = super().change(file, me, others, n, at, byte)
        return answer, now, self.pages.sealed(file, me.access, dict(now.changes)) if answer == DONE else file


class CommitDropsChanges(Machine):
    def commit(self, file, me, others):
        return super().commit(file, me._replace(changes=()), others)


class RekeySealsChangesAlone(Machine):
    def commit(self, file, me, others):
        answer, now, new = super().commit(file, me, others)
        return answer, now, self.pages.sealed(file, now.access, dict(me.changes)) if answer == DONE else new


class RekeyOfRefusedPages(Machine):
    def rekey(self, file, me, others, access):
        answer, now, file = super().rekey(file, me, others, access)
        return (DONE, me._replace(renewed=access), file) if answer == refused_page(2) else (answer, now, file)


class BusyCommitReleases(Machine):
    def commit(self, file, me, others):
        answer, now, file = super().commit(file, me, others)
        return answer, Session(UNLOCKED, me.access) if answer == BUSY else now, file


WRONG = [CommitPassesShared, ReadShowsOthers, ReserveBesidePending, ShareBesidePending, ReleaseKeepsKey, ChangeIsCommitted,
         CommitDropsChanges, RekeySealsChangesAlone, RekeyOfRefusedPages, BusyCommitReleases]


class Walked(NamedTuple):
    depths: dict        # of each state, how many steps lead to it
    steps: int
    broken: list        # (rule, session, step, answer, state before it)
    answers: set


def walk(machine, depth=None, first_alone=False):
    """Every order of steps from a sound file and from a damaged one. With `first_alone` it ends at the first rule that is broken."""
    level = [start(SOUND), start(DAMAGED)]
    depths, steps, broken, answers = dict.fromkeys(level, 0), 0, [], set()
    for done in itertools.count(1) if depth is None else range(1, depth + 1):
        following = []
        for old in level:
            for number, *step in EVERY:
                answer, new = machine.step(old, number, *step)
                steps += 1
                answers.add((step[0], "page" if isinstance(answer, bytes) else answer))
                broken += [(rule.__name__, number, step, answer, old) for rule in RULES if not rule(machine, old, number, step, answer, new)]
                if broken and first_alone:
                    return Walked(depths, steps, broken, answers)
                new = same_for_all(new)
                if new not in depths:
                    depths[new] = done
                    following.append(new)
        level = following
        if not level:
            break
    return Walked(depths, steps, broken, answers)


def ways_from(machine, file):
    """Of each state that can be reached from this file: how many steps lead to it, and to which states its steps lead."""
    level, depths, ways = [start(file)], {start(file): 0}, {}
    while level:
        following = []
        for old in level:
            ways[old] = [same_for_all(machine.step(old, *step)[1]) for step in EVERY]
            for new in ways[old]:
                if new not in depths:
                    depths[new] = depths[old] + 1
                    following.append(new)
        level = following
    return depths, ways


def shortest(ways, begin, left):
    """The steps from a state to the nearest one that has steps left, or none."""
    came, level = {begin: []}, [begin]
    while level:
        following = []
        for old in level:
            if left.get(old):
                return came[old]
            for taken, new in enumerate(ways[old]):
                if new not in came:
                    came[new] = came[old] + [taken]
                    following.append(new)
        level = following


def tour(machine, file, depth=None):
    """One row of steps from this file that takes every step from each state to which fewer than `depth` steps lead, or from all states:
    each as (session, step, answer, new state). Where no step of a state is left it goes the shortest way to a state that has one."""
    depths, ways = ways_from(machine, file)
    # The last is taken first: those that stay where they are before those that lead away.
    left = {old: sorted(range(len(EVERY)), key=lambda taken: news[taken] == old)
            for old, news in ways.items() if depth is None or depths[old] < depth}
    state = start(file)
    while True:
        way = shortest(ways, same_for_all(state), left)
        if way is None:
            return
        for taken in way or [left[same_for_all(state)].pop()]:
            number, *step = EVERY[taken]
            number = order_of(state)[number]
            answer, state = machine.step(state, number, *step)
            yield number, step, answer, state


# What each step may be answered; each of these has to come.
ANSWERS = {("open", DONE), ("open", MISUSE), ("share", DONE), ("share", MISUSE), ("share", BUSY), ("share", "key refused"), ("read", "page"),
           ("read", MISUSE), ("read", refused_page(2)), ("reserve", DONE), ("reserve", MISUSE), ("reserve", BUSY), ("change", DONE),
           ("change", MISUSE), ("change", refused_page(2)), ("rekey", DONE), ("rekey", MISUSE), ("rekey", refused_page(2)), ("commit", DONE),
           ("commit", MISUSE), ("commit", BUSY), ("release", DONE), ("release", MISUSE), ("stop", DONE)}


def main(depth=None):
    began, wrong, found = time.process_time(), 0, []
    depth = None if depth is None else int(depth)
    walked = walk(Machine(SmallPages()), depth)
    for rule, number, step, answer, old in walked.broken[:5]:
        print(f"session_machine: {rule} is broken by {step} of session {number}, answered {answer!r}, in {old}")
    wrong += len(walked.broken)
    if depth is None and walked.answers != ANSWERS:
        print(f"session_machine: answers that should not come, or do not come: {walked.answers ^ ANSWERS}")
        wrong += 1
    for table in WRONG:
        broken = walk(table(SmallPages()), depth, first_alone=True).broken
        found += [f"{table.__name__} by {broken[0][0]}"] if broken else []
        if not broken:
            print(f"session_machine: {table.__name__} breaks no rule")
            wrong += 1
    print(f"session_machine: found wrong: {', '.join(found)}")
    print(f"session_machine: {SESSIONS} sessions, 2 pages, 2 keys: {sum(it <= 8 for it in walked.depths.values())} states to depth 8, "
          f"{len(walked.depths)} to depth {max(walked.depths.values())}{'' if depth else ', which are all'}; {walked.steps} steps, "
          f"{len(RULES)} rules, {wrong} wrong; {time.process_time() - began:.0f} s of the processor")
    return 1 if wrong else 0


if __name__ == "__main__":
    sys.exit(main(*sys.argv[1:2]))
