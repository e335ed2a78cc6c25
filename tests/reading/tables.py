"""Segment tables: where the segments of a message are, what is missing there, and where a table is ambiguous.

A table is a list of rows, and a node is the place of a row in it, from 0.
"""
from typing import NamedTuple, Optional


class Candidate(NamedTuple):
    """An entry that may come after another, and the nodes that are passed on the way to it."""
    entry: int
    passed: list


class Step(NamedTuple):
    """Where a segment is: its entry or None, the mandatory nodes that are missing before it, and whether it is over."""
    entry: Optional[int]
    missing: list
    over: bool


def is_group(table, node):
    return table[node].tag is None


def groups_round(table, node):
    """The groups that a node lies in, innermost first."""
    found = []
    for before in range(node - 1, -1, -1):
        if is_group(table, before) and table[before].depth < (table[found[-1]] if found else table[node]).depth:
            found.append(before)
    return found


def parent_of(table, node):
    return (groups_round(table, node) or [None])[0]


def later_siblings(table, node):
    """The nodes after this one that lie in the same group, or in none as it does."""
    return [later for later in range(node + 1, len(table))
            if table[later].depth == table[node].depth and parent_of(table, later) == parent_of(table, node)]


def is_trigger(table, entry):
    return entry > 0 and is_group(table, entry - 1)


def entry_of(table, node):
    """The entry by which a node is entered: a group's first node is its trigger."""
    return node + 1 if is_group(table, node) else node


def ways_from(table, entry):
    """The candidates after an entry, in order, and the nodes that are passed to go past the table's end."""
    found = [] if is_trigger(table, entry) else [Candidate(entry, [])]
    passed = []
    for level in [entry] + groups_round(table, entry):
        if level != entry:
            found.append(Candidate(level + 1, list(passed)))
        for sibling in later_siblings(table, level):
            found.append(Candidate(entry_of(table, sibling), list(passed)))
            passed.append(sibling)
    return found, passed


def mandatory(table, nodes):
    return sorted(node for node in nodes if table[node].mandatory)


def placements_since(placed, entry, trigger):
    """How often an entry was placed since the last time that the trigger was, or since the beginning."""
    begins = max((k for k in range(len(placed)) if placed[k] == trigger), default=0) if trigger is not None else 0
    return sum(1 for k in range(begins, len(placed)) if placed[k] == entry)


def entry_count(table, placed, entry):
    """How often an entry was placed since its group was entered last."""
    group = parent_of(table, entry)
    return placements_since(placed, entry, None if group is None else group + 1)


def group_count(table, placed, group):
    """How often a group was entered since the group round it was."""
    outer = parent_of(table, group)
    return placements_since(placed, group + 1, None if outer is None else outer + 1)


def is_over(table, placed, last, entry):
    """Whether an entry that is placed once more, or the group that it opens once more, has its greatest count."""
    if is_trigger(table, entry):
        group = entry - 1
        return group in groups_round(table, last) and group_count(table, placed, group) >= table[group].greatest
    return entry == last and entry_count(table, placed, entry) >= table[entry].greatest


def next_step(table, placed, tag):
    """Where the next segment is: at the candidate with its tag of least rank, and at the first of several."""
    last = [entry for entry in placed if entry is not None][-1]
    ranked = []
    for order, candidate in enumerate(ways_from(table, last)[0]):
        if table[candidate.entry].tag == tag:
            missing = mandatory(table, candidate.passed)
            over = is_over(table, placed, last, candidate.entry)
            ranked.append(((2 if missing else 0) + (1 if over else 0), order,
                           Step(candidate.entry, missing, over)))
    return min(ranked)[2] if ranked else Step(None, [], False)


def reading_of(table, tags):
    """The step of each segment of a message, the first of which is its UNH."""
    steps = [Step(0, [], False)]
    for tag in tags[1:]:
        steps.append(next_step(table, [step.entry for step in steps], tag))
    return steps


def missing_at_the_end(table, steps):
    """The mandatory nodes that are passed from the last placed entry to past the table's end."""
    last = [step.entry for step in steps if step.entry is not None][-1]
    return mandatory(table, ways_from(table, last)[1])


def group_number(table, group):
    """The groups of a table are numbered from 1, in its order."""
    return sum(1 for node in range(group + 1) if is_group(table, node))


def followers_of(table, entry):
    """The candidates with nothing missing; what may be there once only doesn't follow itself."""
    found = []
    for candidate in ways_from(table, entry)[0]:
        after = candidate.entry
        repeats_group = is_trigger(table, after) and (after - 1) in groups_round(table, entry)
        repeated = after - 1 if repeats_group else entry
        once = (repeats_group or after == entry) and table[repeated].greatest < 2
        if not mandatory(table, candidate.passed) and not once:
            found.append(after)
    return found


def front_of(table, entry):
    """The shortest way to an entry: it, and what is mandatory before it, in mandatory groups or in groups round it."""
    return [before for before in range(entry + 1) if not is_group(table, before)
            and (before == entry or table[before].mandatory)
            and all(table[group].mandatory or group in groups_round(table, entry)
                    for group in groups_round(table, before))]


def collisions_of(table):
    """Each entry and tag that two followers share: the tags of the front and it, and the two ways to place them."""
    found = []
    for entry in range(len(table)):
        if is_group(table, entry):
            continue
        followers = followers_of(table, entry)
        front = front_of(table, entry)
        tags = [table[node].tag for node in front]
        for place, second in enumerate(followers):
            same = [first for first in followers[:place] if table[first].tag == table[second].tag]
            # The first two with one tag: the second of them has exactly one before it.
            if len(same) == 1:
                found.append((tags + [table[second].tag], front + same, front + [second]))
    return found
