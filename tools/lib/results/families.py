"""Which blocks a rejected block would be accepted with: the family that makes most of it at the prices of a result.

A block is accepted only with its ancestors, and its accepted descendants may make up for its loss. So a rejected block is
judged with those of its ancestors that are rejected, and with the rejected descendants that add most."""

import itertools
from collections import Counter
from collections.abc import Iterable, Iterator, Mapping, Sequence
from typing import NamedTuple

from ..base import rules
from .selection import Places, Problem, Surpluses


GroupKey = tuple[str, str] | None  # of a block; None if it has no group


class Family(NamedTuple):
    needed: tuple[int, ...]  # the block and its rejected ancestors, the topmost first
    members: frozenset[int]  # these, and the rejected blocks that descend from them and add most
    gains: dict[int, int]  # by needed block: its gain at the prices, together with the members that descend from it
    rivals: tuple[int, ...]  # the accepted blocks for which the groups of the needed ones have no room next to these
    removed: frozenset[int]  # the rivals, and the accepted blocks that descend from them

    def gain(self) -> int:
        """The gain of the members at the prices, all together."""
        return self.gains[self.needed[0]]

    def losers(self) -> list[int]:
        """The needed blocks that would lose at the prices, the topmost first."""
        return [place for place in self.needed if self.gains[place] < 0]


def ancestors(problem: Problem, place: int) -> Iterator[int]:
    """The parent of a block, that one's parent, and so on."""
    above = problem.parents[place]
    while above is not None:
        yield above
        above = problem.parents[above]


def group_key(problem: Problem, place: int) -> tuple[str, str] | None:
    """The exclusive group of a block as `Problem.groups` has it."""
    block = problem.blocks[place]
    return (block.who, block.order.group) if block.order.group else None


def members_never_together(problem: Problem, place: int) -> list[int] | None:
    """Blocks of one group, too many to be accepted together, from which a block descends or of which it is one, the topmost first. So it
    can never be accepted."""
    seen: dict[GroupKey, list[int]] = {}
    for member in [place, *ancestors(problem, place)]:
        group = group_key(problem, member)
        of_group = [member, *seen.get(group, [])]
        if group is not None and len(of_group) > rules.MOST_OF_GROUP:
            return of_group
        seen[group] = of_group
    return None


def needed_blocks(problem: Problem, accepted: Places, place: int) -> tuple[int, ...]:
    return tuple(reversed([place, *(above for above in ancestors(problem, place) if above not in accepted)]))


def rejected_places_below(problem: Problem, accepted: Places, root: int) -> list[int]:
    """A rejected block and the rejected ones that descend from it by rejected ones, each after its parent."""
    found = {root}
    for place in problem.rescuers[root]:
        if problem.parents[place] in found and place not in accepted:
            found.add(place)
    return sorted(found)


def room_of_groups(problem: Problem, places: Iterable[int]) -> dict[GroupKey, int]:
    """How many more blocks each group of these blocks admits next to them."""
    counts = Counter(group_key(problem, place) for place in places)
    return {group: rules.MOST_OF_GROUP - count for group, count in counts.items() if group is not None}


def rivals(problem: Problem, accepted: Places, places: Iterable[int], surpluses: Surpluses) -> tuple[int, ...]:
    """The accepted blocks that have to go, so that the groups have room for these places: of each group those of least surplus."""
    found = []
    for group, left in room_of_groups(problem, places).items():
        members = [place for place in sorted(accepted) if group_key(problem, place) == group]
        by_surplus = sorted(members, key=lambda place: (surpluses[place] is not None, surpluses[place] or 0, -place))
        found += by_surplus[: max(0, len(members) - left)]
    return tuple(sorted(found))


def admitted_sets(problem: Problem, tree: Sequence[int], path: Sequence[int], staying: Places) -> Iterator[set[int]]:
    """The sets of blocks of a tree that groups admit in addition to the needed ones: in turn each of the choices of as many blocks of
    each group of the tree as it has room for."""
    left = room_of_groups(problem, [*path, *staying])
    groups: dict[GroupKey, list[int]] = {}
    for place in tree:
        if place not in path:
            groups.setdefault(group_key(problem, place), []).append(place)
    alone = groups.pop(None, [])
    most = {group: min(left.get(group, rules.MOST_OF_GROUP), len(members)) for group, members in groups.items()}
    for choices in itertools.product(*(itertools.combinations(members, most[group]) for group, members in groups.items())):
        yield {*path, *alone, *itertools.chain(*choices)}


def grown_members_and_gains(
    problem: Problem, known: Mapping[int, int], tree: Sequence[int], path: Sequence[int], allowed: Places
) -> tuple[frozenset[int], dict[int, int]]:
    """The members and gains of the family that has the needed blocks, and of the allowed ones each that adds to the gain. `known` are the
    surpluses."""
    gains = {place: known[place] for place in tree if place in allowed}
    for place in reversed(tree):
        parent = problem.parents[place]
        if place in gains and parent in gains and (place in path or gains[place] > 0):
            gains[parent] += gains[place]
    members = set()
    for place in tree:
        if place in path or place in gains and gains[place] > 0 and problem.parents[place] in members:
            members.add(place)
    return frozenset(members), {place: gains[place] for place in path}


def best_family(problem: Problem, accepted: Places, surpluses: Surpluses, place: int) -> Family | None:
    """The best family that a rejected block belongs to: one in which nobody loses at the prices before any other, then the one
    that gains most, then the smallest. None if a needed block has no surplus, since a period of it has no price."""
    path = needed_blocks(problem, accepted, place)
    known = {member: surplus for member, surplus in enumerate(surpluses) if surplus is not None}
    if not known.keys() >= set(path):
        return None
    out = rivals(problem, accepted, path, surpluses)
    removed = {other for rival in out for other in [rival, *problem.rescuers[rival]] if other in accepted}
    tree = [member for member in rejected_places_below(problem, accepted, path[0]) if member in known]
    sets = admitted_sets(problem, tree, path, accepted - removed)
    found = (grown_members_and_gains(problem, known, tree, path, allowed) for allowed in sets)

    def rank(family: tuple[frozenset[int], dict[int, int]]) -> tuple[bool, int, int, list[int]]:
        members, gains = family
        return min(0, *gains.values()) == 0, gains[path[0]], -len(members), [-member for member in sorted(members)]

    members, gains = max(found, key=rank)
    return Family(path, members, gains, out, frozenset(removed))
