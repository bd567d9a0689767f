"""The rules once more, by trying everything: the welfare and the prices of a selection of blocks from all executions, and the
families of a rejected block from all sets of blocks. For small days; nothing of lib is used but the reading of a journal and the limits
on prices and groups."""

import itertools
from collections import Counter

from lib.base.rules import HIGHEST_PRICE as GREATEST
from lib.base.rules import LOWEST_PRICE as LEAST
from lib.base.rules import MOST_OF_GROUP


class Plain:
    def __init__(self, book):
        rows = [(who, name, order) for (who, name), order in book.rows.items()]
        self.blocks = [row for row in rows if row[2].kind == "block"]
        places = {(who, name): place for place, (who, name, _) in enumerate(self.blocks)}
        self.parents = [places.get((who, order.parent)) for who, _, order in self.blocks]
        self.groups = [order.group and (who, order.group) for who, _, order in self.blocks]
        self.values = {}
        hourly = [order for _, _, order in rows if order.kind == "hour"]
        for number in {number for _, _, order in rows for number, _ in order.volumes}:
            self.values[number] = values([order for order in hourly if order.volumes[0][0] == number])
        self.places = range(len(self.blocks))

    def net(self, accepted):
        net = dict.fromkeys(self.values, 0)
        for place in accepted:
            order = self.blocks[place][2]
            for number, volume in order.volumes:
                net[number] += volume if order.side == "sell" else -volume
        return net

    def welfare_or_none(self, accepted):
        """None if a period doesn't balance."""
        total = 0
        for number, net in self.net(accepted).items():
            if net not in self.values[number]:
                return None
            total += self.values[number][net]
        for place in accepted:
            order = self.blocks[place][2]
            sign = 1 if order.side == "buy" else -1
            total += sum(sign * order.price * volume for _, volume in order.volumes)
        return total

    def surpluses(self, accepted):
        """Of each block, at the prices of a selection that balances; none otherwise."""
        net = self.net(accepted)
        prices = {number: price(self.values[number], net[number]) for number in net}
        found = []
        for _, _, order in self.blocks:
            sign = 1 if order.side == "sell" else -1
            found.append(sum(sign * volume * (prices[number] - order.price) for number, volume in order.volumes))
        return found

    def descends(self, place, other):
        while place is not None and place != other:
            place = self.parents[place]
        return place == other

    def gain(self, place, accepted, surpluses):
        return sum(surpluses[other] for other in accepted if self.descends(other, place))

    def losers(self, accepted, surpluses):
        gains = {place: self.gain(place, accepted, surpluses) for place in sorted(accepted)}
        return {place: -gain for place, gain in gains.items() if gain < 0}

    def admits(self, accepted):
        groups = Counter(self.groups[place] for place in accepted if self.groups[place])
        return max(groups.values(), default=0) <= MOST_OF_GROUP and all(self.parents[place] in {None, *accepted} for place in accepted)

    def best(self):
        """The eligible selection of greatest welfare, of equals the one that accepts the earlier block."""
        found = None
        for flags in itertools.product([True, False], repeat=len(self.blocks)):
            accepted = frozenset(itertools.compress(self.places, flags))
            welfare = self.welfare_or_none(accepted) if self.admits(accepted) else None
            if welfare is None or found and welfare <= found[0]:
                continue
            if not self.losers(accepted, self.surpluses(accepted)):
                found = welfare, accepted
        return found[1]

    def families(self, accepted, place):
        """Each family that a rejected block may be accepted with, and the selection with it: its ancestors are in it that are
        rejected, and of the descendants of the topmost of them any that links and groups admit. The accepted blocks of the needed
        ones' groups have to go, and those that descend from them."""
        needed = [other for other in self.places if self.descends(place, other) and other not in accepted]
        rivals = [other for other in accepted if self.groups[other] in {self.groups[member] for member in needed} - {""}]
        stay = {other for other in accepted if not any(self.descends(other, rival) for rival in rivals)}
        rest = [other for other in self.places if self.descends(other, needed[0]) and other not in [*needed, *accepted]]
        for count in range(len(rest) + 1):
            for more in itertools.combinations(rest, count):
                family = frozenset([*needed, *more])
                if self.admits(family | stay):
                    yield family, family | stay


def values(orders):
    """The greatest welfare of the executions of a period's orders, by the net volume of blocks that they balance."""
    found = {0: 0}
    for order in orders:
        sign = 1 if order.side == "buy" else -1
        more = {}
        for net, value in found.items():
            for executed in range(order.volumes[0][1] + 1):
                at = net + sign * executed
                more[at] = max(more.get(at, value - 10**12), value + sign * executed * order.price)
        found = more
    return found


def price(values, net):
    """The worth of one tenth of a MW more, and of the last one, are the ends of the supporting prices."""
    low = values[net + 1] - values[net] if net + 1 in values else LEAST
    high = values[net] - values[net - 1] if net - 1 in values else GREATEST
    if low == LEAST and high < GREATEST:
        return high
    if low > LEAST and high == GREATEST:
        return low
    return (low + high) // 2
