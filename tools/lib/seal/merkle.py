"""A Merkle tree over a list that only grows, with inclusion and consistency proofs: RFC 9162, section 2.1, with SHA-256."""

import hashlib
from collections.abc import Callable, Iterable, Sequence

LEAF, NODE = b"\x00", b"\x01"  # a leaf's hash begins with one, a node's with the other, so that neither passes for the other


Part = tuple[int, int]  # a subtree: its first leaf, and the one after its last
Path = Sequence[bytes]  # of a proof


def sha256(data: bytes) -> bytes:
    return hashlib.sha256(data).digest()


def leaf_hash(data: bytes) -> bytes:
    return sha256(LEAF + data)


def node_hash(left: bytes, right: bytes) -> bytes:
    return sha256(NODE + left + right)


EMPTY = sha256(b"")  # the root of a tree without leaves


def left_half(count: int) -> int:
    """The greatest power of two below a number of leaves: how many of them are in the left half."""
    return 1 << (count - 1).bit_length() - 1


class Tree:
    """A tree that has the hash of each complete subtree, by level. So an append computes one hash on average."""

    def __init__(self, leaves: Iterable[bytes] = ()) -> None:
        self.levels: list[list[bytes]] = [[]]
        self.incomplete: dict[Part, bytes] = {}  # the hashes of other subtrees that were asked for; no append changes them
        for leaf in leaves:
            self.append(leaf)

    def __len__(self) -> int:
        return len(self.levels[0])

    def append(self, leaf: bytes) -> None:
        self.levels[0].append(leaf)
        for level, hashes in enumerate(self.levels):
            if len(hashes) % 2:
                return
            if level + 1 == len(self.levels):
                self.levels.append([])
            self.levels[level + 1].append(node_hash(*hashes[-2:]))

    def root(self, size: int | None = None) -> bytes:
        """The root of the first `size` leaves, or of all."""
        size = len(self) if size is None else size
        return self.cached_hash(0, size) if size else EMPTY

    def cached_hash(self, begin: int, end: int) -> bytes:
        """The hash of the leaves from `begin` to `end`, which are a subtree of this tree or of an earlier one."""
        count = end - begin
        if count & (count - 1) == 0:
            return self.levels[count.bit_length() - 1][begin // count]
        if (begin, end) not in self.incomplete:
            middle = begin + left_half(count)
            self.incomplete[begin, end] = node_hash(self.cached_hash(begin, middle), self.cached_hash(middle, end))
        return self.incomplete[begin, end]

    def inclusion_proof(self, place: int, size: int | None = None) -> list[bytes]:
        """The inclusion proof of the leaf at a place, from 0, in the tree of the first `size` leaves."""
        return [self.cached_hash(*part) for part in inclusion_parts(place, len(self) if size is None else size)]

    def consistency_proof(self, old: int, size: int | None = None) -> list[bytes]:
        """The proof that the tree of the first `size` leaves begins with the tree of the first `old` ones."""
        size = len(self) if size is None else size
        if not 0 < old < size:
            return []
        whole, *others = consistency_parts(old, size)
        return [self.cached_hash(*part) for part in ([] if whole == (0, old) else [whole]) + others]  # the reader has the old root


def last_and_other_parts(place: int, size: int, is_last: Callable[[int, int], bool]) -> tuple[Part, list[Part]]:
    """On the way from the root to a leaf: the first subtree that is the last one, and those that the way leaves aside, the lowest first."""
    begin, end, parts = 0, size, []
    while not is_last(begin, end):
        middle = begin + left_half(end - begin)
        if place < middle:
            parts.append((middle, end))
            end = middle
        else:
            parts.append((begin, middle))
            begin = middle
    return (begin, end), parts[::-1]


def inclusion_parts(place: int, size: int) -> list[Part]:
    """The subtrees whose hashes an inclusion proof has."""
    _, parts = last_and_other_parts(place, size, lambda begin, end: end - begin == 1)
    return parts


def consistency_parts(old: int, size: int) -> list[Part]:
    """The subtrees whose hashes a consistency proof has. The first one is of both trees: if it is the whole old tree, the proof omits it."""
    last, parts = last_and_other_parts(old - 1, size, lambda _, end: end == old)
    return [last, *parts]


def root_of_inclusion(leaf: bytes, place: int, size: int, path: Path) -> bytes | None:
    """The root that an inclusion proof leads to (RFC 9162, 2.1.3.2); none if it doesn't fit a tree of this size."""
    if not 0 <= place < size:
        return None
    node, last, root = place, size - 1, leaf
    for hashed in path:
        if last == 0:
            return None
        if node % 2 or node == last:
            root = node_hash(hashed, root)
            while node % 2 == 0 and node:
                node, last = node // 2, last // 2
        else:
            root = node_hash(root, hashed)
        node, last = node // 2, last // 2
    return root if last == 0 else None


def is_consistent(old: int, old_root: bytes, size: int, root: bytes, path: Path) -> bool:
    """Whether a consistency proof shows that the tree with a root begins with an older one (RFC 9162, 2.1.4.2). Every tree begins with the
    empty one, and with itself."""
    if old == size:
        return old_root == root and not path
    if old == 0:
        return old_root == EMPTY and not path
    if not 0 < old < size or not path:
        return False
    first, *rest = path if old & (old - 1) else [old_root, *path]
    node, last = old - 1, size - 1
    while node % 2:
        node, last = node // 2, last // 2
    before = after = first
    for hashed in rest:
        if last == 0:
            return False
        if node % 2 or node == last:
            before, after = node_hash(hashed, before), node_hash(hashed, after)
            while node % 2 == 0 and node:
                node, last = node // 2, last // 2
        else:
            after = node_hash(after, hashed)
        node, last = node // 2, last // 2
    return last == 0 and before == old_root and after == root


def hashes_by_part(first: Part, hashed: bytes, parts: Iterable[tuple[Part, bytes]]) -> dict[Part, bytes]:
    """The hashes of subtrees, each with its first leaf and the one after its last: of one, of its neighbours from below, and of all that
    they make. The last one is of the whole tree."""
    (begin, end), shown = first, {first: hashed}
    for (left, right), other in parts:
        shown[left, right] = other
        hashed = node_hash(other, hashed) if right == begin else node_hash(hashed, other)
        begin, end = min(begin, left), max(end, right)
        shown[begin, end] = hashed
    return shown


def hashes_shown_by_inclusion(leaf: bytes, place: int, size: int, path: Path) -> dict[Part, bytes]:
    """The hashes of subtrees that a right inclusion proof shows, from the leaf to the root."""
    return hashes_by_part((place, place + 1), leaf, zip(inclusion_parts(place, size), path))


def hashes_shown_by_consistency(old: int, old_root: bytes, size: int, root: bytes, path: Path) -> dict[Part, bytes]:
    """The hashes of subtrees that a consistency proof shows of a tree with a root, or of an older one. Its path may lead to one of the two
    roots alone: then it shows that tree's subtrees, among them the beginning with the older one's size."""
    if not 0 < old < size:
        return {}
    first, *others = consistency_parts(old, size)
    path = [old_root, *path] if first == (0, old) else path
    if len(path) != 1 + len(others):
        return {}
    parts = list(zip(others, path[1:]))
    before = hashes_by_part(first, path[0], [(part, hashed) for part, hashed in parts if part[0] < first[0]])
    after = hashes_by_part(first, path[0], parts)
    if after[0, size] == root:
        return {**before, **after}
    return before if before[0, old] == old_root else {}
