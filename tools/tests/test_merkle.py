"""The tree of receipts: its proofs for each size and place, compared with the definitions of RFC 9162 and with known answers."""

import unittest

import support  # noqa: F401  (the path of lib)

from lib.seal import merkle

MOST_LEAVES = 300
LEAVES = [merkle.leaf_hash(b"leaf %d" % number) for number in range(MOST_LEAVES)]
# The inputs, and the roots of the first leaves, that implementations of Certificate Transparency share.
KNOWN_LEAVES = ["", "00", "10", "2021", "3031", "40414243", "5051525354555657", "606162636465666768696a6b6c6d6e6f"]
KNOWN_ROOTS = [
    "e3b0c44298fc1c149afbf4c8996fb92427ae41e4649b934ca495991b7852b855",
    "6e340b9cffb37a989ca544e6bb780a2c78901d3fb33738768511a30617afa01d",
    "fac54203e7cc696cf0dfcb42c92a1d9dbaf70ad9e621f4bd8d98662f00e3c125",
    "aeb6bcfe274b70a14fb067a5e5578264db0fa9b51af5e0ba159158f329e06e77",
    "d37ee418976dd95753c1c73862b9398fa2a2cf9b4ff0fdfe8b30cd95209614b7",
    "4e3bbb1f7b478dcfe71fb631631519a3bca12c9aefca1612bfce4c13a86264d4",
    "76e67dadbcdf1e10e1b74ddc608abd2f98dfb16fbce75277b5232a127f2087ef",
    "ddb89be403809e325750d3d263cd78929c2942b7942a34b77e122c9594a74c8c",
    "5dc9da79a70659a9ad559cb701ded9a2ab9d823aad2f4960cfe370eff4604328",
]


def root_by_definition(leaves):
    """The root as RFC 9162, 2.1.1, defines it."""
    if len(leaves) < 2:
        return leaves[0] if leaves else merkle.sha256(b"")
    half = 1
    while half * 2 < len(leaves):
        half *= 2
    return merkle.node_hash(root_by_definition(leaves[:half]), root_by_definition(leaves[half:]))


def path_by_definition(place, leaves):
    """An inclusion proof as 2.1.3.1 defines it."""
    if len(leaves) < 2:
        return []
    half = 1
    while half * 2 < len(leaves):
        half *= 2
    if place < half:
        return [*path_by_definition(place, leaves[:half]), root_by_definition(leaves[half:])]
    return [*path_by_definition(place - half, leaves[half:]), root_by_definition(leaves[:half])]


def proof_by_definition(old, leaves, is_whole=True):
    """A consistency proof as 2.1.4.1 defines it."""
    if old == len(leaves):
        return [] if is_whole else [root_by_definition(leaves)]
    half = 1
    while half * 2 < len(leaves):
        half *= 2
    if old <= half:
        return [*proof_by_definition(old, leaves[:half], is_whole), root_by_definition(leaves[half:])]
    return [*proof_by_definition(old - half, leaves[half:], False), root_by_definition(leaves[:half])]


class Merkle(unittest.TestCase):
    def setUp(self):
        self.tree = merkle.Tree(LEAVES)
        self.roots = [self.tree.root(size) for size in range(MOST_LEAVES + 1)]

    def test_known_answers(self):
        tree = merkle.Tree()
        roots = [tree.root().hex()]
        for leaf in KNOWN_LEAVES:
            tree.append(merkle.leaf_hash(bytes.fromhex(leaf)))
            roots.append(tree.root().hex())
        self.assertEqual(roots, KNOWN_ROOTS)

    def test_roots(self):
        for size in range(MOST_LEAVES + 1):
            self.assertEqual(self.roots[size], root_by_definition(LEAVES[:size]))
            self.assertEqual(merkle.Tree(LEAVES[:size]).root(), self.roots[size])

    def test_proofs_are_those_of_the_definition(self):
        for size in range(1, 70):
            leaves = LEAVES[:size]
            for place in range(size):
                self.assertEqual(self.tree.inclusion_proof(place, size), path_by_definition(place, leaves))
            for old in range(1, size):
                self.assertEqual(self.tree.consistency_proof(old, size), proof_by_definition(old, leaves))

    def test_each_path(self):
        for size in range(1, MOST_LEAVES + 1):
            for place in range(size):
                path = self.tree.inclusion_proof(place, size)
                self.assertEqual(merkle.root_of_inclusion(LEAVES[place], place, size, path), self.roots[size])

    def test_a_path_fits_one_leaf_and_place(self):
        for size in range(1, 40):
            for place in range(size):
                path = self.tree.inclusion_proof(place, size)
                for other in range(size):
                    if other != place:
                        self.assertNotEqual(merkle.root_of_inclusion(LEAVES[other], place, size, path), self.roots[size])
                        self.assertNotEqual(merkle.root_of_inclusion(LEAVES[place], other, size, path), self.roots[size])
                for wrong in (path[:-1] if path else None, [*path, LEAVES[0]]):
                    if wrong is not None:
                        self.assertNotEqual(merkle.root_of_inclusion(LEAVES[place], place, size, wrong), self.roots[size])
                self.assertIsNone(merkle.root_of_inclusion(LEAVES[place], size, size, path))
                self.assertIsNone(merkle.root_of_inclusion(LEAVES[place], -1, size, path))

    def test_each_pair_of_sizes(self):
        for size in range(MOST_LEAVES + 1):
            for old in range(size + 1):
                path = self.tree.consistency_proof(old, size)
                self.assertTrue(merkle.is_consistent(old, self.roots[old], size, self.roots[size], path), (old, size))

    def test_a_consistency_proof_fits_two_roots(self):
        for size in range(1, 40):
            for old in range(size):
                path, roots = self.tree.consistency_proof(old, size), (self.roots[old], self.roots[size])
                wrong = merkle.leaf_hash(b"wrong")
                self.assertFalse(merkle.is_consistent(old, wrong, size, roots[1], path))
                if old:
                    self.assertFalse(merkle.is_consistent(old, roots[0], size, wrong, path))
                    self.assertFalse(merkle.is_consistent(old, roots[0], size, roots[1], path[:-1]))
                self.assertFalse(merkle.is_consistent(old, roots[0], size, roots[1], [*path, wrong]))
                self.assertFalse(merkle.is_consistent(size, roots[1], old, roots[0], path))
            self.assertTrue(merkle.is_consistent(size, self.roots[size], size, self.roots[size], []))
            self.assertFalse(merkle.is_consistent(size, self.roots[size], size, wrong, []))
            self.assertFalse(merkle.is_consistent(size, self.roots[size], size, self.roots[size], [wrong]))

    def test_a_changed_leaf_changes_the_roots_from_there_on(self):
        for place in range(20):
            leaves = [*LEAVES[:place], merkle.leaf_hash(b"other"), *LEAVES[place + 1 : 40]]
            tree = merkle.Tree(leaves)
            for size in range(41):
                self.assertEqual(tree.root(size) == self.roots[size], size <= place)
                for old in range(place + 1, size):
                    self.assertFalse(
                        merkle.is_consistent(old, self.roots[old], size, tree.root(size), tree.consistency_proof(old, size))
                    )

    def test_each_hash_that_a_proof_shows(self):
        """It is the root of these leaves, and the neighbour of a right half is shown with what both make."""
        for size in range(1, 70):
            for place in range(size):
                self.check_shown(merkle.hashes_shown_by_inclusion(LEAVES[place], place, size, self.tree.inclusion_proof(place, size)), size)
            for old in range(1, size):
                path = self.tree.consistency_proof(old, size)
                shown = merkle.hashes_shown_by_consistency(old, self.roots[old], size, self.roots[size], path)
                self.check_shown(shown, size)
                self.assertEqual(shown[0, old], self.roots[old])
                unbound = merkle.hashes_shown_by_consistency(old, LEAVES[0], size, LEAVES[0], path)
                self.assertEqual(unbound, {} if old & (old - 1) else {(0, old): LEAVES[0]})  # a subtree of both is the old root itself
                self.assertEqual(merkle.hashes_shown_by_consistency(old, self.roots[old], size, self.roots[size], path[:-1]), {})
                self.assertEqual(merkle.hashes_shown_by_consistency(size, self.roots[size], old, self.roots[old], path), {})

    def check_shown(self, shown, size):
        self.assertEqual(shown[0, size], self.roots[size])
        for (begin, end), hashed in shown.items():
            self.assertEqual(hashed, root_by_definition(LEAVES[begin:end]))
            count = end - begin
            if count & (count - 1) == 0 and begin // count % 2:
                self.assertLessEqual({(begin - count, begin), (begin - count, end)}, set(shown))

    def test_a_path_to_one_of_two_roots(self):
        """It shows the subtrees of that tree alone, among them the beginning with the old size, unless that is a subtree of the new one."""
        for size in range(2, 40):
            for old in range(1, size):
                path, wrong = self.tree.consistency_proof(old, size), merkle.leaf_hash(b"wrong")
                is_whole = old & (old - 1) == 0
                shown = merkle.hashes_shown_by_consistency(old, wrong, size, self.roots[size], path)
                self.assertEqual(shown.get((0, old)), wrong if is_whole else self.roots[old])
                self.assertEqual((0, size) in shown, not is_whole)
                shown = merkle.hashes_shown_by_consistency(old, self.roots[old], size, wrong, path)
                self.assertEqual(shown[0, old], self.roots[old])
                self.assertNotIn((0, size), shown)
                for (begin, end), hashed in shown.items():
                    self.assertLessEqual(end, old)
                    self.assertEqual(hashed, root_by_definition(LEAVES[begin:end]))


if __name__ == "__main__":
    unittest.main()
