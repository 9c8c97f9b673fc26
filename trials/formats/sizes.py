"""The sizes of a device, and the nodes of its trees."""

from dataclasses import dataclass

# The trees in whose records a host keeps the stamps and the identity of its disk.
STAMP_TREE, IDENTITY_TREE = 254, 255


@dataclass(frozen=True)
class Sizes:
    """The numbers of a device, and what follows from them."""

    blocks: int
    block_bytes: int
    slots: int
    leaf_load: int
    table: int
    is_sealed: bool

    def trees(self):
        """How many blocks each tree has."""
        counts = [self.blocks]
        while counts[-1] > self.table:
            counts.append(-(-counts[-1] // self.entries()))
        return counts

    def entries(self):
        """How many entries a map block has."""
        return self.block_bytes // 4

    def depths(self):
        return [next(d for d in range(32) if self.leaf_load * 2**d >= count) for count in self.trees()]

    def overhead(self):
        """How many bytes the sealer adds to a bucket."""
        return 8 if self.is_sealed else 0

    def bucket_len(self):
        return self.slots * (8 + self.block_bytes)

    def record_len(self):
        return self.bucket_len() + self.overhead() + 64

    def near_len(self, levels):
        """How many bytes the records of so many levels of tree 0 have, counted from the root."""
        return (2**levels - 1) * self.record_len()

    def near_levels(self, near):
        """How many levels are near: as many as have room in so many bytes, but never the leaves'."""
        return max(levels for levels in range(self.depths()[0] + 1) if self.near_len(levels) <= near)

    def default_near(self):
        """The setting `near` of a disk whose settings have none."""
        return min(self.blocks * self.block_bytes // 32, 1 << 26)

    def upper_counts(self):
        """How many upper nodes each tree has: those that are more than three levels above the leaves."""
        return [2 ** max(depth - 3, 0) - 1 for depth in self.depths()]

    def digests_len(self):
        """How many bytes a client keeps of the digests of a formatting."""
        return 64 * sum(self.upper_counts())


def node_of(depth, leaf, level):
    """The node of a leaf's path at a level."""
    return 2**level - 1 + leaf // 2 ** (depth - level)
