"""The records that a formatting makes. It sends none of them, so whoever reads a disk makes those anew that the host doesn't have."""

import hashlib

from trials.formats.ciphers import xored


class MadeRecords:
    """The records of a formatting with this key, by tree and node: empty buckets, sealed in post order."""

    def __init__(self, sizes, key):
        self.sizes, self.key, self.records = sizes, key, {}
        nonce = 0
        for tree, depth in enumerate(sizes.depths()):
            nonce = self.make(tree, 0, depth, nonce)

    def make(self, tree, node, height, nonce):
        """Makes the records of a node and of all nodes below it, the first of them with this nonce. Returns the next nonce."""
        digests = bytes(64)
        if height:
            children = 2 * node + 1, 2 * node + 2
            for child in children:
                nonce = self.make(tree, child, height - 1, nonce)
            digests = b"".join(hashlib.sha256(self.records[tree, child]).digest() for child in children)
        self.records[tree, node] = self.sealed(nonce) + digests
        return nonce + 1

    def sealed(self, nonce):
        """An empty bucket, sealed with a nonce."""
        bucket = bytes(self.sizes.bucket_len())
        return nonce.to_bytes(8, "big") + xored(self.key, nonce, bucket) if self.sizes.is_sealed else bucket
