"""What is checked of a disk's files."""

import hashlib

from trials.formats.ciphers import Tape, derived
from trials.formats.host_files import opened, read_buckets
from trials.formats.made_records import MadeRecords
from trials.formats.reader import Reader
from trials.formats.sizes import IDENTITY_TREE, STAMP_TREE, node_of

LIFETIME = 2**40


class Reading:
    """A disk's files at one moment, beside what its blocks and their leaves have to be."""

    def __init__(self, tally, name, disk, contents, last):
        """`last` has, for each block of each tree, the ticket of the last command to it."""
        self.tally, self.name, self.contents, self.last = tally, name, contents, last
        self.state, self.buckets = disk.state(), read_buckets(disk.folder / "buckets")
        self.sizes, self.key, self.near = self.state.sizes, disk.key(), disk.near_levels()
        self.buckets.lay_near(self.state.near)
        for store in self.state.stores:
            self.buckets.lay(store)
        self.buckets.made = MadeRecords(self.sizes, self.derived(b"vidlaqe bucket key")).records
        self.tape = Tape(self.derived(b"vidlaqe tape key"), len(self.sizes.trees()))

    def derived(self, purpose):
        return derived(self.key, purpose, self.state.salt)

    def check(self, what, holds, seen=""):
        self.tally.check(f"{self.name}: {what}", holds, seen)

    def run(self, addresses):
        """All checks, given the addresses of all commands that were accepted, in their order."""
        self.check_head(len(addresses))
        self.check_stores()
        self.check_stamps()
        self.check_places()
        self.check_kept_records()
        self.check_reached(addresses[: len(addresses) - len(self.state.waiting)])
        found = [self.check_tree(tree) for tree in range(len(self.sizes.trees()))]
        self.check_nonces([nonce for nonces, _ in found for nonce in nonces])
        self.check_leaves([blocks for _, blocks in found])
        self.check_contents(found[0][1])

    def check_head(self, accepted):
        """The key check, the identity, and how many commands there were."""
        self.check("the key check", self.state.check == self.derived(b"vidlaqe key check"))
        self.check("the identity", self.buckets.record(IDENTITY_TREE, 0) == self.derived(b"vidlaqe disk identity"))
        self.check("its commands", self.state.accepted == accepted, (self.state.accepted, accepted))
        self.check("its lifetime", self.state.lifetime == LIFETIME, self.state.lifetime)

    def check_stores(self):
        """Each STORE that waits is one of a whole path. If commands were carried out, there is one for each tree."""
        depths = self.sizes.depths()
        are_whole = [
            len(store.records) == (depths[store.tree] + 1) * self.sizes.record_len() and store.leaf < 2 ** depths[store.tree]
            for store in self.state.stores
        ]
        trees = sorted({store.tree for store in self.state.stores})
        wanted = [] if self.state.accepted == len(self.state.waiting) else list(range(len(depths)))
        self.check("the STOREs that wait", all(are_whole) and trees == wanted, (are_whole, trees, wanted))

    def check_stamps(self):
        """The host has begun and done a batch of this keeping, if commands were carried out."""
        start, key = b"\0\0\0\1", self.derived(b"vidlaqe stamp key")
        check = self.state.process_check.to_bytes(8, "big")
        masked = hashlib.sha256(start + key + b"\2" + check).digest()[:8] if self.state.accepted else bytes(8)
        for node, place in enumerate(("begun", "done")):
            record = self.buckets.record(STAMP_TREE, node)
            tag = hashlib.sha256(start + key + bytes([node]) + record[:16]).digest()
            self.check(f"the stamp that is {place}", record[8:16] == masked and record[16:] == tag, record)

    def check_places(self):
        """Each tree has the shape that follows from the sizes, and its cells lie apart."""
        shapes = self.buckets.shapes
        wanted = {tree: (depth, self.sizes.record_len()) for tree, depth in enumerate(self.sizes.depths())}
        wanted[STAMP_TREE], wanted[IDENTITY_TREE] = (1, 48), (0, 32)
        self.check("its shapes", {tree: (shape.depth, shape.record_len) for tree, shape in shapes.items()} == wanted, shapes)
        inside = sorted((shape.place, shape.end()) for shape in shapes.values())
        self.check("its places", inside[0][0] == 8192 and all(place % 2 == 0 for place, _ in inside), inside)
        self.check("places that lie apart", all(end <= place for (_, end), (place, _) in zip(inside, inside[1:])), inside)

    def check_kept_records(self):
        """The state has the near records, and of each upper node the digests of its children's records. Before the first command the near records
        are those of the formatting."""
        made, near = self.buckets.made, self.state.near
        self.check("its near records", len(near) == 2**self.near - 1, (len(near), self.near))
        kept = {(tree, node): digests for tree, nodes in enumerate(self.state.digests) for node, digests in enumerate(nodes)}
        wrong = [place for place, digests in kept.items() if made[place][-64:] != digests]
        self.check("its digests of the formatting", not wrong, wrong)
        if not self.state.accepted:
            self.check("its near records of the formatting", near == [made[0, node] for node in range(len(near))])

    def check_reached(self, addresses):
        """The host has the records of the paths that these commands have stored, below the near levels, and no others."""
        wanted = [set() for _ in self.sizes.trees()]
        for leaves in self.leaves_shown(addresses):
            for tree, (leaf, depth) in enumerate(zip(leaves, self.sizes.depths())):
                wanted[tree].update(node_of(depth, leaf, level) for level in range(0 if tree else self.near, depth + 1))
        found = [self.buckets.nodes(tree) for tree in range(len(wanted))]
        self.check("the records that the host has", found == wanted, (found, wanted))

    def leaves_shown(self, addresses):
        """The leaves that each of these commands has fetched and stored, one of each tree."""
        shown, depths = {}, self.sizes.depths()
        for ticket, address in enumerate(addresses):
            leaves = []
            for tree, (spare, new) in enumerate(self.tape.words(ticket)):
                leaves.append(shown.get((tree, address), spare) % 2 ** depths[tree])
                shown[tree, address] = new
                address //= self.sizes.entries()
            yield leaves

    def check_tree(self, tree):
        """Every record of a tree is there, ends with its children's digests, and holds blocks where they may be. Returns nonces and blocks."""
        nonces, blocks = self.check_records(tree)
        root = hashlib.sha256(self.buckets.record(tree, 0)).digest()
        self.check(f"the root digest of tree {tree}", root == self.state.roots[tree])
        stash = self.state.stashes[tree]
        addresses = [address for address, _, _ in stash]
        self.check(f"the stash of tree {tree}", addresses == sorted(set(addresses) - set(blocks)), addresses)
        blocks.update({address: (leaf, data) for address, leaf, data in stash})
        return nonces, blocks

    def check_records(self, tree):
        depth, nonces, blocks, wrong = self.buckets.shapes[tree].depth, [], {}, []
        for node in range(2 ** (depth + 1) - 1):
            record = self.buckets.record(tree, node)
            if record[-64:] != self.buckets.digests_below(tree, node):
                wrong.append(node)
                continue
            nonce, held = opened(record, self.sizes, self.derived(b"vidlaqe bucket key"))
            nonces.append(nonce)
            level = (node + 1).bit_length() - 1
            wrong += [node for _, leaf, _ in held if leaf >= 2**depth or node_of(depth, leaf, level) != node]
            wrong += [node for address, _, _ in held if address in blocks]
            blocks.update({address: (leaf, data) for address, leaf, data in held})
        self.check(f"the records of tree {tree}", wrong == [], wrong)
        return nonces, blocks

    def check_nonces(self, nonces):
        """Each record has a nonce of its own, and the next one is new."""
        if self.sizes.is_sealed:
            self.check("its nonces", len(set(nonces)) == len(nonces) and max(nonces) < self.state.nonce, (max(nonces), self.state.nonce))

    def check_leaves(self, trees):
        """There are the blocks to which there was a command, and each has the leaf that the table or its map block says, which is the tape's
        word."""
        entries = dict(enumerate(self.state.table))
        for tree in reversed(range(len(trees))):
            count, leaves = self.sizes.trees()[tree], 2 ** self.sizes.depths()[tree]
            said = {address: entry - 1 for address, entry in entries.items() if entry}
            found = {address: leaf for address, (leaf, _) in trees[tree].items()}
            self.check(f"the map of tree {tree}", found == said and max(said, default=0) < count, said)
            words = {address: self.tape.words(ticket)[tree][1] % leaves for address, ticket in self.last[tree].items()}
            self.check(f"the leaves of tree {tree}", said == words, (said, words))
            entries = {}
            for block, (_, data) in trees[tree].items():
                reader = Reader(data)
                entries.update({block * self.sizes.entries() + at: reader.number(4) for at in range(self.sizes.entries())})

    def check_contents(self, blocks):
        """Each block that was written is there with what was written last; one that was only read is zeros."""
        wanted = {address: self.contents.get(address, bytes(self.sizes.block_bytes)) for address in self.last[0]}
        wrong = [address for address, data in wanted.items() if blocks.get(address, (0, b""))[1] != data]
        self.check("what is in its blocks", wrong == [], wrong)
