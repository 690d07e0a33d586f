"""Datasets: a tree of snapshots with heads at its ends, each with a whole map from keys to blocks."""
import bisect, collections
from records import METADATA, ROOT, above, in_table, is_record, level, levels_of, record_key

MOST = 255              # datasets, with the origin
LAST_ID = 2**32-1       # never given


class Refused(Exception):
    """A refusal, by its name."""


Piece = collections.namedtuple('Piece', 'vdev sector birth')


class Block(collections.namedtuple('Block', 'piece sectors fill sum bp')):
    @property
    def birth(self): return self.piece.birth


class Dataset:
    """The label of a head is empty, and its creation 0. Only the origin has no parent."""
    def __init__(self, id, owner, label, parent, creation, blocks):
        self.id, self.owner, self.label, self.parent, self.creation = id, owner, label, parent, creation
        self.listed = None      # the home entries, with the parent and the map that they are of
        self.have(blocks)

    def have(self, blocks):
        """Its map becomes blocks; keys are those, in order."""
        self.blocks, self.keys = blocks, sorted(blocks)

    @property
    def name(self): return self.owner+b'@'+self.label if self.label else self.owner

    @property
    def is_head(self): return self.creation == 0

    def ancestors(self):
        d = self.parent
        while d is not None:
            yield d
            d = d.parent

    def next_from(self, key, birth):
        """The least key at or after this one whose block was born after that birth, or None."""
        for i in range(bisect.bisect_left(self.keys, key), len(self.keys)):
            if self.blocks[self.keys[i]].birth > birth: return self.keys[i]
        return None

    def levels(self, obj): return levels_of(self.blocks.__contains__, obj)

    def home(self):
        """The entries born after the parent's creation; listed anew only where the parent or the map is another."""
        if self.listed is None or self.listed[0] is not self.parent or self.listed[1] is not self.blocks:
            entries = [(k, b) for k, b in self.blocks.items() if self.parent is None or b.birth > self.parent.creation]
            self.listed = self.parent, self.blocks, entries
        return self.listed[2]


class Datasets:
    def __init__(self):
        self.origin = Dataset(0, b'$origin', b'', None, 1, {})
        self.all = {0: self.origin}  # by id, rising
        self.next = 1
        self.found_live = set()      # the live pieces, as they were found when a map came or went
        self.seen = []               # what was valid when it was looked at last

    def find(self, name):
        found = [d for d in self.all.values() if d.name == name and d is not self.origin]
        if not found: raise Refused('NoDataset')
        return found[0]

    def head(self, name):
        d = self.find(name)
        if not d.is_head: raise Refused('NotHead')
        return d

    def heads(self): return [d for d in self.all.values() if d.is_head]
    def snapshots(self): return [d for d in self.all.values() if not d.is_head and d is not self.origin]
    def children(self, parent): return [d for d in self.all.values() if d.parent is parent]
    def live(self): return self.found_live
    def find_live(self): self.found_live = {b.piece for d in self.all.values() for b in d.blocks.values()}

    def apply(self, changes):
        """Puts blocks into the maps, which are by dataset. Answers what no dataset holds any more."""
        was = self.live()
        for d, blocks in changes.items(): d.have(d.blocks | blocks)
        self.find_live()
        return was - self.live()

    # ---- what the tasks make; a refusal comes before any change, the lowest number first
    def no_such(self, name):
        if any(d.name == name for d in self.all.values()): raise Refused('Exists')

    def add(self, owner, label, parent, creation, blocks):
        if len(self.all) == MOST or self.next == LAST_ID: raise Refused('TooMany')
        d = Dataset(self.next, owner, label, parent, creation, dict(blocks))
        self.all[d.id] = d
        self.next += 1
        return d

    def fs(self, name):
        self.no_such(name)
        return self.add(name, b'', self.origin, 0, {})

    def snap(self, name, label, txg):
        """The head and its new snapshot."""
        head = self.find(name)
        self.no_such(name+b'@'+label)
        if head.parent.creation == txg: raise Refused('SameTxg')
        snap = self.add(name, label, head.parent, txg, head.blocks)
        head.parent = snap
        return head, snap

    def clone(self, name, new):
        snap = self.find(name)
        self.no_such(new)
        if snap.is_head: raise Refused('NotSnapshot')
        return self.add(new, b'', snap, 0, snap.blocks)

    def destroy(self, name):
        """What was destroyed, the child that a snapshot had, or None, and the pieces that no dataset holds any more."""
        d = self.find(name)
        children = self.children(d)
        if len(children) > 1: raise Refused('HasClones')
        if d.is_head and d.parent.owner == d.owner: raise Refused('HasSnapshots')
        del self.all[d.id]
        for c in children: c.parent = d.parent
        was = self.live()
        self.find_live()
        return d, (children or [None])[0], was - self.live()

    def swap(self, one, other):
        a, b = self.find(one), self.find(other)
        if a is b or a.parent is not b.parent: raise Refused('NotSiblings')
        maps = a.blocks, b.blocks
        b.have(maps[0])
        a.have(maps[1])
        return a, b

    def list(self): return b''.join(b'ds %s %d %d\n' % (d.name, d.creation, len(d.blocks)) for d in self.all.values())

    # ---- what holds at every moment; applied is the txg whose blocks were applied last
    def valid(self, applied):
        """Looked at anew only where a dataset, a parent or a map is another; no map is changed in place."""
        now = [part for d in self.all.values() for part in (d, d.parent, d.blocks)]
        if len(now) == len(self.seen) and all(a is b for a, b in zip(now, self.seen)): return
        sets = list(self.all.values())
        assert sets[0] is self.origin and not self.origin.blocks, 'the origin'
        assert all(self.all[i].id == i for i in self.all) and sorted(self.all) == list(self.all), 'ids do not rise'
        assert max(self.all) < self.next and len(sets) <= MOST, 'ids'
        assert len({d.name for d in sets}) == len(sets), 'a name twice'
        homes = []
        for d in sets[1:]:
            p = d.parent
            assert self.all.get(p.id) is p and not p.is_head, 'a parent is gone or a head'
            assert self.origin in d.ancestors(), 'no tree'
            assert d.is_head or p.creation < d.creation <= applied, 'creations do not rise'
            assert all(b.birth <= (d.creation or applied) for b in d.blocks.values()), 'a block born too late'
            levels = {obj: d.levels(obj) for obj in {k[0] for k in d.blocks if k[1] == 1}}
            home = d.home()
            for k, b in home:
                assert in_table(k, levels.get(k[0], 0)), 'a key of nothing'
                assert (b.bp[1], b.sectors) == (level(k), d.blocks[record_key(k[0])].sectors if is_record(k) else METADATA), 'a block'
            for k, b in d.blocks.items():
                assert k == ROOT or d.blocks[above(k, levels.get(k[0]))].birth >= b.birth, 'a block without its parent, or younger'
            assert d.keys == sorted(d.blocks) and (not d.keys or d.keys[0] == ROOT), 'a map'
            homes += home
            own = {k for k, _ in home}
            assert all(k in d.blocks for k in p.blocks), 'a key of the parent is not there'
            assert all(p.blocks.get(k) == b for k, b in d.blocks.items() if k not in own), 'an entry is neither home nor the parent\'s'
        pieces = {b.piece for _, b in homes}
        assert len(pieces) == len(homes), 'two homes of a piece'
        assert pieces == self.live() == {b.piece for d in sets for b in d.blocks.values()}, 'a piece without a home'
        self.seen = now
