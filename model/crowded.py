"""Random scripts over several mirrors, of objects with many leaves, in little space that is given again."""
from lines import CHECKPOINTS, U64
from pool import MOST_DEVICES, MOST_MIRRORS, MOST_STAGED, Pool, data_start
from records import LEVELS, is_record, leaves
from scripts import Gen, script

STAGED = 'staged'  # a script in which as many sectors are staged as can be, and not much else


class Crowd(Gen):
    # ---- what is named
    def any_mirror(self): return self.rng.randrange(self.pool.mirrors)
    def no_mirror(self): return self.rng.choice([self.pool.mirrors, self.pool.mirrors+1, 255])
    def levels(self): return self.rng.choices(LEVELS, [4, 6, 3, 2])[0]
    def free_run(self, v): return self.rng.choice(self.pool.space.free_runs(v))

    def mirror(self):
        """Often one on which something waits."""
        there = [v for v in range(self.pool.mirrors) if self.pool.scan.waits(v)]
        return self.rng.choice(there) if there and self.rng.random() < .8 else self.any_mirror()

    def written(self, ds, obj):
        """The leaves of an object, staged ones too, and its levels or 0."""
        p = self.pool
        d = next((d for d in p.sets.all.values() if d.name == ds), None)
        if d is None: return [], 0
        keys = list(d.blocks) + [k for e, k in p.staged if e is d]
        return sorted({k[2] for k in keys if is_record(k) and k[0] == obj}), p.levels(d, obj) or 0

    def leaf(self, ds, obj, new=.5):
        """One that is there, a new one, also the last one, or one behind it."""
        rng = self.rng
        there, levels = self.written(ds, obj)
        if not levels: return rng.choice([0, 0, 1, 63, 262143])
        most = leaves(levels)
        if rng.random() < .06: return min(rng.choice([most, most, most+1, 64*most, 262143]), 262143)
        if rng.random() > new: return rng.choice(there)
        gap = min(set(range(len(there)+1))-set(there))
        edge = rng.choice([most-1, 63, 64, 4095, 4096])
        leaf = rng.choice([max(there)+1, max(there)+1, max(there)+1, gap, gap, gap, rng.randrange(most), rng.randrange(min(most, 70)), edge])
        return leaf if leaf < most else rng.randrange(most)

    def leaf_to_read(self, ds, obj): return self.leaf(ds, obj, .3)

    # ---- rounds
    def refused(self):
        """The last line was a `make` or `write` that found no room."""
        return self.last in (b'refused NoSpace\n', b'refused BlocksFull\n', b'refused TxgFull\n')

    def many(self, most, new):
        """Writes of one object, mostly one after another, until one finds no room."""
        rng = self.rng
        if not any(d.blocks for d in self.pool.sets.heads()): return self.act('make')
        ds = self.ds(0)
        obj = self.obj(True, ds)
        if not self.written(ds, obj)[1]: return self.act('make')
        for _ in range(most):
            self.put(b'write %s %d %d %d' % (ds, obj, self.leaf(ds, obj, new), self.fill()))
            if self.refused() and rng.random() < .8: return

    def crammed(self):
        """Until there is no room, and then room is made."""
        rng = self.rng
        for _ in range(rng.choice([1, 2, 2, 3])):
            if rng.random() < .3: self.act('make')
            self.many(rng.choice([5, 20, 70]), .9)
            if self.refused(): self.act(rng.choice(['make', 'write', 'write', 'read', 'snap', 'destroy']))
            if rng.random() < .7: self.act('sync')
            if rng.random() < .4: self.act('destroy')
            if rng.random() < .3: self.tasks(2)
            if rng.random() < .5: self.many(rng.choice([1, 2, 5]), .1)
            if rng.random() < .7: self.act('sync')

    def aged(self):
        """Snapshots of an object whose leaves are then written anew; some of them go."""
        rng = self.rng
        for _ in range(rng.choice([1, 2, 3])):
            self.many(rng.choice([1, 3, 6]), .6)
            if rng.random() < .8: self.act(rng.choice(['snap', 'snap', 'snap', 'clone']))
            self.act('sync')
            if rng.random() < .4: self.act('walk')
            self.many(rng.choice([1, 2, 4]), .2)
            if rng.random() < .6: self.act('destroy')
            if rng.random() < .9: self.act('sync')
            if rng.random() < .3: self.act('read')

    def kept(self):
        """Batches whose pieces are freed, writes while they are in flight and after they landed; at times with a scan between."""
        rng = self.rng
        self.scrub()
        self.act(rng.choice(['walk', 'walkall', 'walkall']))
        self.act('hold')
        if rng.random() < .3: self.act('hold')
        if CHECKPOINTS and rng.random() < .35:
            for c in ('stop', 'scrub'): self.act(c)
            if rng.random() < .5: self.act('write')
            self.act('sync')
            if rng.random() < .9: self.act('walkall')
            if rng.random() < .9: self.act('hold')
        if rng.random() < .8: self.many(rng.choice([1, 2, 5]), .1)
        if rng.random() < .4: self.act('destroy')
        self.act('sync')
        if rng.random() < .8: self.many(rng.choice([2, 10, 70]), .5)
        if rng.random() < .3: self.rot('held')
        if rng.random() < .9: self.act('land')
        if rng.random() < .8: self.many(rng.choice([1, 2, 5]), .5)
        if rng.random() < .6: self.act('sync')

    def most_staged(self):
        """Large records until no more sectors can be staged, then ones that fit exactly, or nearly so."""
        rng = self.rng
        self.put(b'make a 1 %d 131072 1' % rng.choice([3, 4]))
        for leaf in range(1, 520):
            if self.pool.staged_sectors <= MOST_STAGED-256: self.put(b'write a 1 %d %d' % (leaf, self.fill()))
        for obj in range(2, 2+rng.choice([3, 8, 12])):
            left = MOST_STAGED-self.pool.staged_sectors
            size = rng.choice([s for s in (1, 2, 4, 8, 16, 32, 64, 128, 256) if s <= max(left, 1)][-2:]+[256])
            self.put(b'make a %d 1 %d %d' % (obj, size*512, self.fill()))
            if rng.random() < .2: self.act(rng.choice(['write', 'read', 'status']))
        if rng.random() < .3: self.act('sync')

    def start(self, name):
        if name != STAGED: return super().start(name)
        for l in (b'fs a', b'sync'): self.put(l)
        self.most_staged()

    def rounds(self, name):
        super().rounds(name)
        if self.rng.random() < .18: self.rng.choice([self.crammed, self.aged, self.kept, self.kept])()

    def more(self, name, length):
        if name != STAGED: super().more(name, length)


def shape(rng):
    """Width, BLOCKS, profile, LIMIT, ID, the images, and those of the pool that the generator runs."""
    idn = rng.choice([0, 7, U64, rng.randrange(2**64)])
    if rng.random() < .0015:
        mirrors = rng.choice([1, 2])
        sizes = [(data_start(1024)+MOST_STAGED//mirrors+rng.choice([300, 1000]))*512]*mirrors
        return 1, 1024, STAGED, 8, idn, [bytearray(n) for n in sizes], [bytearray(n) for n in sizes]
    W = rng.choice([1, 1, 1, 2, 2, 2, 3, 4])
    mirrors = rng.choice([1, 1, 2, 2, 2, 3, 3, 4, 5, 6, 8])
    mirrors = min(mirrors, MOST_MIRRORS, MOST_DEVICES//W)
    B = rng.choice([64]*6+[68, 72, 100, 128]) if rng.random() < .99 or W*mirrors > 2 else 65536
    profile = rng.choice(['mixed', 'hold', 'hold', 'steps', 'full', 'finish', 'rot', 'rot', 'tree', 'tree', 'tree', 'names'])
    limit = rng.choice([1, 1, 2, 3, 5, 8, 8, 65536, 65536])
    extra = rng.choice([32, 33, 36, 40, 50, 60, 80, 100, 150, 200, 300, 500])
    uneven = rng.random() < .4
    sizes = [data_start(B)+extra+(rng.randrange(rng.choice([2, 40, 100])) if uneven else 0) for _ in range(W*mirrors)]
    if rng.random() < .01: sizes[rng.randrange(len(sizes))] = rng.choice([0, 1, 3, 4, data_start(B)+31])
    own = [bytearray(max(n, data_start(B)+32)*512) for n in sizes]
    r = rng.random()
    if r < .02: sizes = sizes[:rng.randrange(len(sizes))] or sizes*rng.randrange(2, 4)
    elif r < .03: sizes = (sizes*MOST_DEVICES)[:rng.randrange(1, MOST_DEVICES+1)]
    imgs = []
    for n in sizes[:MOST_DEVICES]:
        imgs.append(bytearray(n*512+rng.choice([0, 0, 0, 0, 1, 511])))
        if rng.random() < .003 and n > 0: imgs[-1][rng.randrange(min(n*512, 4096))] = 1
    return W, B, profile, limit, idn, imgs, own


def gen(rng):
    W, B, profile, *rest = shape(rng)
    return script(rng, Crowd, W, B, profile, *rest)
