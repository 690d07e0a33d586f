"""Random scripts and images. The generator runs the model beside, so that it knows what is worth a line."""
from faulty import decorate, spoil
from lines import CHECKPOINTS, U64
from pool import Pool, data_start
from records import is_record

# weights of the actions; 'vdev' is a batch of another mirror
ACTS = ['fs', 'make', 'write', 'read', 'sync', 'scrub', 'finish', 'walk', 'walkall', 'issue', 'hold', 'land', 'status', 'vdev',
        'rot', 'errors', 'snap', 'clone', 'destroy', 'swap', 'list']
HALTS = ['pause', 'resume', 'stop']
PROFILES = {
    'mixed':  [2, 6, 8, 5, 8, 4, 3, 10, 4, 7, 7, 6, 8, 1, 5, 2, 4, 3, 3, 2, 2],
    'hold':   [1, 3, 14, 3, 12, 4, 2, 8, 6, 3, 14, 7, 6, 1, 6, 1, 3, 2, 4, 1, 1],
    'steps':  [1, 4, 8, 3, 7, 3, 1, 25, 1, 6, 6, 4, 10, 1, 3, 1, 3, 2, 3, 2, 1],
    'finish': [2, 6, 8, 4, 8, 10, 12, 7, 3, 3, 5, 2, 5, 0, 6, 3, 3, 2, 3, 2, 1],
    'full':   [1, 8, 5, 3, 5, 4, 3, 6, 14, 9, 8, 5, 6, 1, 3, 1, 3, 2, 3, 1, 1],
    'rot':    [1, 5, 8, 8, 7, 8, 8, 6, 6, 7, 6, 6, 5, 0, 18, 6, 2, 2, 2, 1, 1],
    'tree':   [5, 5, 12, 4, 14, 3, 1, 14, 2, 4, 4, 4, 9, 0, 1, 1, 15, 12, 16, 10, 6],
    'names':  [14, 4, 4, 6, 14, 2, 1, 5, 1, 1, 1, 1, 5, 0, 0, 0, 20, 20, 22, 16, 9],
}
TASK_ACTS = ['snap', 'destroy', 'clone', 'swap', 'fs']


class Gen:
    def __init__(self, rng, pool):
        self.rng, self.pool = rng, pool
        self.lines = []
        self.rots = []
        self.names = rng.sample([b'a', b'b', b'c', b'0', b'abcdefghij12', b's', b'k9'], rng.choice([1, 2, 2, 3, 3, 3, 4, 5]))
        self.labels = rng.sample([b's', b't', b'1', b'a', b'abcdefghij12', b'x2'], rng.choice([1, 2, 3, 3, 4, 5]))
        k = rng.choice([1, 2, 3, 5, 8])
        near = rng.randrange(1, 2048)
        self.objs = [rng.choice([1, 2, 31, 32, 33, 63, 64, 2047, near, min(2047, near+1), rng.randrange(1, 2048)]) for _ in range(k)]

    def put(self, l):
        self.lines.append(l)
        c, *a = l.split(b' ')
        try:
            self.last = self.pool.line(c, a)
            self.pool.invariant()
        except AssertionError:
            print(b'\n'.join(self.lines).decode())
            raise

    # ---- names; with the weight `other` any name, also of nothing
    def pick(self, sets):
        """One of the datasets, often one that the walk is at, or that is in todo."""
        near = [d for d in sets if d in self.pool.scan.pending()]
        return self.rng.choice(near if near and self.rng.random() < .5 else sets)

    def queued(self, word): return [a for c, a in self.pool.tasks if c == word]

    def head(self, other=.06):
        heads = self.pool.sets.heads()
        if heads and self.rng.random() > other: return self.pick(heads).name
        return self.rng.choice(self.names)

    def snapshot(self, other=.06):
        there = self.pool.sets.snapshots()
        soon = [a[0]+b'@'+a[1] for a in self.queued(b'snap')]
        if soon and self.rng.random() < .4: return self.rng.choice(soon)
        if there and self.rng.random() > other: return self.pick(there).name
        return self.rng.choice(self.names)+b'@'+self.rng.choice(self.labels)

    def fresh(self, other=.15):
        """A name for a head that is not there."""
        used = [d.name for d in self.pool.sets.heads()] + [a[-1] for c in (b'fs', b'clone') for a in self.queued(c)]
        free = [n for n in self.names if n not in used]
        if free and self.rng.random() > other: return self.rng.choice(free)
        return self.rng.choice(self.names) if self.rng.random() < .7 else b'n%d' % self.rng.randrange(100)

    def ds(self, snapshots=.03):
        """Mostly of something that has objects."""
        full = [d for d in self.pool.sets.all.values() if d.blocks and (not d.is_head) == (self.rng.random() < snapshots)]
        if full and self.rng.random() < .85: return self.pick(full).name
        return self.snapshot() if self.rng.random() < snapshots else self.head(.03)

    def obj(self, there, name):
        p = self.pool
        keys = [k for d in p.sets.all.values() if d.name == name for k in d.blocks]
        got = [k[0] for k in keys + [k for d, k in p.staged if d.name == name] if is_record(k)]
        if there and got and self.rng.random() < .9: return self.rng.choice(got)
        fresh = [o for o in self.objs if o not in got]
        if not there and fresh and self.rng.random() < .7: return self.rng.choice(fresh)
        return self.rng.choice(self.objs) if self.rng.random() < .97 else self.rng.randrange(1, 2048)

    # ---- lines that queue a task on datasets
    def snap(self):
        name = self.head()
        used = [d.label for d in self.pool.sets.snapshots() if d.owner == name] + [a[1] for a in self.queued(b'snap') if a[0] == name]
        free = [l for l in self.labels if l not in used]
        if not free and self.rng.random() < .5: free = [b'%d' % self.rng.randrange(1000)]
        self.put(b'snap %s %s' % (name, self.rng.choice(free if free and self.rng.random() < .85 else self.labels)))

    def clone(self): self.put(b'clone %s %s' % (self.snapshot() if self.rng.random() < .93 else self.head(), self.fresh()))

    def destroy(self):
        sets, r = self.pool.sets, self.rng.random()
        inner = [d for d in sets.snapshots() if len(sets.children(d)) == 1]
        bare = [d for d in sets.heads() if d.parent.owner != d.owner]
        if r < .6 and inner: name = self.pick(inner).name
        elif r < .7: name = self.snapshot()
        elif r < .92 and bare: name = self.pick(bare).name
        else: name = self.head(.2)
        self.put(b'destroy '+name)

    def swap(self):
        heads = self.pool.sets.heads()
        pairs = [(a, b) for a in heads for b in heads if a is not b and a.parent is b.parent]
        near = [p for p in pairs if self.pool.scan.pending().intersection(p)]
        if near and self.rng.random() < .6: pairs = near
        if pairs and self.rng.random() < .75: self.put(b'swap %s %s' % tuple(d.name for d in self.rng.choice(pairs)))
        else: self.put(b'swap %s %s' % (self.head(), self.head()))

    def tasks(self, most):
        """Some tasks on datasets, of which many fit together."""
        rng = self.rng
        for _ in range(rng.randrange(1, most+1)): self.act(rng.choices(TASK_ACTS, [5, 6, 3, 3, 1])[0])
        if rng.random() < .1: self.act('list')

    # ---- other lines
    def fill(self): return self.rng.choice([0, 5, U64, self.rng.randrange(2**64), self.rng.randrange(100)])
    def n(self): return self.rng.choice([1, 1, 1, 2, 2, 3, 4, 10, 1024])

    # what there is one of where space is as before
    def mirror(self): return 0
    def no_mirror(self): return self.rng.choice([1, 2, 255])
    def levels(self): return 1
    def leaf(self, ds, obj): return self.rng.choice([0]*18+[1, 262143])
    def leaf_to_read(self, ds, obj): return self.rng.choice([0]*12+[1, 262143])
    def any_mirror(self): return 0
    def free_run(self, v): return self.pool.space.free_runs(v)[0]

    def span(self, kind=None):
        """A mirror and sectors to rot: on what is live, in flight or staged, over several of these, free, or at an edge."""
        rng, p = self.rng, self.pool
        live = [p.where(q) for q in sorted(p.sets.live())]
        held = [p.where(q) for q in p.scan.pinned()]
        staged = [e.where for e in p.staged.values()]
        kind = kind or rng.choices(['live', 'held', 'staged', 'run', 'free', 'edge'], [14, 6 if held else 0, 2, 2, 1, 2])[0]
        v = self.any_mirror()
        start, end = p.space.start, p.space.ends[v]
        if kind == 'edge' or (kind == 'free' and not p.space.free_runs(v)):
            return (v,)+rng.choice([(start, 1), (start-1, 1), (start-1, 2), (end-1, 1), (end-1, 2), (end, 1),
                                    (start, end-start), (start, end-start+1), (2097151, 1), (0, 1), (start, 65536)])
        if kind == 'free':
            first, last = self.free_run(v)
            sector = rng.randrange(first, last)
            return v, sector, rng.randrange(1, last-sector+1)
        spots = {'live': live, 'held': held, 'staged': staged, 'run': live+staged}[kind] or live or staged
        if not spots: return v, start, rng.choice([1, 8, 20])
        v, sector, n = rng.choice(spots)
        if kind == 'run':
            spots = [r[1:] for r in spots if r[0] == v]
            last, m = max((sector, n), rng.choice(spots))
            sector, n = min((sector, n), rng.choice(spots))
            return v, sector, min(last+m-sector, 65536)
        at = rng.randrange(n)
        return (v,)+rng.choice([(sector, n), (sector, n), (sector, 1), (sector+n-1, 1), (sector+at, 1),
                                (sector+at, rng.randrange(1, n-at+1)), (sector-1, 2), (sector+n-1, 2)])

    def rot(self, kind=None):
        """One or several lines, over one device or several; some are made twice, so that they restore."""
        rng, W = self.rng, self.pool.W
        if self.rots and rng.random() < .15: which = [rng.choice(self.rots[-6:])]
        else:
            v, sector, count = self.span(kind)
            devices = list(range(W)) if rng.random() < .35 else rng.sample(range(W), rng.choice([1, 1, max(1, W-1)]))
            devices = [v*W+d for d in devices]
            if rng.random() < .02: devices = [rng.choice([len(self.pool.images), len(self.pool.images)+1, 255])]
            which = [(d, sector, min(count, 65536)) for d in devices]
        self.rots += which
        for r in which: self.put(b'rot %d %d %d' % r)

    def act(self, what):
        rng = self.rng
        p = self.pool
        if what in ('make', 'write') and p.space.left() < 20 and rng.random() < .6: what = 'read'
        if what == 'write' and not any(d.blocks for d in p.sets.heads()) and rng.random() < .7: what = 'make'
        if what == 'clone' and not p.sets.snapshots() and not self.queued(b'snap') and rng.random() < .7: what = 'snap'
        if what in ('snap', 'make') and not p.sets.heads() and rng.random() < .7: what = 'fs'
        if what == 'fs': self.put(b'fs '+self.fresh())
        elif what in ('snap', 'clone', 'destroy', 'swap'): getattr(self, what)()
        elif what == 'make':
            size = rng.choice([512, 512, 512, 1024, 4096] + ([131072] if rng.random() < .2 else []))
            ds = self.ds()
            self.put(b'make %s %d %d %d %d' % (ds, self.obj(rng.random() < .15, ds), self.levels(), size, self.fill()))
        elif what == 'write':
            ds = self.ds()
            obj = self.obj(True, ds)
            self.put(b'write %s %d %d %d' % (ds, obj, self.leaf(ds, obj), self.fill()))
        elif what == 'read':
            ds = self.ds(.4 if p.sets.snapshots() else .1)
            obj = self.obj(True, ds)
            self.put(b'read %s %d %d' % (ds, obj, self.leaf_to_read(ds, obj)))
        elif what == 'walk': self.put(b'walk %d' % rng.choice([1, 1, 1, 1, 2, 2, 3, 4, 5, 6]))
        elif what == 'walkall': self.put(b'walk %d' % rng.choice([7, 8, 20, 100, 1000000]))
        elif what in ('issue', 'hold'): self.put(b'%s %d %d' % (what.encode(), self.mirror(), self.n()))
        elif what == 'rot':
            self.rot()
            if rng.random() < .2: self.act('read')
        elif what == 'vdev': self.put(rng.choice([b'issue', b'hold'])+b' %d %d' % (self.no_mirror(), self.n()))
        else: self.put(what.encode())

    # ---- rounds
    def scrub(self):
        """Mostly starts a scrub where none runs."""
        if not self.pool.scan.running and self.rng.random() < .8:
            self.act('scrub')
            self.act('sync')

    def held(self):
        """Some walk, batches taken, blocks replaced under them, and all landed; each part may lack."""
        rng = self.rng
        self.scrub()
        for _ in range(rng.choice([1, 1, 2, 3])):
            if rng.random() < .9: self.act(rng.choice(['walk', 'walk', 'walkall']))
            if rng.random() < .8: self.put(b'%s %d %d' % (rng.choice([b'hold', b'hold', b'hold', b'issue']), self.mirror(), rng.choice([1, 2, 3, 4, 1024])))
        for _ in range(rng.choice([0, 1, 1, 1, 2])): self.act(rng.choice(['write', 'write', 'write', 'make']))
        if rng.random() < .4: self.tasks(2)
        if rng.random() < .3: self.act(rng.choice(['issue', 'hold', 'walk', 'read', 'scrub']))
        if rng.random() < .8: self.act('sync')
        if rng.random() < .3: self.act(rng.choice(['status', 'read', 'issue']))
        for _ in range(rng.choice([0, 0, 1, 2, 3])): self.rot('held' if rng.random() < .8 else None)
        if rng.random() < .75: self.act('land')
        if rng.random() < .3: self.act(rng.choice(['status', 'sync', 'finish', 'errors']))

    def shaken(self):
        """The walk goes on by small steps while the datasets change under it."""
        rng = self.rng
        self.scrub()
        for _ in range(rng.choice([1, 2, 3, 4, 6])):
            self.put(b'walk %d' % rng.choice([1, 1, 2, 2, 3, 4, 5, 8, 13]))
            if rng.random() < .4: self.act(rng.choice(['issue', 'issue', 'hold', 'land']))
            for _ in range(rng.choice([0, 0, 1, 2])): self.act('write')
            if rng.random() < .8: self.tasks(3)
            if rng.random() < .9: self.act('sync')
            if rng.random() < .5: self.act('status')
        if rng.random() < .5: self.act('walkall')
        if rng.random() < .3: self.act('finish')

    def chased(self):
        """Tasks on the very dataset that the walk is at, time and again."""
        rng, sets = self.rng, self.pool.sets
        self.scrub()
        for _ in range(rng.choice([2, 3, 5, 8])):
            self.put(b'walk %d' % rng.choice([1, 1, 1, 2, 3]))
            d = self.pool.scan.run.stands_at
            if d is None or d is sets.origin: continue
            beside = [h for h in sets.heads() if h is not d and h.parent is d.parent]
            what = rng.choice(['snap', 'swap', 'destroy', 'write', None] if d.is_head else ['destroy', 'destroy', 'destroy', 'clone', None])
            if what == 'snap': self.put(b'snap %s %s' % (d.name, rng.choice(self.labels)))
            elif what == 'swap' and beside: self.put(b'swap %s %s' % (d.name, rng.choice(beside).name))
            elif what == 'destroy': self.put(b'destroy '+d.name)
            elif what == 'clone': self.put(b'clone %s %s' % (d.name, self.fresh()))
            elif what: self.act('write')
            else: self.tasks(2)
            if rng.random() < .8: self.act('sync')
            if rng.random() < .4: self.act('status')

    def grown(self):
        """A txg of a tree that grows: records, snapshots, clones."""
        rng = self.rng
        for _ in range(rng.choice([0, 1, 1, 2, 3])): self.act('write')
        if rng.random() < .3: self.act('make')
        for _ in range(rng.choice([0, 1, 1, 2, 3])): self.act(rng.choice(['snap', 'snap', 'snap', 'clone', 'clone', 'fs', 'swap', 'destroy']))
        self.act('sync')

    def drain(self):
        """Mostly all that waits is issued, what is in flight lands, and a sync makes a checkpoint."""
        rng = self.rng
        for v in range(self.pool.mirrors):
            if self.pool.scan.waits(v) and rng.random() < .95: self.put(b'issue %d 1024' % v)
        if self.pool.scan.flight and rng.random() < .95: self.act('land')
        if rng.random() < .1: self.act('write')
        self.act('sync')

    def parted(self):
        """A checkpoint in mid-walk, after it some more walk, and then changes on two states that stand apart."""
        rng = self.rng
        self.scrub()
        for _ in range(rng.choice([1, 1, 2])):
            self.put(b'walk %d' % rng.choice([1, 2, 3, 4, 5, 6, 8, 13]))
            self.drain()
            for _ in range(rng.choice([1, 1, 2, 3, 5])):
                if rng.random() < .8: self.put(b'walk %d' % rng.choice([1, 1, 2, 3, 5, 8, 1000]))
                if rng.random() < .3: self.act(rng.choice(['issue', 'issue', 'hold', 'pause', 'resume', 'scrub', 'stop']))
                for _ in range(rng.choice([0, 0, 1, 2])): self.act('write')
                if rng.random() < .9: self.tasks(3)
                self.act('sync')
                if rng.random() < .3: self.act('status')
        if rng.random() < .4: self.drain()
        if rng.random() < .3: self.act('finish')

    def halted(self):
        """A scan is paused or stopped with what waits and flies, and goes on, or another starts."""
        rng = self.rng
        self.scrub()
        if rng.random() < .9: self.act(rng.choice(['walk', 'walk', 'walkall']))
        if rng.random() < .7: self.act(rng.choice(['hold', 'hold', 'issue']))
        for _ in range(rng.choice([1, 1, 1, 2, 3])): self.act(rng.choice(['pause', 'pause', 'pause', 'stop', 'stop', 'resume', 'scrub']))
        if rng.random() < .15: self.act('finish')
        if rng.random() < .9: self.act('sync')
        for _ in range(rng.choice([0, 1, 1, 2, 3, 5])):
            self.act(rng.choice(['walk', 'issue', 'hold', 'land', 'sync', 'sync', 'finish', 'status', 'status', 'errors', 'write', 'rot',
                                 'destroy', 'snap']))
        if rng.random() < .3: self.drain()
        for _ in range(rng.choice([1, 1, 1, 2])): self.act(rng.choice(['resume', 'resume', 'scrub', 'scrub', 'scrub', 'stop', 'pause']))
        if rng.random() < .9: self.act('sync')
        for _ in range(rng.choice([0, 1, 2, 3])): self.act(rng.choice(['walk', 'walkall', 'status', 'land', 'issue', 'sync', 'finish']))

    def late(self):
        """Syncs with a piece waiting or in flight until a checkpoint is due, and some lines while it is."""
        rng, scan = self.rng, self.pool.scan
        self.scrub()
        self.act(rng.choice(['walk', 'walk', 'walkall']))
        if rng.random() < .4: self.act('hold')
        for _ in range(rng.choice([1, 2, 3, min(scan.every, 5)])):
            if rng.random() < .3: self.act('write')
            if rng.random() < .3: self.tasks(2)
            self.act('sync')
        for _ in range(rng.choice([1, 2, 3, 4])):
            self.act(rng.choice(['walk', 'walk', 'walkall', 'issue', 'hold', 'land', 'status', 'sync', 'snap', 'destroy', 'swap', 'pause',
                                 'resume']))
        if rng.random() < .4: self.act('finish')
        elif rng.random() < .7: self.drain()
        if rng.random() < .7: self.act('walkall')

    def start(self, name):
        """Mostly some heads with objects, and a scrub."""
        rng = self.rng
        if rng.random() < .15: return
        if rng.random() < .01:
            for i in range(rng.choice([252, 253, 254])): self.put(b'fs n%d' % i)
        for _ in range(rng.choice([1, 1, 2, 3])): self.act('fs')
        self.act('sync')
        for _ in range(rng.choice([0, 1, 1, 2, 3, 6])): self.act('make')
        if rng.random() < .9: self.act('sync')
        if rng.random() < .6:
            for _ in range(rng.choice([1, 2, 3, 5, 8])): self.grown()
        if rng.random() < .6:
            self.act('scrub')
            if rng.random() < .2: self.act('make')
            self.act('sync')

    def weights(self, profile):
        w = dict(zip(ACTS, profile)) | dict.fromkeys(HALTS, 0)
        p, scan = self.pool, self.pool.scan
        if CHECKPOINTS: self.halts(w)
        heads = p.sets.heads()
        if not heads:
            for k in ('make', 'write', 'read', 'snap', 'swap', 'destroy'): w[k] /= 4
            w['fs'] *= 3
        if len(heads) > 4: w['fs'] /= 4
        if not p.sets.snapshots(): w['clone'] /= 3
        if p.tasks: w['sync'] *= 1+len(p.tasks)/3
        if not p.sets.live(): w['rot'] /= 5
        if scan.run.status == 'none': w['errors'] /= 5
        if not scan.running:
            for k in ('walk', 'walkall', 'issue', 'hold', 'land', 'vdev'): w[k] /= 6
            w['scrub'] *= 2
            w['finish'] /= 4
            if self.queued(b'scrub'): w['sync'] *= 3
            return w
        w['scrub'] /= 5
        if scan.waiting:
            w['write'] *= 1.5
            w['sync'] *= 1.3
        else:
            w['issue'] /= 5
            w['hold'] /= 5
        if len(scan.waiting) == scan.limit: w['walk'] /= 3
        if not scan.flight: w['land'] /= 8
        if scan.run.walked: w['walk'] /= 4
        if scan.complete(): w['sync'] *= 2
        return w

    def halts(self, w):
        """The weights of a pause, of going on, and of what a checkpoint that is due waits for."""
        scan = self.pool.scan
        w.update(zip(HALTS, [.3, .3, .3] if not scan.running else [.3, 5, 1] if scan.paused else [1.5, .3, .8]))
        if scan.paused: w['scrub'] *= 6
        if any(self.queued(h.encode()) for h in HALTS): w['sync'] *= 2
        if scan.due(self.pool.txg-1):
            w['finish'] *= 2
            if scan.waiting: w['issue'] *= 2
            if scan.flight: w['land'] *= 2
            elif not scan.waiting: w['sync'] *= 2

    def more(self, name, length):
        for _ in range(length):
            self.rounds(name)
            w = self.weights(PROFILES[name])
            self.act(self.rng.choices(ACTS+HALTS, [w[k] for k in ACTS+HALTS])[0])

    def rounds(self, name):
        """Now and then a round."""
        rng = self.rng
        r = rng.random()
        if r < .07: self.held()
        elif r < (.2 if name == 'tree' else .1): self.shaken()
        elif r < (.3 if name == 'tree' else .12): self.chased()
        if CHECKPOINTS and rng.random() < .12: rng.choice([self.parted, self.parted, self.halted, self.late])()


def flat(rng):
    """Width, BLOCKS, profile, LIMIT, ID, the images, and those of the pool that the generator runs."""
    W = rng.choice([1, 1, 2, 2, 2, 2, 3, 4])
    B = rng.choice([64, 64, 64, 64, 68, 100, 128]) if rng.random() < .985 else 65536
    profile = rng.choice(['mixed', 'hold', 'hold', 'steps', 'full', 'finish', 'rot', 'rot', 'tree', 'tree', 'tree', 'names'])
    limit = rng.choice([5, 8, 65536, 65536] if profile == 'tree' else [1, 1, 2, 2, 3, 3, 5, 8, 8, 65536])
    idn = rng.choice([0, 7, U64, rng.randrange(2**64)])
    start = data_start(B)
    extra = rng.choice([31, 32, 33, 34, 50, 60, 100, 200, 200, 400, 700, 1000, 1000, 2000, 2000, 4000])
    if rng.random() < .97 and extra == 31: extra = 200
    uneven = rng.random() < .1
    imgs = []
    n = W if rng.random() < .97 else rng.randrange(1, 6)
    for _ in range(n):
        sec = start+(extra+rng.randrange(40) if uneven else extra)
        if rng.random() < .01: sec = rng.choice([0, 1, 3, 4])
        im = bytearray(sec*512+rng.choice([0, 0, 0, 0, 1, 511]))
        if rng.random() < .01 and len(im) > 0: im[rng.randrange(min(len(im), 4096))] = 1
        imgs.append(im)
    end = max(min(len(i)//512 for i in imgs), start+32)
    return W, B, profile, limit, idn, imgs, [bytearray(end*512) for _ in range(W)]


def script(rng, kind, W, B, profile, limit, idn, imgs, own):
    """A script and images, the pool that the generator ran, and whether the script was spoiled."""
    every = rng.choice([1, 1, 2, 2, 3, 4, 1000, 1000]) if CHECKPOINTS else None
    g = kind(rng, Pool(idn, W, limit, every, B, own))
    g.start(profile)
    g.more(profile, rng.choice([0, 5, 10, 20, 40, 40, 60, 90]))
    if rng.random() < .3: g.act('list')
    if rng.random() < .5: g.act('status')
    L = [b'pool %d %d %d %d %d' % (idn, W, limit, every or rng.choice([1, 4, 1000]), B)]+g.lines
    spoiled = rng.random() < .12
    if spoiled: spoil(rng, L)
    return decorate(rng, L), imgs, g.pool, spoiled


def gen(rng): return script(rng, Gen, *flat(rng))
