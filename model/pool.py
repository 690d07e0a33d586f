"""What a script does to a pool: its replies, its status, and every byte of its images."""
import collections, hashlib
from datasets import Block, Datasets, Piece, Refused
from lines import CHECKPOINTS, PAUSES, SPACE, TASKS, parse
from records import METADATA, ROOT, from_below, is_record, leaves, level, levels_of, metadata_bytes, needed, pointer, record_bytes, record_key
from scan import Batch, Scan
from space import Space

COMPLEMENT = bytes(255-b for b in range(256))
STOPS = ('Nothing', 'Full', 'Draining')  # what a walk ends with
MOST_DEVICES, MOST_MIRRORS = 16, 8
MOST_STAGED = 131072                     # sectors in one txg


class Staged:
    """A block of the open txg: its place, sectors, and the fill of a record."""
    def __init__(self, vdev, sector, sectors): self.vdev, self.sector, self.sectors, self.fill = vdev, sector, sectors, None

    @property
    def where(self): return self.vdev, self.sector, self.sectors


class Pool:
    """The pool after its `pool` line. With each_step it asserts after every step what it else asserts after a line."""
    def __init__(self, idn, W, limit, every, B, images, each_step=False, space=SPACE):
        self.idn, self.W, self.limit, self.images = idn, W, limit, images
        self.each_step, self.steps = each_step, 0
        self.blocks = B if space else None
        mirrors = [images[i:i+W] for i in range(0, len(images), W)]
        self.space = Space(data_start(B), [min(len(i)//512 for i in m) for m in mirrors])
        self.txg = 2            # the open txg
        self.applied = 1        # the txg whose blocks were applied last
        self.tasks = []
        self.staged = {}        # (dataset, key) -> what is staged of it in the open txg
        self.staged_sectors = 0
        self.items = {}         # piece -> (sectors, sum), of every block that was written
        self.had = set()        # each piece that was live since the last commit; where no space is given again, since ever
        self.rotten = [set() for _ in images]  # per device the sectors that `rot` turned, and nothing restored
        self.notes = collections.Counter()
        self.sets = Datasets()
        self.scan = Scan(limit, every, self.blocks, self.sets, self.notes)

    @property
    def mirrors(self): return self.space.mirrors

    @property
    def gives_again(self): return self.blocks is not None

    def devices(self, v): return range(v*self.W, (v+1)*self.W)
    def where(self, piece): return piece.vdev, piece.sector, self.items[piece][0]

    # ---- copies
    def good(self, piece):
        """The bytes of the piece's copies, and which are good. A copy is bad where `rot` turned some of its sectors."""
        sectors, sm = self.items[piece]
        at = slice(piece.sector*512, (piece.sector+sectors)*512)
        copies = [self.images[d][at] for d in self.devices(piece.vdev)]
        good = [hashlib.sha256(c).digest() == sm for c in copies]
        for g, d in zip(good, self.devices(piece.vdev)):
            assert g == self.rotten[d].isdisjoint(range(piece.sector, piece.sector+sectors)), 'a copy is bad without a cause'
        return copies, good

    def check(self, piece):
        """The letters of the piece's copies. Where one is good the others are rewritten with it."""
        copies, good = self.good(piece)
        bad = b'R' if any(good) else b'B'
        if any(good):
            for d, g in zip(self.devices(piece.vdev), good):
                if not g: self.overwrite(d, piece.sector, copies[good.index(True)])
        if all(good): self.notes['check finds all good'] += 1
        elif any(good): self.notes['check rewrites %s' % ('a copy' if good.count(False) == 1 else 'copies')] += 1
        else: self.notes['check finds no good copy'] += 1
        return b''.join(b'G' if g else bad for g in good)

    def overwrite(self, d, sector, data):
        self.images[d][sector*512:sector*512+len(data)] = data
        self.rotten[d] -= set(range(sector, sector+len(data)//512))

    def rot(self, d, sector, count):
        if d >= len(self.images):
            self.notes['rot of no device'] += 1
            raise Refused('NoDevice')
        start, end = self.space.start, self.space.ends[d//self.W]
        if sector < start or sector+count > end:
            self.notes['rot out of the space' if end <= sector or sector+count <= start else 'rot partly in the space'] += 1
            if start <= sector and sector+count <= max(self.space.ends): self.notes['rot out of this space, and in that of another mirror'] += 1
            if start <= sector and sector+count <= len(self.images[d])//512: self.notes['rot on the device, behind the space of its mirror'] += 1
            raise Refused('OutOfRange')
        turned = set(range(sector, sector+count))
        self.note_rot(d, turned)
        at = slice(sector*512, (sector+count)*512)
        self.images[d][at] = self.images[d][at].translate(COMPLEMENT)
        self.rotten[d] ^= turned
        return b'rot %d %d %d\n' % (d, sector, count)

    def note_rot(self, d, turned):
        v = d//self.W
        meets = lambda sectors, r: r[0] == v and not sectors.isdisjoint(range(r[1], r[1]+r[2]))
        met = [self.where(p) for p in self.sets.live() if meets(turned, self.where(p))]
        was = [meets(self.rotten[d], r) for r in met]
        now = [meets(self.rotten[d] ^ turned, r) for r in met]
        self.notes['rot over %s live pieces' % ('no', 'one', 'many')[min(len(met), 2)]] += 1
        if not any(self.space.taken[v][min(turned)-self.space.start:max(turned)+1-self.space.start]): self.notes['rot of free space'] += 1
        if self.space.start in turned or self.space.ends[v]-1 in turned: self.notes['rot at an edge of the space'] += 1
        if any(meets(turned, e.where) for e in self.staged.values()): self.notes['rot of a staged place'] += 1
        if any(w and not n for w, n in zip(was, now)): self.notes['rot restores a live piece'] += 1
        if any(w and n for w, n in zip(was, now)): self.notes['rot of a piece that is bad and stays so'] += 1
        freed = [p for batch in self.scan.flight for p, f in batch if not f]
        if any(meets(turned, self.where(p)) for p in freed): self.notes['rot of a freed piece in flight'] += 1

    def errors(self):
        found = self.scan.error_list()
        self.notes['errors of %s' % ('none', 'one', 'many')[min(len(found), 2)]] += 1
        return b'errors %d\n' % len(found) + b''.join(b'error %d %d %d %s\n' % (p+(self.scan.ledger[p],)) for p in found)

    # ---- the walk, and batches
    def turn(self):
        t = self.scan.turn(self.txg-1)
        self.step()
        return t

    def walk(self, n):
        k = 0
        why = b'more'
        while k < n:
            t = self.turn()
            if t in STOPS:
                why = t.lower().encode()
                break
            k += 1
        self.notes['walk '+why.decode()+(' of none' if k == 0 else '')] += 1
        return b'walk %d %s waiting' % (k, why) + b''.join(b' %d' % len(self.scan.waits(v)) for v in range(self.mirrors)) + b'\n'

    def take(self, v, n):
        """The lowest n that wait on the mirror. Where there is one mirror for all pools, another has nothing."""
        if v >= self.mirrors and self.gives_again:
            self.notes['a batch of no mirror'] += 1
            raise Refused('NoDevice')
        batch = self.scan.waits(v)[:n]
        self.scan.waiting -= set(batch)
        if v: self.notes['a batch of a further mirror'] += 1
        return batch

    def issue(self, v, n):
        batch = self.take(v, n)
        text = b''
        for p in batch:
            self.scan.ledger[p] = self.check(p)
            text += b' %d:%s' % (p.sector, self.scan.ledger[p])
        if batch and self.scan.flight: self.notes['issue beside a held batch'] += 1
        self.notes['issue of %s' % min(len(batch), 2)] += 1
        self.step()
        return b'issue %d %d%s\n' % (v, len(batch), text)

    def hold(self, v, n):
        batch = self.take(v, n)
        if not set(batch).isdisjoint(self.scan.pinned()): self.notes['hold of a piece that is in an earlier batch, too'] += 1
        if batch: self.scan.flight.append(Batch([p, True] for p in batch))
        self.notes['hold of %s' % min(len(batch), 2)] += 1
        return b'hold %d %d' % (v, len(batch)) + b''.join(b' %d' % p.sector for p in batch) + b'\n'

    def land(self):
        made = 0
        text = b''
        flight = self.scan.flight
        self.notes['land of many batches' if len(flight) > 1 else 'land' if flight else 'land of none'] += 1
        while flight:
            for p, flying in flight.pop(0):
                letters = self.check(p)
                if flying:
                    self.scan.ledger[p] = letters
                    made += 1
                elif b'R' in letters: self.notes['land rewrites a copy of a freed piece'] += 1
                elif b'B' in letters: self.notes['land finds no good copy of a freed piece'] += 1
                text += b' %d/%d:%s' % (p.vdev, p.sector, letters if flying else b'-')
            self.settle(self.txg-1)
            self.step()
        if b'-' in text: self.notes['land with a freed piece'] += 1
        if b'-' in text and made: self.notes['land with freed and kept pieces'] += 1
        return b'land %d%s\n' % (made, text)

    # ---- space
    def settle(self, synced):
        """What is freed, committed and in no batch is free again."""
        if not self.gives_again: return
        were = len(self.space.freed)
        kept = self.space.settle(synced, set(self.scan.pinned()))
        if kept:
            self.notes['freed space is kept for a batch'] += 1
            if any(not b.isdisjoint(kept) for b in self.scan.ended()): self.notes['freed space is kept for a batch of an earlier scan'] += 1
            if any(self.scan.pinned().count(p) > 1 for p in kept): self.notes['freed space is kept for two batches'] += 1
        if were > len(self.space.freed): self.notes['freed space is free again'] += 1

    def room(self, keys, sizes):
        """Refused where the staged blocks would be too many, or have too many sectors."""
        if not self.gives_again: return
        count = len(self.sets.live())+len(self.staged)+len(keys)
        if count > self.blocks: raise Refused('BlocksFull')
        sectors = self.staged_sectors+sum(sizes)
        if sectors > MOST_STAGED: raise Refused('TxgFull')
        if count == self.blocks: self.notes['as many blocks as can be'] += 1
        if sectors == MOST_STAGED: self.notes['as many staged sectors as can be'] += 1

    def places(self, keys, sizes):
        """A place for each, in order of key; a refusal gives back those that were taken."""
        got = []
        for k, n in zip(keys, sizes):
            first = (k[0]+k[2]) % self.mirrors
            place = self.space.take(first, n)
            if place is None:
                self.note_no_space(got, n)
                for p in got: self.space.give(*p)
                raise Refused('NoSpace')
            got.append(place+(n,))
        return got

    def note_no_space(self, got, n):
        self.notes['NoSpace after %s' % ('some places' if got else 'none')] += 1
        if self.scan.running: self.notes['NoSpace under a scan'] += 1
        if self.scan.pinned(): self.notes['NoSpace with a batch in flight'] += 1
        if self.space.freed: self.notes['NoSpace while freed space is kept'] += 1
        if self.space.left() >= n: self.notes['NoSpace though as many sectors are free'] += 1

    def note_place(self, k, v, sector, n):
        first = (k[0]+k[2]) % self.mirrors
        if v != first: self.notes['a place in another mirror%s' % (', past the last' if v < first else '')] += 1
        if any(self.space.again[v][sector-self.space.start:sector-self.space.start+n]): self.notes['a place that was freed'] += 1
        if 0 <= self.space.taken[v].find(0) < sector-self.space.start: self.notes['a place behind a gap that is too small'] += 1

    # ---- records
    def has(self, d, key): return key in d.blocks or (d, key) in self.staged
    def levels(self, d, obj): return levels_of(lambda key: self.has(d, key), obj)

    def stage(self, d, obj, leaf, levels, sectors, fill):
        """Stages a record with all blocks above it, each with a place where it has none yet in this txg."""
        record = record_key(obj, leaf)
        keys = [k for k in needed(obj, leaf, levels) if (d, k) not in self.staged]
        sizes = [sectors if is_record(k) else METADATA for k in keys]
        self.room(keys, sizes)
        for k, place in zip(keys, self.places(keys, sizes)):
            self.staged[d, k] = Staged(*place)
            if self.gives_again: self.note_place(k, *place)
        self.staged_sectors += sum(sizes)
        if not keys: self.notes['staged twice'] += 1
        if d.parent is not self.sets.origin and ROOT in keys: self.notes['blocks of a snapshot are replaced'] += 1
        self.staged[d, record].fill = fill
        return b'wrote %s %d %d %d\n' % (d.name, obj, leaf, self.txg)

    def make(self, ds, obj, levels, size, fill):
        d = self.sets.head(ds)
        if self.levels(d, obj): raise Refused('ObjectThere')
        out = self.stage(d, obj, 0, levels, size//512, fill)
        self.notes['make with %d levels' % levels] += 1
        return out

    def record(self, d, obj, leaf):
        """The levels of an object that has such a leaf, and the sectors of its records."""
        levels = self.levels(d, obj)
        if not levels: raise Refused('NoObject')
        if leaf >= leaves(levels):
            self.notes['PastEnd with %d levels%s' % (levels, ', by one' if leaf == leaves(levels) else '')] += 1
            raise Refused('PastEnd')
        first = record_key(obj)
        return levels, (self.staged[d, first] if (d, first) in self.staged else d.blocks[first]).sectors

    def write(self, ds, obj, leaf, fill):
        d = self.sets.head(ds)
        levels, sectors = self.record(d, obj, leaf)
        new = [k for k in needed(obj, leaf, levels) if not self.has(d, k)]
        out = self.stage(d, obj, leaf, levels, sectors, fill)
        if new: self.notes['write makes a leaf' + (', with %d blocks above it' % (len(new)-1) if len(new) > 1 else '')] += 1
        if leaf and leaf == leaves(levels)-1: self.notes['write of the last leaf of %d levels' % levels] += 1
        return out

    def read(self, ds, obj, leaf):
        d = self.sets.find(ds)
        levels, _ = self.record(d, obj, leaf)
        rk = record_key(obj, leaf)
        if not d.is_head: self.notes['read of a snapshot'] += 1
        if not self.has(d, rk):
            self.notes['read of a hole with %d levels' % levels] += 1
            return b'read %s %d %d hole\n' % (ds, obj, leaf)
        if (d, rk) in self.staged: first = self.staged[d, rk].fill
        else:
            b = d.blocks[rk]
            copies, good = self.good(b.piece)
            if not any(good):
                self.notes['read of a lost record'] += 1
                raise Refused('ReadLost')
            if not good[0]: self.notes['read of a later copy'] += 1
            first = int.from_bytes(copies[good.index(True)][:8], 'big')
            assert first == b.fill, 'a good copy has other bytes'
        return b'read %s %d %d %016x\n' % (ds, obj, leaf, first)

    # ---- sync
    def put_blocks(self):
        """Puts the staged blocks into the maps and writes them; frees what no dataset holds any more."""
        changes = {d: {} for d, _ in self.staged}
        if len(changes) > 1: self.notes['sync of many heads'] += 1
        for d in changes:
            # from below, since a block has the pointers of what is below it
            for k in sorted((k for e, k in self.staged if e is d), key=from_below):
                e = self.staged[d, k]
                data = record_bytes(e.fill, e.sectors) if is_record(k) else metadata_bytes(collections.ChainMap(changes[d], d.blocks), k)
                self.put_block(changes[d], k, Piece(e.vdev, e.sector, self.txg), e, data)
        self.staged, self.staged_sectors = {}, 0
        self.applied = self.txg
        self.freed(self.sets.apply(changes))
        self.had |= self.sets.live()

    def put_block(self, blocks, k, piece, e, data):
        sm = hashlib.sha256(data).digest()
        sectors = range(e.sector, e.sector+e.sectors)
        if any(not self.rotten[d].isdisjoint(sectors) for d in self.devices(e.vdev)): self.notes['sync writes over rot'] += 1
        for d in self.devices(e.vdev): self.overwrite(d, e.sector, data)
        blocks[k] = Block(piece, e.sectors, e.fill, sm, pointer(piece, e.sectors, level(k), sm))
        self.items[piece] = (e.sectors, sm)

    def freed(self, pieces):
        for p in pieces:
            self.scan.freed(p)
            if self.gives_again: self.space.free(p, self.items[p][0], self.txg)

    def run_task(self, c, a):
        """A refusal changes nothing."""
        if c == b'fs': self.sets.fs(*a)
        elif c == b'snap': self.scan.snapshotted(*self.sets.snap(*a, self.txg))
        elif c == b'clone': self.sets.clone(*a)
        elif c == b'swap': self.scan.swapped(*self.sets.swap(*a))
        elif c == b'scrub': self.scan.scrub(self.txg)
        elif c in PAUSES: getattr(self.scan, c.decode())()
        else:
            d, child, gone = self.sets.destroy(*a)
            self.scan.destroyed(d, child)
            self.freed(gone)
            self.notes['destroy frees %s' % ('none', 'one', 'many')[min(len(gone), 2)]] += 1

    def sync(self, plain=True):
        self.put_blocks()
        self.step()
        out = b'sync %d\n' % self.txg
        for i, (c, a) in enumerate(self.tasks):
            answer = b'ok'
            try: self.run_task(c, a)
            except Refused as e: answer = b'refused '+str(e).encode()
            self.step()
            self.notes['%s %s%s' % (c.decode(), answer.decode(), ' under a scan' if self.scan.running else '')] += 1
            out += b'task %d %s\n' % (i+1, answer)
        self.tasks = []
        scan = self.scan
        if scan.complete():
            scan.finish()
            errors = len(scan.error_list())
            out += b'finished scrub %d %d\n' % (len(scan.ledger), errors)
            self.notes['finished by a plain sync' if plain else 'finished by finish'] += 1
            if errors: self.notes['finished with errors'] += 1
        else:
            if scan.running and scan.flight: self.notes['sync with a batch in flight'] += 1
            scan.checkpoint(self.txg)
        if self.gives_again: self.had = set(self.sets.live())
        self.settle(self.txg)
        self.txg += 1
        self.step()
        return out

    def finish(self):
        scan = self.scan
        if not scan.running: raise Refused('NoScan')
        if scan.paused: raise Refused('Paused')
        if scan.flight: self.notes['finish with a batch in flight'] += 1
        if scan.run.at is not None: self.notes['finish in mid-walk'] += 1
        self.land()
        syncs = []
        while not syncs or scan.running and not scan.paused:
            assert len(syncs) < 2, 'a checkpoint is due once in a finish, and what is left is walked at once'
            t = None
            while t not in STOPS: t = self.turn()
            if t == 'Full': self.notes['finish with a full queue'] += 1
            for v in range(self.mirrors):
                while scan.waits(v): self.issue(v, 32)
            if t != 'Full': syncs.append(self.sync(False))
        if len(syncs) > 1: self.notes['finish over a sync that does not finish'] += 1
        if scan.paused: self.notes['finish of a scan that is then paused'] += 1
        elif scan.run.status == 'canceled': self.notes['finish of a scan that is then stopped'] += 1
        return b''.join(syncs)

    # ---- lines
    def show(self):
        scan, run = self.scan, self.scan.run
        out = b'txg %d\n' % self.txg
        if run.status == 'none': return out+b'scan none\n'
        status = 'paused' if run.paused else run.status
        out += b'scan scrub %s checked %d errors %d waiting %d flight %d\n' % (
            status.encode(), len(scan.ledger), len(scan.error_list()), len(scan.waiting), len(scan.flying()))
        if scan.error_list(): self.notes['status %s with errors' % status] += 1
        if run.running: out += b'range %d %d\n' % (scan.min, scan.max) + self.place(run)
        where = run.stands_at
        kind = run.at or 'none' if where is None else 'head' if where.is_head else 'origin' if where.id == 0 else 'snapshot'
        self.notes['status %s at %s%s' % (status, kind, ', again' if run.again else '')] += 1
        if scan.flight and len(scan.flying()) < sum(map(len, scan.flight)): self.notes['status with freed in flight'] += 1
        return out

    def place(self, state):
        """Where a state is, and what it has in todo."""
        where = state.stands_at
        if where is None: out = b'at destroyed\n' if state.at else b'at none\n'
        else:
            out = b'at %s %d.%d.%d.%d pass %d %d' % ((where.name,)+state.at[1]+(state.curmin, state.curmax))
            out += b' again\n' if state.again else b'\n'
        return out+b'todo'+b''.join(b' %s:%d' % (d.name, m) for d, m in state.todo)+b'\n'

    def line(self, c, a):
        """The reply to one script line after `pool`."""
        if c in TASKS:
            self.tasks.append((c, a))
            return b'queued %d %d\n' % (self.txg, len(self.tasks))
        try:
            self.step()
            if c == b'status': return self.show()
            if c == b'list': return self.sets.list()
            if c == b'make': return self.make(a[0], *map(int, a[1:]))
            if c in (b'write', b'read'): return getattr(self, c.decode())(a[0], *map(int, a[1:]))
            return getattr(self, c.decode())(*map(int, a))  # sync, finish, walk, issue, hold, land, errors, rot
        except Refused as e: return b'refused '+str(e).encode()+b'\n'

    # ---- what has to hold at every moment
    def step(self):
        if self.each_step:
            self.steps += 1
            self.invariant()

    def invariant(self):
        self.sets.valid(self.applied)
        self.scan.sound(self.txg)
        self.scan.covers()
        pieces = self.had.union(self.scan.pinned() if self.gives_again else [])
        self.space.holds([self.where(p) for p in pieces] + [e.where for e in self.staged.values()])
        assert not self.gives_again or len(self.sets.live())+len(self.staged) <= self.blocks, 'more than BLOCKS'
        assert all(self.sets.all.get(d.id) is d and d.is_head for d, _ in self.staged), 'staged for no head'


def data_start(B): return 8+2*(128+B//4)


def refusal(W, B, images, space):
    if len(images) % W or len(images) > W*MOST_MIRRORS or not space and len(images) != W: return b'Shape'
    if any(any(i[:2048]) for i in images): return b'NotBlank'
    if any(len(i)//512 < data_start(B)+32 for i in images): return b'TooSmall'
    if any(len(i)//512 > 2097152 for i in images): return b'TooLarge'


def answer(words, script, images, each_step=False, checkpoints=CHECKPOINTS, space=SPACE):
    """images: a list of bytearray, or None where missing. Answers status, stdout, and the pool or None; changes the images."""
    if len(words) < 2 or words[0] != 'step' or len(words) > 1+MOST_DEVICES or any(w == '' or w[0] == '-' for w in words[1:]):
        return 1, b'usage\n', None
    p = parse(script, checkpoints, space)
    if p[0] == 'bad': return 2, b'script %d %s\n' % (p[1], p[2].encode()), None
    if any(i is None for i in images): return 4, b'', None
    idn, W, limit, every, B = [int(x) for x in p[1][0][1]]
    why = refusal(W, B, images, space)
    if why: return 3, b'refused %s\n' % why, None
    pool = Pool(idn, W, limit, every if checkpoints else None, B, images, each_step, space)
    return 0, b'pool %d mirrors %d txg 1\n' % (idn, pool.mirrors) + b''.join(pool.line(c, a) for c, a in p[1][1:]), pool


def run(words, script, images): return answer(words, script, images)[:2]
