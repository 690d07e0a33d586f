"""A scrub: its walk through the datasets, the state that is cached of it, and the pieces that wait, fly and are checked."""
from datasets import Refused
from records import ROOT

DESTROYED = 'destroyed'  # where the walk is after its dataset was destroyed


class State:
    """What a walk goes on from. Where it is: None for nowhere, DESTROYED, or a dataset with a key."""
    def __init__(self):
        self.end('none')

    def become(self, status, todo):
        self.status, self.paused, self.todo = status, False, todo  # todo: datasets, each with a min
        self.leave(None)

    def start(self, origin): self.become('scanning', [(origin, 0)])
    def end(self, status): self.become(status, [])
    def copy_from(self, other): self.__dict__.update(other.__dict__, todo=list(other.todo))

    def leave(self, at):
        self.at, self.curmin, self.curmax, self.again = at, 0, 0, False

    @property
    def running(self): return self.status == 'scanning'

    @property
    def walked(self): return self.at is None and not self.todo

    @property
    def stands_at(self):
        """The dataset that the walk is at, or None."""
        return self.at[0] if isinstance(self.at, tuple) else None

    def pending(self): return {d for d, _ in self.todo} | ({self.stands_at} - {None})

    # ---- what the datasets' tasks change
    def renamed(self, names):
        """Each dataset of names is its value from now on."""
        if self.stands_at in names: self.at = names[self.stands_at], self.at[1]
        self.todo = [(names.get(d, d), m) for d, m in self.todo]

    def destroyed(self, d, child):
        if child is not None:
            if self.stands_at is d: self.again = True
            self.renamed({d: child})
            return
        if self.stands_at is d: self.leave(DESTROYED)
        self.todo = [(e, m) for e, m in self.todo if e is not d]

    # ---- what holds at every moment
    def sound(self, datasets, most, txg):
        """most is the scan's max, and txg the one whose tasks come next, or are running."""
        names = [d for d, _ in self.todo] + ([self.stands_at] if self.stands_at else [])
        assert all(datasets.all.get(d.id) is d for d in names), 'a pending dataset is gone'
        assert len(names) == len(set(names)), 'a dataset is pending twice'
        assert all(self.pending().isdisjoint(d.ancestors()) for d in names), 'a pending dataset is above another'
        assert all(m <= (d.creation or txg) for d, m in self.todo), 'a min is too great'
        assert most <= txg, 'max is too great'
        assert self.running or self.walked and not self.paused, 'rest of a scan'
        d = self.stands_at
        if d is None: assert (self.curmin, self.curmax, self.again) == (0, 0, False), 'rest of a pass'
        else:
            if not d.is_head: most = min(most, d.creation)
            assert self.curmax == most or (self.again and self.curmax < most), 'curmax'

    def ahead(self, d, k, birth):
        """The home entry (k, birth) of d is ahead of the walk."""
        if self.pending().intersection(d.ancestors()): return True
        if any(e is d and birth > m for e, m in self.todo): return True
        if self.stands_at is not d: return False
        return k >= self.at[1] and self.curmin < birth <= self.curmax or self.again and birth > self.curmax

    def covers(self, datasets, in_scope, done):
        """Of a scan that was canceled nothing is asked."""
        if self.status not in ('scanning', 'finished'): return
        done = set(done)
        for d in datasets.all.values():
            for k, b in d.home():
                assert not in_scope(b.birth) or b.piece in done or self.ahead(d, k, b.birth), 'not covered'


class Batch(list):
    """What was taken at once: each a piece and whether it still flies."""
    ended = False  # whether its scan is


class Scan:
    """A piece is a place with a birth. Where EVERY is None no checkpoint is made, and none is due. Where BLOCKS is None it bounds
    nothing."""
    def __init__(self, limit, every, blocks, datasets, notes):
        self.limit, self.every, self.blocks, self.datasets, self.notes = limit, every, blocks, datasets, notes
        self.run, self.kept = State(), State()  # the running state, and the cached one, from which an opening goes on
        self.min = self.max = 0
        self.ledger = {}        # piece -> letters, in the order of checking
        self.stored = 0         # the first so many of the ledger are stored beside the cached state
        self.saved = 0          # the txg of the last checkpoint, or of the start
        self.waiting = set()
        self.flight = []        # batches that were not landed

    @property
    def states(self): return self.run, self.kept

    @property
    def running(self): return self.run.running

    @property
    def paused(self): return self.run.paused

    def in_scope(self, birth): return self.min < birth < self.max
    def waits(self, v): return sorted(p for p in self.waiting if p.vdev == v)
    def flying(self): return [p for batch in self.flight for p, f in batch if f]
    def ended(self): return [{p for p, _ in batch} for batch in self.flight if batch.ended]
    def pinned(self): return [p for batch in self.flight for p, _ in batch]
    def error_list(self): return sorted(p for p, letters in self.ledger.items() if b'B' in letters)

    # ---- start, pause and end
    def scrub(self, txg):
        """A scrub starts, or goes on where it is paused."""
        if self.paused:
            self.notes['scrub on a paused scan'] += 1
            return self.resume()
        if self.running: raise Refused('ScanBusy')
        if self.run.status != 'none': self.notes['a further scrub'] += 1
        if self.run.status == 'canceled': self.notes['a scrub after one that was stopped'] += 1
        if self.error_list(): self.notes['a scrub empties a list of errors'] += 1
        self.min, self.max = 0, txg
        self.ledger, self.stored, self.saved = {}, 0, txg
        self.give_up()
        self.run.start(self.datasets.origin)
        self.kept.copy_from(self.run)

    def give_up(self):
        """Nothing waits or flies any more. The batches stay in flight until they land."""
        self.waiting = set()
        for batch in self.flight:
            batch.ended = True
            for e in batch: e[1] = False

    def pause(self):
        if not self.running: raise Refused('NoScan')
        if self.paused: raise Refused('Paused')
        for s in self.states: s.paused = True
        self.note_halt('pause')

    def resume(self):
        if not self.paused: raise Refused('NotPaused')
        for s in self.states: s.paused = False

    def stop(self):
        if not self.running: raise Refused('NoScan')
        if self.paused: self.notes['stop of a paused scan'] += 1
        self.note_halt('stop')
        self.end('canceled')

    def end(self, status):
        """The ledger stays, and is stored whole."""
        for s in self.states: s.end(status)
        self.stored = len(self.ledger)
        self.give_up()

    def note_halt(self, what):
        if self.waiting: self.notes[what+' while pieces wait'] += 1
        if self.flying(): self.notes[what+' while pieces fly'] += 1
        if self.stored < len(self.ledger): self.notes[what+' with entries that are not stored'] += 1

    def complete(self): return self.running and not self.paused and self.run.walked and not self.waiting and not self.flight
    def finish(self): self.end('finished')

    # ---- checkpoints
    def due(self, synced):
        """synced is the txg that was synced last."""
        return self.every is not None and self.running and synced-self.saved >= self.every

    def checkpoint(self, txg):
        """All that was found so far was checked: the cached state becomes the running one, and the whole ledger is stored."""
        if self.every is None or not self.running: return
        if self.waiting or self.flight:
            if self.waiting: self.notes['no checkpoint, for pieces that wait'] += 1
            if self.flying(): self.notes['no checkpoint, for a batch in flight'] += 1
            elif self.flight: self.notes['no checkpoint, for a batch of which nothing flies'] += 1
            return
        self.note_checkpoint(txg)
        self.kept.copy_from(self.run)
        self.stored, self.saved = len(self.ledger), txg

    def note_checkpoint(self, txg):
        at = 'nowhere' if self.run.at is None else 'at '+DESTROYED if self.run.at == DESTROYED else 'in a dataset'
        self.notes['checkpoint %s%s%s' % (at, ', again' if self.run.again else '', ', paused' if self.paused else '')] += 1
        if self.due(txg-1): self.notes['checkpoint that was due'] += 1
        elif self.saved < txg: self.notes['checkpoint before it is due'] += 1

    def note_draining(self):
        at = 'before a dataset in todo' if self.run.at is None else 'at '+DESTROYED if self.run.at == DESTROYED else 'in a dataset'
        self.notes['draining '+at] += 1
        if len(self.waiting) == self.limit: self.notes['draining with a full queue'] += 1
        if self.waiting: self.notes['draining while pieces wait'] += 1
        if self.flying(): self.notes['draining while pieces fly'] += 1
        elif self.flight: self.notes['draining while a batch of which nothing flies is in flight'] += 1
        elif not self.waiting: self.notes['draining with nothing to drain'] += 1

    # ---- the walk
    def turn(self, synced):
        run = self.run
        if not self.running or self.paused or run.walked:
            if self.due(synced) and not self.paused: self.notes['Nothing, though a checkpoint is due'] += 1
            return 'Nothing'
        if self.due(synced):
            self.note_draining()
            return 'Draining'
        if run.at == DESTROYED:
            run.leave(None)
            return 'Skip'
        if run.at is None: return self.enter(*run.todo.pop(0))
        d, key = run.at
        found = d.next_from(key, run.curmin)
        if found is None: return self.end_pass(d)
        b = d.blocks[found]
        if b.birth <= run.curmax and self.in_scope(b.birth):
            if len(self.waiting) == self.limit: return 'Full'
            assert b.piece not in self.ledger and b.piece not in self.waiting and b.piece not in self.flying(), 'a piece is found twice'
            if b.piece in self.pinned(): self.notes['At of a piece that a batch of an earlier scan has'] += 1
            self.waiting.add(b.piece)
        else:
            self.notes['At of a block that is too young'] += 1
            if len(self.waiting) == self.limit: self.notes['At of a block that is too young, with a full queue'] += 1
        run.at = d, found[:3]+(found[3]+1,)
        return 'At'

    def enter(self, d, low):
        run, low = self.run, max(self.min, low)
        if low >= self.max:
            self.notes['Skip of a dataset that is too young'] += 1
            return 'Skip'
        run.at, run.curmin, run.again = (d, ROOT), low, False
        run.curmax = self.max if d.is_head else min(self.max, d.creation)
        return 'Enter'

    def end_pass(self, d):
        run = self.run
        if run.again:
            run.todo.append((d, run.curmax))
            self.notes['End of a pass that is made again'] += 1
        else:
            children = self.datasets.children(d)
            run.todo += [(c, d.creation) for c in children]
            if len(children) > 1 and len(run.todo) > len(children): self.notes['End puts children behind others'] += 1
        run.leave(None)
        return 'End'

    # ---- what the datasets' tasks change, in both states
    def where(self, state, d):
        if state.stands_at is d: return 'where the walk is' + (', in a further pass' if state.again else '')
        if any(e is d for e, _ in state.todo): return 'in todo'
        return 'of what comes later' if state.pending().intersection(d.ancestors()) else 'elsewhere'

    def note(self, what, d):
        if not self.running: return
        run, kept = (self.where(s, d) for s in self.states)
        self.notes['%s under a scan, %s' % (what, run)] += 1
        if kept != run: self.notes['%s under a scan, in the cached state %s' % (what, kept)] += 1

    def snapshotted(self, head, snap):
        self.note('snap', head)
        for s in self.states: s.renamed({head: snap})

    def destroyed(self, d, child):
        self.note('destroy of a head' if d.is_head else 'destroy of a snapshot', d)
        for s in self.states: s.destroyed(d, child)

    def swapped(self, a, b):
        self.note('swap', b if self.run.stands_at is b else a)
        mins = [m for d, m in self.run.todo if d in (a, b)]
        if len(mins) == 2: self.notes['swap of two in todo' + ('' if mins[0] == mins[1] else ', of different mins')] += 1
        for s in self.states: s.renamed({a: b, b: a})

    def freed(self, piece):
        if piece in self.waiting:
            self.waiting.remove(piece)
            self.notes['freed while waiting'] += 1
        for batch in self.flight:
            for e in batch:
                if e[0] == piece and e[1]:
                    e[1] = False
                    self.notes['freed in flight'] += 1
        if piece in self.ledger: self.notes['freed after its check'] += 1

    # ---- what holds at every moment
    def done(self): return list(self.ledger)+list(self.waiting)+self.flying()
    def kept_done(self): return list(self.ledger)[:self.stored]
    def pending(self): return self.run.pending() | self.kept.pending()

    def sound(self, txg):
        """Of both states; txg is the one whose tasks come next, or are running."""
        for s in self.states: s.sound(self.datasets, self.max, txg)
        assert (self.run.status, self.run.paused) == (self.kept.status, self.kept.paused), 'one state alone runs or is paused'
        assert self.running or not self.waiting and not self.flying(), 'rest of a scan'
        assert self.stored == len(self.ledger) or self.running and self.stored < len(self.ledger), 'what is stored'
        assert self.saved <= txg, 'a checkpoint that is still to come'

    def covers(self):
        done = self.done()
        assert len(done) == len(set(done)), 'a piece twice'
        assert all(self.in_scope(p.birth) for p in done), 'a piece out of scope'
        assert self.datasets.live().issuperset(self.waiting.union(self.flying())), 'a waiting or flying piece is not live'
        assert len(self.waiting) <= self.limit, 'more than LIMIT'
        self.run.covers(self.datasets, self.in_scope, done)
        self.kept.covers(self.datasets, self.in_scope, self.kept_done())
        if self.blocks is None: return
        scope = {p for p in self.datasets.live() if self.in_scope(p.birth)}
        assert all(len(scope.union(e)) <= self.blocks for e in (self.ledger, self.kept_done())), 'more than BLOCKS to check'
