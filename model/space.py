"""The sectors of the mirrors: which are taken, and which are freed and will be free."""


class Space:
    """The space of mirror v is from start up to ends[v]. What is taken is a byte for each sector, 0 where it is free."""
    def __init__(self, start, ends):
        self.start, self.ends = start, ends
        self.taken = [bytearray(end-start) for end in ends]
        self.freed = {}                                     # piece -> its sectors and the txg that freed it
        self.again = [bytearray(end-start) for end in ends]  # 1 where a sector was taken before and given up

    @property
    def mirrors(self): return len(self.ends)

    def mark(self, maps, v, sector, n, value): maps[v][sector-self.start:sector-self.start+n] = bytes([value])*n

    def take(self, first, n):
        """The lowest free range of the first mirror that has one, from mirror `first` upwards and on from mirror 0; or None."""
        for i in range(self.mirrors):
            v = (first+i) % self.mirrors
            at = self.taken[v].find(bytes(n))
            if at >= 0:
                self.mark(self.taken, v, self.start+at, n, 1)
                return v, self.start+at
        return None

    def give(self, v, sector, n): self.mark(self.taken, v, sector, n, 0)

    def free(self, piece, n, txg): self.freed[piece] = n, txg

    def settle(self, synced, pinned):
        """What was freed up to the txg that was synced last is free, but for what is pinned. Answers what stays for a pin."""
        due = [p for p, (_, txg) in self.freed.items() if txg <= synced]
        for p in due:
            if p in pinned: continue
            n, _ = self.freed.pop(p)
            self.give(p.vdev, p.sector, n)
            self.mark(self.again, p.vdev, p.sector, n, 1)
        return [p for p in due if p in pinned]

    def left(self): return sum(t.count(0) for t in self.taken)

    def free_runs(self, v):
        """The free ranges of a mirror, each the first sector and the one after the last."""
        runs, at, t = [], 0, self.taken[v]
        while True:
            at = t.find(0, at)
            if at < 0: return runs
            end = t.find(1, at)
            if end < 0: end = len(t)
            runs.append((self.start+at, self.start+end))
            at = end

    def holds(self, covering):
        """The sectors that are taken are those that a range (mirror, sector, count) covers, each of them once."""
        maps = [bytearray(len(t)) for t in self.taken]
        for v, sector, n in covering:
            assert self.start <= sector and sector+n <= self.ends[v], 'place outside'
            at = sector-self.start
            assert not any(maps[v][at:at+n]), 'overlap'
            maps[v][at:at+n] = b'\1'*n
        assert maps == self.taken, 'a sector is taken without a cause, or free though it is covered'
