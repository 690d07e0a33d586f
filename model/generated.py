"""A long script of two numbers: three heads that grow for five days with snapshots, a clone, and a scrub under which a snapshot goes."""
from pool import answer

HEADS = ('a', 'b', 'c')


def script(start, n):
    """n is about the count of all records; start makes the fills."""
    per_day = n//15
    fills = (start*2**32+c for c in range(2**32))
    L = ['pool 1 2 512 4 32768'] + ['fs '+f for f in HEADS] + ['sync']
    for day in range(1, 6):
        for f in HEADS:
            for leaf in range((day-1)*per_day, day*per_day):
                line = 'write %s 1 %d' % (f, leaf) if leaf else 'make %s 1 4 512' % f
                L.append('%s %d' % (line, next(fills)))
        L += ['snap %s d%d' % (f, day) for f in HEADS] + ['sync']
    L += ['clone a@d3 k', 'sync', 'write k 1 0 %d' % next(fills), 'sync', 'scrub', 'sync', 'walk 1000', 'destroy a@d2', 'sync',
          'finish', 'status']
    return ''.join(l+'\n' for l in L).encode()


def replies(start, n):
    """The lines that it prints over four devices of 65,536 sectors."""
    status, out, pool = answer(['step', 'w', 'x', 'y', 'z'], script(start, n), [bytearray(65536*512) for _ in range(4)],
                               checkpoints=True, space=True)
    assert status == 0
    pool.invariant()
    return out.decode().split('\n')[:-1]
