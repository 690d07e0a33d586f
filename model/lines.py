"""The lines of a script: what is read, and the first fault of a script that has one."""
import os, re

# Whether checkpoints are made and draining is asked for, and a scan can be paused, resumed and stopped. Without, these lines
# have no word, and EVERY is read and not used.
CHECKPOINTS = os.environ.get('CHECKPOINTS', '1') == '1'
# Whether there are up to eight mirrors, objects of up to four levels, and space that is given again; BLOCKS bounds what is live and
# staged. Without, there is one mirror, LEVELS is 1, each place is the next sector after all that were taken, and BLOCKS is not
# used but for where the space begins.
SPACE = os.environ.get('SPACE', '0') == '1'
U64 = 2**64-1
MOST_BYTES = 16777216


def isnum(w, lo, hi): return re.fullmatch(rb'0|[1-9][0-9]*', w) is not None and lo <= int(w) <= hi
def isname(w): return re.fullmatch(rb'[a-z0-9]{1,12}', w) is not None
def isds(w): return w.count(b'@') <= 1 and all(isname(p) for p in w.split(b'@'))


num = lambda lo, hi: ('Number', lambda w: isnum(w, lo, hi))
pow2 = ('Number', lambda w: isnum(w, 512, 131072) and int(w) & (int(w)-1) == 0)
blocks = ('Number', lambda w: isnum(w, 64, 65536) and int(w) % 4 == 0)
NAME = ('Name', isname)
DS = ('Name', isds)
OBJ = num(1, 2047)
LEAF = num(0, 262143)
FILL = num(0, U64)
VDEV = num(0, 255)
BATCH = num(1, 1024)
PAUSES = {b'pause': [], b'resume': [], b'stop': []}
TASKS = {b'fs': [NAME], b'snap': [NAME, NAME], b'clone': [DS, NAME], b'destroy': [DS], b'swap': [NAME, NAME], b'scrub': []} | PAUSES
LINES = {b'pool': [num(0, U64), num(1, 4), num(1, 65536), num(1, 1000), blocks],
         b'make': [DS, OBJ, num(1, 4), pow2, FILL], b'write': [DS, OBJ, LEAF, FILL], b'read': [DS, OBJ, LEAF],
         b'sync': [], b'finish': [], b'walk': [num(1, 1000000)], b'issue': [VDEV, BATCH], b'hold': [VDEV, BATCH], b'land': [],
         b'status': [], b'list': [], b'errors': [], b'rot': [VDEV, num(0, 2097151), num(1, 65536)]} | TASKS
FLAT = {b'make': [DS, OBJ, num(1, 1), pow2, FILL]}  # where space is as before


def parse(s, checkpoints, space):
    """('ok', the lines, each a command word and the words after it), or ('bad', the number of the line, the fault)."""
    pos = 0
    parts = s.split(b'\n')
    tail = True
    if parts[-1] == b'':
        parts.pop()
        tail = False
    out = []
    for i, l in enumerate(parts):
        start = pos
        pos += len(l)+1
        t = l[:-1] if l.endswith(b'\r') and not (tail and i == len(parts)-1) else l
        if start <= MOST_BYTES < min(pos, len(s)): return ('bad', i+1, 'Size')
        if t == b'' or t[:1] == b'#': continue
        words = [w for w in t.split(b' ') if w]
        if any(not 32 <= c <= 126 for c in t) or not words: return ('bad', i+1, 'Word')
        c, *a = words
        spec = LINES.get(c) if space else FLAT.get(c, LINES.get(c))
        if spec is None or (c == b'scrub' and a) or (c in PAUSES and not checkpoints): return ('bad', i+1, 'Word')
        if (c == b'pool') != (not out): return ('bad', i+1, 'Order')
        if len(a) != len(spec): return ('bad', i+1, 'Count')
        for (why, ok), w in zip(spec, a):
            if not ok(w): return ('bad', i+1, why)
        out.append((c, a))
    if not out: return ('bad', 1, 'Order')
    return ('ok', out)
