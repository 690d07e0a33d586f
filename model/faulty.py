"""Lines that are faulty or nearly so, and spellings of a script that change nothing."""
from lines import CHECKPOINTS, SPACE

BAD = [b'pool 7 2 8 4 64', b'sync x', b'scrub x', b'scrub address', b'   ', b'\tsync', b'sync\t', b'sync\r', b'sy\rnc',
       b'sync\x7f', b'\xffsync', b'# c\xff', b'', b' # x', b'finish 1', b'finish x',
       b'fs', b'fs b', b'fs B', b'fs abcdefghijklm', b'fs a b', b'fs a', b'fs z', b'fs a@s', b'fs a@', b'fs $origin', b'fs 0',
       b'fs abcdefghijkl', b'fs a-b',
       b'make a 0 1 512 1', b'make a 1 2 512 1', b'make a 1 1 511 1', b'make a 1 1 1024 18446744073709551616',
       b'make a 1 1 262144 1', b'make a 01 1 512 1', b'make a@ 1 1 512 1', b'make @a 1 1 512 1', b'make a@b@c 1 1 512 1',
       b'make A x 1 512 1', b'make a 1 1 512 -1', b'make a 1 1 512 +1', b'make',
       b'read a 1 262144', b'read a 2048 0', b'read a 1',
       b'walk', b'walk 0', b'walk 01', b'walk 1000001', b'walk 1000000', b'walk x', b'walk 1 2', b'walk -1',
       b'walk 18446744073709551617', b'walk +1', b'walk 1.', b'walk 4294967297',
       b'issue', b'issue 0', b'issue 0 0', b'issue 0 1025', b'issue 256 1', b'issue 0 1024', b'issue 255 1024', b'issue 00 1',
       b'issue 0 1 1', b'issue x', b'issue a 1', b'issue 0 a', b'issue -1 1', b'issue 0 01', b'issue 4294967296 1',
       b'issue 0 4294967297', b'issue 1 1', b'issue 0  1',
       b'hold', b'hold 0', b'hold 0 0', b'hold 0 1025', b'hold 256 1', b'hold 0 1024', b'hold 255 1024', b'hold 00 1',
       b'hold 0 1 1', b'hold x', b'hold a 1', b'hold 0 a', b'hold 256 0', b'hold 65536 1', b'hold 1 1',
       b'land 0', b'land x', b'land 0 1', b'land',
       b'status x', b'status 0', b'status status', b'status',
       b'write', b'write a 1 0', b'write a 1 0 5 6', b'write a 0 0 5', b'write a 2048 0 5', b'write a 1 262144 5',
       b'write a 1 262143 5', b'write a 1 0 18446744073709551616', b'write a 1 0 18446744073709551615', b'write a 1 0 -1',
       b'write a@ 1 0 5', b'write @a 1 0 5', b'write a@s 1 0 5', b'write a@s@t 1 0 5', b'write A x', b'write A x 0 5',
       b'write a x 0 5', b'write a 1 x 5', b'write a 1 0 x', b'write a 01 0 5', b'write a 1 00 5', b'write a 1 0 05',
       b'write abcdefghijklm 1 0 5', b'write $origin 1 0 5', b'write b 1 0 5', b'write a 65537 0 5', b'write a 1 4294967296 5',
       b'write A 0 0 5', b'write a 0 262144 5',
       b'rot', b'rot 0', b'rot 0 300', b'rot 0 300 1 1', b'rot x', b'rot x 300 1', b'rot 0 x 1', b'rot 0 300 x', b'rot 00 300 1',
       b'rot 0 0300 1', b'rot 0 300 01', b'rot -1 300 1', b'rot 0 -1 1', b'rot 0 300 -1', b'rot 256 300 1', b'rot 255 300 1',
       b'rot 2 300 1', b'rot 2 0 1', b'rot 1 300 1', b'rot 0  312   1', b'rot 0 2097152 1', b'rot 0 2097151 1',
       b'rot 0 2097151 65536', b'rot 4294967296 300 1', b'rot 0 4294967592 1', b'rot 0 300 0', b'rot 0 300 65537',
       b'rot 0 300 65536', b'rot 0 300 4294967297', b'rot 256 2097152 0', b'rot 0 0 1', b'rot 0 295 1', b'rot 0 295 2',
       b'rot 0 296 1', b'rot 0 296 104', b'rot 0 296 105', b'rot 1 399 1', b'rot 1 399 2', b'rot 1 400 1',
       b'errors', b'errors 0', b'errors x', b'errors errors',
       b'snap', b'snap a', b'snap a s t', b'snap a s', b'snap a@s s', b'snap A s', b'snap a S', b'snap A S',
       b'snap a abcdefghijklm', b'snap a abcdefghijkl', b'snap abcdefghijklm s', b'snap a @s', b'snap a s@', b'snap  a   s ',
       b'snap z s', b'snap a@s', b'snap $origin s', b'snap a a', b'snap 1 2',
       b'clone', b'clone a', b'clone a@s', b'clone a@s b c', b'clone a@s b', b'clone a b', b'clone a@s b@s', b'clone a@s@t b',
       b'clone @s b', b'clone a@ b', b'clone a@s B', b'clone A B', b'clone a@@s b', b'clone @ b',
       b'clone abcdefghijkl@abcdefghijkl abcdefghijkl', b'clone abcdefghijklm@s b', b'clone a@abcdefghijklm b', b'clone $origin b',
       b'clone a@s a',
       b'destroy', b'destroy a b', b'destroy a', b'destroy a@s', b'destroy a@', b'destroy @s', b'destroy a@s@t', b'destroy A',
       b'destroy $origin', b'destroy z', b'destroy abcdefghijkl@abcdefghijkl', b'destroy abcdefghijkl@abcdefghijklm',
       b'destroy a @s',
       b'swap', b'swap a', b'swap a b c', b'swap a b', b'swap a a', b'swap a@s b', b'swap a b@s', b'swap A b', b'swap a B',
       b'swap z y', b'swap $origin a', b'swap abcdefghijklm a', b'swap a abcdefghijklm', b'swap a@s',
       b'list', b'list a', b'list x y', b'list list']

# their command word is no word of a line
LATER = [b'open', b'reopen', b'pause', b'resume', b'pause x', b'stop', b'resilver', b'offline 1', b'online 1', b'strategy address',
         b'strategy score', b'progress', b'1 sync', b'Walk 1', b'LAND', b'walk\t1', b'stat', b'statuss', b'rott 0 296 1',
         b'ROT 0 296 1', b'error', b'Errors', b'lan', b'snaps', b'Snap a s', b'snapshot a s', b'clones', b'lists', b'LIST',
         b'swp a b', b'destroy\x00a', b'ls', b'swap\ta b', b'promote a', b'hold\x00 0 1', b'$origin', b'walk-1', b'rechecked',
         b'rebuild 1']

HALTS = [b'pause', b'pause x', b'pause 1', b'pause pause', b'resume', b'resume x', b'resume 0', b'stop', b'stop x', b'stop 1 2',
         b'stop scrub']
if CHECKPOINTS:
    BAD += HALTS
    LATER = [l for l in LATER if l not in HALTS]
    LATER += [b'Pause', b'paused', b'pause\t', b'resumes', b'RESUME', b'stopp', b'Stop', b'stop\x00']
if SPACE:
    BAD += [b'make a 1 0 512 1', b'make a 1 5 512 1', b'make a 2 5 512 1', b'make a 2 0 512 1', b'make a 2 4 512 1', b'make a 2 3 512 1',
            b'make a 2 2 131072 1', b'make a 2 01 512 1', b'make a 2 x 512 1', b'make a 2 -1 512 1', b'make a 2 257 512 1', b'make a 2 2',
            b'make a 2 4294967297 512 1', b'make a 2 5 511 x', b'make a 2 4 511 1', b'make a 2 2 512', b'make a 2 2 512 1 1',
            b'make a x 5 512 1', b'read a 1 1', b'read a 1 262143', b'read a 1 x', b'hold 8 1', b'issue 8 1', b'issue 7 1', b'hold 2 1024',
            b'rot 15 296 1', b'rot 16 296 1']


def spoil(rng, L):
    """One to two faults, or near misses."""
    for _ in range(rng.randrange(1, 3)):
        i = rng.randrange(len(L)+1)
        if rng.random() < .75: L.insert(i, rng.choice(BAD+LATER if rng.random() < .8 else BAD))
        elif L:
            j = rng.randrange(len(L))
            l = L[j]
            if l:
                q = rng.randrange(len(l))
                b = bytes([rng.choice([32, 48, 57, 97, 64, 13, 35, 126, 31])])
                L[j] = l[:q]+b+l[q+rng.randrange(2):]


def decorate(rng, L):
    """Spaces, CRs, blank and comment lines that change nothing (but a CR at the very end)."""
    def deco(l):
        if rng.random() < .07: l = b'  '+l
        if rng.random() < .07: l = l.replace(b' ', b'   ')
        if rng.random() < .07: l = l+b' '
        if rng.random() < .07: l = l+b'\r'
        return l
    L = [deco(l) for l in L]
    for _ in range(rng.randrange(3)): L.insert(rng.randrange(len(L)+1), rng.choice([b'', b'# hello', b'\r']))
    s = b'\n'.join(L)
    if rng.random() < .8: s += b'\n'
    elif L and L[-1].endswith(b'\r') and rng.random() < .8: s = s[:-1]
    if rng.random() < .01: s = rng.choice([b'', b'\n', b'# x\n', b'# x\n   \n', b'\r\n', b'\r', b'walk 1\n', b'status\n', b'land'])
    return s
