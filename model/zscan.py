"""An independent model of zscan: what each script prints, which status comes, and every byte of the images after it.

  zscan.py PROGRAM SEED COUNT       random scripts and images, PROGRAM against the model
  zscan.py --lines PROGRAM          every faulty or nearly faulty line of the lists, each in a script of its own
  zscan.py --shrink PROGRAM SEED    the script of one failing seed with lines taken out
  zscan.py --stats SEED COUNT       the model alone: what the scripts reach
  zscan.py --check SEED COUNT       the model alone: what has to hold, looked at after each step of every script
  zscan.py --show SEED              one script and the model's answer
  zscan.py --rows                   worked examples in the model alone

With CHECKPOINTS=1 in the environment EVERY counts, and scripts have the lines pause, resume and stop. With SPACE=1 there are several
mirrors, objects have levels, and space is given again.
"""
import collections, os, random, shutil, subprocess, sys, tempfile
sys.dont_write_bytecode = True  # the folder keeps its files alone
import crowded, scripts
from faulty import BAD, LATER
from lines import SPACE
from pool import answer, run
from rows import rows

gen = crowded.gen if SPACE else scripts.gen


# ---- running PROGRAM
def one(binp, d, words, names, script, images):
    """Writes the images (None: missing), runs PROGRAM; answers (status, stdout), the image bytes."""
    for p, im in zip(names, images):
        if im is not None:
            with open(p, 'wb') as f: f.write(im)
        elif os.path.exists(p): os.remove(p)
    try:
        r = subprocess.run([binp]+words, input=script, stdout=subprocess.PIPE, stderr=subprocess.PIPE, cwd=d, timeout=120)
        got = (r.returncode, r.stdout)
    except subprocess.TimeoutExpired: got = ('timeout', b'')
    after = []
    for p, im in zip(names, images):
        if im is None: after.append(None)
        else:
            with open(p, 'rb') as f: after.append(f.read())
    return got, after


def case(seed, d):
    rng = random.Random(seed)
    s, imgs, pool, spoiled = gen(rng)
    names = [os.path.join(d, 'im%d' % i) for i in range(len(imgs))]
    words = ['step']+names
    if rng.random() < .01:
        words = rng.choice([[], ['step'], ['stepp']+names, ['live']+names, ['step', '']+names, ['step', '-x'],
                            ['step']+names*9 if len(names) > 1 else ['step']+names*17])
    if rng.random() < .01 and len(names) > 0 and words[1:] == names: imgs[-1] = None
    return words, names, s, imgs, pool, spoiled


def differs(binp, d, words, names, s, imgs):
    """None, or what differs, with the model's and PROGRAM's answer."""
    mine = [None if i is None else bytearray(i) for i in imgs]
    want = run(words, s, mine)
    got, after = one(binp, d, words, names, s, imgs)
    what = []
    if got[0] != want[0]: what.append('status')
    if got[1] != want[1]: what.append('stdout')
    for i, (a, b) in enumerate(zip(after, mine)):
        if a is not None and a != bytes(b):
            at = next((j for j in range(min(len(a), len(b))) if a[j] != b[j]), min(len(a), len(b)))
            what.append('image %d from byte %d, sector %d' % (i, at, at//512))
    return (what or None), want, got


def tell(seed, what, want, got, s):
    print('seed', seed, 'differs in', ', '.join(what), 'status want', want[0], 'got', got[0])
    w, g = want[1].split(b'\n'), got[1].split(b'\n')
    for i in range(max(len(w), len(g))):
        a, b = w[i] if i < len(w) else None, g[i] if i < len(g) else None
        if a != b:
            print('  reply line', i+1, 'want', a, 'got', b)
            break
    print(s)


def lines(binp):
    d = tempfile.mkdtemp()
    bad = n = 0
    words = ['step']+[os.path.join(d, 'im%d' % i) for i in range(4 if SPACE else 2)]
    for l in BAD+LATER:
        scripts = [b'pool 7 2 8 4 64\nfs a\nsync\nmake a 1 1 512 5\nsnap a s\nsync\n'+l+b'\nstatus\nsync\nlist\n', l+b'\n']
        if l in BAD: scripts.append(b'pool 7 2 8 4 64\nfs a\n  '+l.replace(b' ', b'  ')+b'  ')
        for s in scripts:
            imgs = [bytearray(400*512) for _ in words[1:]]
            what, want, got = differs(binp, d, words, words[1:], s, imgs)
            n += 1
            if what:
                bad += 1
                tell(l, what, want, got, s)
    shutil.rmtree(d)
    print('done', n, 'bad', bad)
    return bad


def shrink(binp, seed):
    """Takes lines out while PROGRAM and the model still differ."""
    d = tempfile.mkdtemp()
    words, names, s, imgs, _, _ = case(seed, d)
    if differs(binp, d, words, names, s, imgs)[0] is None: print('seed', seed, 'agrees')
    else:
        L = s.split(b'\n')
        size = max(1, len(L)//2)
        while size:
            i = 1
            while i < len(L):
                cut = L[:i]+L[i+size:]
                if differs(binp, d, words, names, b'\n'.join(cut), imgs)[0]: L = cut
                else: i += size
            size //= 2
        s = b'\n'.join(L)
        tell(seed, *differs(binp, d, words, names, s, imgs), s)
        print('words', words, 'image bytes', [None if i is None else len(i) for i in imgs])
    shutil.rmtree(d)


def main(binp, seed, count):
    binp = os.path.abspath(binp)
    d = tempfile.mkdtemp()
    bad = 0
    stats = collections.Counter()
    for k in range(seed, seed+count):
        words, names, s, imgs, _, _ = case(k, d)
        what, want, got = differs(binp, d, words, names, s, imgs)
        stats[want[0]] += 1
        if what:
            bad += 1
            tell(k, what, want, got, s)
            if bad > 3: break
    shutil.rmtree(d)
    print('done', count, 'bad', bad, dict(stats))
    return bad


def stats(seed, count):
    """The model alone: what the scripts reach. The generator asserts the invariants after every line."""
    status, notes, scripts, kinds = (collections.Counter() for _ in range(4))
    for k in range(seed, seed+count):
        words, names, s, imgs, pool, spoiled = case(k, '/tmp')
        st, out = run(words, s, imgs)
        status[st if st != 2 else (2, out.split()[-1].decode())] += 1
        if st == 0:
            for l in out.split(b'\n')[:-1]:
                f = l.split()
                kinds[' '.join(w.decode() for w in (f[:2] if f[0] == b'refused' else f[2:4] if f[2:3] == [b'refused'] else f[:1]))] += 1
            if not spoiled: notes.update(pool.notes), scripts.update(pool.notes.keys())
    print('status', dict(status))
    print('replies', dict(kinds.most_common()))
    for n, c in sorted(notes.items()): print('%7d in %5d scripts  %s' % (c, scripts[n], n))


def check(seed, count):
    """The model alone: what has to hold, asserted after each turn, task, sync, issue and batch that landed."""
    ran = steps = 0
    for k in range(seed, seed+count):
        words, names, s, imgs, _, _ = case(k, '/tmp')
        try:
            pool = answer(words, s, imgs, True)[2]
            if pool: pool.step()
        except AssertionError:
            print('seed', k, s.decode('latin-1'), sep='\n')
            raise
        if pool:
            ran += 1
            steps += pool.steps
    print('checked', count, 'scripts, of which', ran, 'ran, in', steps, 'steps')


if __name__ == '__main__':
    a = sys.argv[1:]
    if a == ['--rows']: rows(SPACE)
    elif len(a) == 3 and a[0] == '--stats': stats(int(a[1]), int(a[2]))
    elif len(a) == 3 and a[0] == '--check': check(int(a[1]), int(a[2]))
    elif len(a) == 2 and a[0] == '--lines': sys.exit(1 if lines(os.path.abspath(a[1])) else 0)
    elif len(a) == 3 and a[0] == '--shrink': shrink(os.path.abspath(a[1]), int(a[2]))
    elif len(a) == 2 and a[0] == '--show':
        words, names, s, imgs, _, _ = case(int(a[1]), '/tmp')
        print(s.decode('latin-1'), '---', *run(words, s, imgs)[1].decode().split('\n'), sep='\n')
    elif len(a) == 3: sys.exit(1 if main(a[0], int(a[1]), int(a[2])) else 0)
    else: sys.exit(__doc__)
