"""Worked examples of several mirrors, of objects with levels, and of space that is given again: the devices in sectors, a script, and
what it prints."""
B7 = 'pool 7 2 8 4 64; fs a; sync; make a 1 1 512 5; sync'
B_OUT = 'pool 7 mirrors 1 txg 1; queued 2 1; sync 2; task 1 ok; wrote a 1 0 3; sync 3'
FS, FS_OUT = 'pool 7 2 8 4 64; fs a; sync', 'pool 7 mirrors 1 txg 1; queued 2 1; sync 2; task 1 ok'
START, START_OUT = 'scrub; sync', 'queued 4 1; sync 4; task 1 ok'
WALKED = f'{B7}; {START}; walk 100'
WALKED_OUT = f'{B_OUT}; {START_OUT}; walk 7 nothing waiting 3'
TWO, TIGHT, FOUR = [512, 512], [330, 330], [512]*4
# a snapshot of three records, of which the head then writes the last one anew, and a walk in mid-way
AGED = ('pool 7 2 8 4 64; fs a; sync; make a 1 2 512 10; write a 1 1 11; write a 1 2 12; sync; snap a s; sync; write a 1 2 13; sync;'
        'scrub; sync; walk 6')
AGED_OUT = (f'{FS_OUT}; wrote a 1 0 3; wrote a 1 1 3; wrote a 1 2 3; sync 3; queued 4 1; sync 4; task 1 ok; wrote a 1 2 5; sync 5;'
            'queued 6 1; sync 6; task 1 ok; walk 6 more waiting 3')
NEXT_LEAVES = '; '.join('write a 2 %d 7' % leaf for leaf in range(1, 58))
NEXT_LEAVES_OUT = '; '.join('wrote a 2 %d 4' % leaf for leaf in range(1, 58))
LARGE = '; '.join('write a 1 %d 0' % leaf for leaf in range(1, 511))
LARGE_OUT = '; '.join('wrote a 1 %d 3' % leaf for leaf in range(1, 511))
ROWS = [
    ('a snapshot destroyed under the walk', TWO, f'{AGED}; destroy a@s; sync; status; walk 100; issue 0 10; sync',
     f'{AGED_OUT}; queued 7 1; sync 7; task 1 ok; txg 8; scan scrub scanning checked 0 errors 0 waiting 0 flight 0; range 0 6;'
     'at a 1.1.0.3 pass 1 4 again; todo; walk 10 nothing waiting 6;'
     'issue 0 6 320:GG 321:GG 323:GG 331:GG 339:GG 347:GG; sync 8; finished scrub 6 0'),
    ('freed pieces in flight', TIGHT, f'{WALKED}; hold 0 10; write a 1 0 6; sync; write a 1 0 7; land; write a 1 0 7; sync',
     f'{WALKED_OUT}; hold 0 3 296 304 312; wrote a 1 0 5; sync 5; refused NoSpace; land 0 0/296:- 0/304:- 0/312:-; wrote a 1 0 6; sync 6;'
     'finished scrub 0 0'),
    ('as many blocks as can be', TWO, f'{B7}; write a 1 1 6; make a 1 1 512 6; write z 1 0 6; make a 2 2 512 1; {NEXT_LEAVES};'
     'write a 2 58 7; write a 2 57 8; write a 1 0 8; read a 2 57; read a 2 58; read a 2 63; read a 2 64; sync; write a 2 58 7',
     f'{B_OUT}; refused PastEnd; refused ObjectThere; refused NoDataset; wrote a 2 0 4; {NEXT_LEAVES_OUT}; refused BlocksFull;'
     'wrote a 2 57 4; refused BlocksFull; read a 2 57 0000000000000008; read a 2 58 hole; read a 2 63 hole; refused PastEnd; sync 4;'
     'refused BlocksFull'),
    ('too many blocks goes before no space', [395, 395], f'{B7}; make a 2 2 512 1; {NEXT_LEAVES}; write a 2 58 7; make a 3 1 512 1',
     f'{B_OUT}; wrote a 2 0 4; {NEXT_LEAVES_OUT}; refused BlocksFull; refused BlocksFull'),
    ('no space before too many blocks', [394, 394], f'{B7}; make a 2 2 512 1; {NEXT_LEAVES}; write a 2 57 7',
     f'{B_OUT}; wrote a 2 0 4; {NEXT_LEAVES_OUT.rpartition(";")[0]}; refused NoSpace; refused NoSpace'),
    ('as many staged sectors as can be', [132000], f'pool 7 1 8 4 1024; fs a; sync; make a 1 3 131072 0; {LARGE}; write a 1 511 0;'
     'make a 2 1 65536 1; make a 3 1 16384 1; make a 4 1 8192 1; make a 4 1 4096 1; make a 5 1 512 1; write a 1 510 1',
     f'{FS_OUT}; wrote a 1 0 3; {LARGE_OUT}; refused TxgFull; wrote a 2 0 3; wrote a 3 0 3; refused TxgFull; wrote a 4 0 3;'
     'refused TxgFull; wrote a 1 510 3'),
    ('two mirrors', FOUR, f'{WALKED}; issue 0 10; issue 1 10; issue 2 10; hold 2 1; status; sync',
     f'pool 7 mirrors 2 txg 1{B_OUT[len("pool 7 mirrors 1 txg 1"):]}; {START_OUT}; walk 7 nothing waiting 2 1;'
     'issue 0 2 296:GG 304:GG; issue 1 1 296:GG; refused NoDevice; refused NoDevice; txg 5;'
     'scan scrub scanning checked 3 errors 0 waiting 0 flight 0; range 0 4; at none; todo; sync 5; finished scrub 3 0'),
    ('what waits on two mirrors', FOUR, f'{WALKED}; status; hold 1 1; rot 2 296 1; rot 3 296 1; status; land; errors; finish',
     f'pool 7 mirrors 2 txg 1{B_OUT[len("pool 7 mirrors 1 txg 1"):]}; {START_OUT}; walk 7 nothing waiting 2 1; txg 5;'
     'scan scrub scanning checked 0 errors 0 waiting 3 flight 0; range 0 4; at none; todo; hold 1 1 296; rot 2 296 1; rot 3 296 1;'
     'txg 5; scan scrub scanning checked 0 errors 0 waiting 2 flight 1; range 0 4; at none; todo; land 1 1/296:BB; errors 1;'
     'error 1 296 3 BB; sync 5; finished scrub 3 1'),
    ('the mirror of each key', [512]*3, 'pool 7 1 8 4 64; fs a; sync; make a 33 2 512 5; write a 33 1 6; write a 33 2 7; sync; scrub; sync;'
     'walk 100; issue 0 9; issue 1 9; issue 2 9',
     'pool 7 mirrors 3 txg 1; queued 2 1; sync 2; task 1 ok; wrote a 33 0 3; wrote a 33 1 3; wrote a 33 2 3; sync 3;'
     f'{START_OUT}; walk 10 nothing waiting 3 1 2; issue 0 3 296:G 304:G 312:G; issue 1 1 296:G; issue 2 2 296:G 304:G'),
    ('a mirror that is full', [328]*3, 'pool 7 1 8 4 64; fs a; sync; make a 5 1 8192 1; make a 2 1 16384 2; make a 1 1 4096 3; make a 3 1 8192 4;'
     'make a 4 1 4096 5; make a 7 1 4096 6; sync; scrub; sync; finish',
     'pool 7 mirrors 3 txg 1; queued 2 1; sync 2; task 1 ok; wrote a 5 0 3; wrote a 2 0 3; wrote a 1 0 3; wrote a 3 0 3; wrote a 4 0 3;'
     f'refused NoSpace; sync 3; {START_OUT}; sync 5; finished scrub 7 0'),
    ('images that are no mirrors', [512]*3, B7, 'refused Shape'),
    ('nine mirrors', [512]*9, B7.replace('7 2 8', '7 1 8'), 'refused Shape'),
    ('eight mirrors', [512]*16, f'{FS}; make a 31 1 512 5; sync; scrub; sync; walk 100; issue 7 9',
     f'{FS_OUT.replace("mirrors 1", "mirrors 8")}; wrote a 31 0 3; sync 3; {START_OUT}; walk 7 nothing waiting 2 0 0 0 0 0 0 1; issue 7 1 296:GG'),
    ('records of each level', TWO, f'{FS}; make a 1 1 512 1; make a 2 2 512 1; make a 3 3 512 1; make a 4 4 512 1; read a 1 1; read a 2 63;'
     'read a 2 64; read a 3 4095; write a 3 4096 2; read a 4 262143; write a 4 262143 9; read a 4 262143; sync; read a 4 262143;'
     'read a 4 262142; write a 2 64 2; write a 2 63 2; snap a s; sync; write a 2 62 3; read a@s 2 62; read a@s 2 63; read a 2 62; list',
     f'{FS_OUT}; wrote a 1 0 3; wrote a 2 0 3; wrote a 3 0 3; wrote a 4 0 3; refused PastEnd; read a 2 63 hole; refused PastEnd;'
     'read a 3 4095 hole; refused PastEnd; read a 4 262143 hole; wrote a 4 262143 3; read a 4 262143 0000000000000009; sync 3;'
     'read a 4 262143 0000000000000009; read a 4 262142 hole; refused PastEnd; wrote a 2 63 4; queued 4 1; sync 4; task 1 ok;'
     'wrote a 2 62 5; read a@s 2 62 hole; read a@s 2 63 0000000000000002; read a 2 62 0000000000000003; ds $origin 1 0; ds a 0 16;'
     'ds a@s 4 16'),
    ('a batch of a scrub that was stopped rewrites', TWO, f'{WALKED}; hold 0 10; stop; sync; rot 1 312 1; land; scrub; sync; walk 100; issue 0 10',
     f'{WALKED_OUT}; hold 0 3 296 304 312; queued 5 1; sync 5; task 1 ok; rot 1 312 1; land 0 0/296:- 0/304:- 0/312:-; queued 6 1; sync 6;'
     'task 1 ok; walk 7 nothing waiting 3; issue 0 3 296:GG 304:GG 312:GG'),
    ('a full queue lets blocks by that are too young', TWO, f'{B7.replace("7 2 8", "7 2 1")}; {START}; make a 2 1 512 8; sync; walk 100',
     f'{B_OUT}; {START_OUT}; wrote a 2 0 5; sync 5; walk 8 nothing waiting 1'),
    ('a refusal gives back its places', TIGHT, f'{B7}; make a 2 2 512 1; write a 1 0 6; write a 1 0 7; read a 1 0; make a 2 1 512 1; sync;'
     'scrub; sync; walk 9; issue 0 9',
     f'{B_OUT}; refused NoSpace; wrote a 1 0 4; wrote a 1 0 4; read a 1 0 0000000000000007; refused NoSpace; sync 4; queued 5 1; sync 5;'
     'task 1 ok; walk 7 nothing waiting 3; issue 0 3 313:GG 321:GG 329:GG'),
    ('space is free after the sync that freed it', TIGHT, f'{B7}; snap a s; sync; write a 1 0 6; sync; write a 1 0 7; destroy a@s;'
     'write a 1 0 7; sync; write a 1 0 7; sync; scrub; sync; walk 9; issue 0 9',
     f'{B_OUT}; queued 4 1; sync 4; task 1 ok; wrote a 1 0 5; sync 5; refused NoSpace; queued 6 1; refused NoSpace; sync 6; task 1 ok;'
     'wrote a 1 0 7; sync 7; queued 8 1; sync 8; task 1 ok; walk 7 nothing waiting 3; issue 0 3 296:GG 304:GG 312:GG'),
    ('records of a head that is destroyed in their group', TIGHT, f'{B7}; snap a s; clone a@s b; sync; write b 1 0 6; destroy b; sync;'
     'write a 1 0 7; sync; scrub; sync; finish',
     f'{B_OUT}; queued 4 1; queued 4 2; sync 4; task 1 ok; task 2 ok; wrote b 1 0 5; queued 5 1; sync 5; task 1 ok; wrote a 1 0 6; sync 6;'
     'queued 7 1; sync 7; task 1 ok; sync 8; finished scrub 6 0'),
    ('the lowest range that fits', TWO, f'{AGED}; destroy a@s; sync; write a 1 0 20; make a 2 1 1024 1; sync; stop; scrub; sync; walk 100;'
     'issue 0 20',
     f'{AGED_OUT}; queued 7 1; sync 7; task 1 ok; wrote a 1 0 8; wrote a 2 0 8; sync 8; queued 9 1; queued 9 2; sync 9; task 1 ok; task 2 ok;'
     'walk 11 nothing waiting 7; issue 0 7 296:GG 304:GG 312:GG 321:GG 322:GG 347:GG 348:GG'),
    ('every bad copy is rewritten', [512]*3, f'{B7.replace("7 2 8", "7 3 8")}; rot 0 312 1; rot 2 312 1; {START}; walk 9; issue 0 9; finish',
     f'{B_OUT}; rot 0 312 1; rot 2 312 1; {START_OUT}; walk 7 nothing waiting 3; issue 0 3 296:GGG 304:GGG 312:RGR; sync 5;'
     'finished scrub 3 0'),
    ('the space ends at the least device of a mirror', [512, 400, 330, 600], 'pool 7 2 8 4 64; rot 0 399 1; rot 0 400 1; rot 1 399 2; rot 2 330 1;'
     'rot 3 330 1; rot 3 329 1; rot 4 296 1; fs a; sync; make a 1 1 16384 5; make a 2 1 65536 5; make a 3 1 32768 5',
     'pool 7 mirrors 2 txg 1; rot 0 399 1; refused OutOfRange; refused OutOfRange; refused OutOfRange; refused OutOfRange; rot 3 329 1;'
     'refused NoDevice; queued 2 1; sync 2; task 1 ok; wrote a 1 0 3; refused NoSpace; wrote a 3 0 3'),
    ('finish lands a batch of an earlier scan', TWO, f'{WALKED}; hold 0 10; stop; scrub; sync; finish; land',
     f'{WALKED_OUT}; hold 0 3 296 304 312; queued 5 1; queued 5 2; sync 5; task 1 ok; task 2 ok; sync 6; finished scrub 3 0; land 0'),
    ('a piece in two batches', TIGHT, f'{WALKED}; hold 0 10; stop; scrub; sync; walk 100; hold 0 1; write a 1 0 6; sync; write a 1 0 7; land;'
     'write a 1 0 7; sync; scrub; sync; finish',
     f'{WALKED_OUT}; hold 0 3 296 304 312; queued 5 1; queued 5 2; sync 5; task 1 ok; task 2 ok; walk 7 nothing waiting 3; hold 0 1 296;'
     'wrote a 1 0 6; sync 6; refused NoSpace; land 0 0/296:- 0/304:- 0/312:- 0/296:-; wrote a 1 0 7; sync 7; finished scrub 0 0;'
     'queued 8 1; sync 8; task 1 ok; sync 9; finished scrub 3 0'),
    ('a batch of a scrub that was stopped keeps its space', TIGHT, f'{WALKED}; hold 0 1; stop; write a 1 0 6; sync; write a 1 0 7; land;'
     'write a 1 0 7',
     f'{WALKED_OUT}; hold 0 1 296; queued 5 1; wrote a 1 0 5; sync 5; task 1 ok; refused NoSpace; land 0 0/296:-; wrote a 1 0 6'),
]
# what is cached of a scan, as in the other examples
KEPT = [('a snapshot destroyed between records', f'{AGED}; issue 0 10; sync; walk 1; destroy a@s; sync',
         'scanning 3; at a 1.1.0.3 pass 1 4 again; todo')]
# what the script of two numbers prints of a scan
GENERATED = [((7, 15), 'sync 12; finished scrub 91 0; txg 13; scan scrub finished checked 91 errors 0 waiting 0 flight 0')]
REALISTIC = [((7, 20000), 'walk 515 full waiting 252 260; sync 12; finished scrub 20386 0; txg 13;'
                          'scan scrub finished checked 20386 errors 0 waiting 0 flight 0')]


def bytes_hold(images):
    """Of a pool of two mirrors of one device, whose object 1 has two levels and the records 0 and 2."""
    at = lambda v, sector, n=8: bytes(images[v][sector*512:(sector+n)*512])
    where = lambda p: (p[0], p[1], int.from_bytes(p[2:4], 'big'), int.from_bytes(p[8:16], 'big'), p[16], int.from_bytes(p[17:21], 'big'))
    root, dnodes, top = at(0, 296), at(0, 304), at(1, 296)
    return (where(root[:64]) == (1, 0, 8, 3, 0, 304) and not any(root[64:])
            and dnodes[128:130] == bytes([2, 9]) and not any(dnodes[130:192]) and where(dnodes[192:256]) == (1, 1, 8, 3, 1, 296)
            and not any(dnodes[:128]) and not any(dnodes[256:])
            and where(top[:64]) == (1, 0, 1, 3, 1, 304) and not any(top[64:128]) and where(top[128:192]) == (1, 0, 1, 3, 1, 305)
            and not any(top[192:]) and at(1, 305, 1) == (6).to_bytes(8, 'big')*64)


BYTES = 'pool 7 1 8 4 64; fs a; sync; make a 1 2 512 5; write a 1 2 6; sync'
