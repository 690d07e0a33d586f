"""Worked examples: a script and what it prints, and what stands in the cached state after it."""
import itertools
import generated, spaced
from pool import answer, run

B7 = 'pool 7 2 8 4 64; fs a; sync; make a 1 1 512 5; sync'
B1 = B7.replace('pool 7 2 8 4', 'pool 7 2 1 4')
E1, E2 = (B7.replace('pool 7 2 8 4', 'pool 7 2 8 %d' % every) for every in (1, 2))  # with a checkpoint due after so many txgs
B_OUT = 'pool 7 mirrors 1 txg 1; queued 2 1; sync 2; task 1 ok; wrote a 1 0 3; sync 3'
FS, FS_OUT = 'pool 7 2 8 4 64; fs a; sync', 'pool 7 mirrors 1 txg 1; queued 2 1; sync 2; task 1 ok'
MANY = '; '.join('fs n%d' % i for i in range(254))
START, START_OUT = 'scrub; sync', 'queued 4 1; sync 4; task 1 ok'
ROWS = [
    ('a scrub of nothing', 512, 'pool 7 2 8 4 64; scrub; sync; finish; status',
     'pool 7 mirrors 1 txg 1; queued 2 1; sync 2; task 1 ok; sync 3; finished scrub 0 0; txg 4;'
     'scan scrub finished checked 0 errors 0 waiting 0 flight 0'),
    ('a finish and a read', 512, f'{B7}; {START}; finish; read a 1 0',
     f'{B_OUT}; {START_OUT}; sync 5; finished scrub 3 0; read a 1 0 0000000000000005'),
    ('walk, issue, sync', 512, f'{B7}; {START}; walk 100; issue 0 10; sync',
     f'{B_OUT}; {START_OUT}; walk 7 nothing waiting 3; issue 0 3 296:GG 304:GG 312:GG; sync 5; finished scrub 3 0'),
    ('a record of the scrub\'s own group', 512, f'{B7}; scrub; make a 2 1 512 8; sync; walk 100; issue 0 10; sync',
     f'{B_OUT}; queued 4 1; wrote a 2 0 4; sync 4; task 1 ok; walk 8 nothing waiting 1; issue 0 1 312:GG; sync 5;'
     'finished scrub 1 0'),
    ('a full queue', 512, f'{B1}; {START}; walk 100; issue 0 10; walk 100; issue 0 10; walk 100',
     f'{B_OUT}; {START_OUT}; walk 4 full waiting 1; issue 0 1 296:GG; walk 1 full waiting 1; issue 0 1 304:GG;'
     'walk 2 nothing waiting 1'),
    ('refusals', 512, f'{B7}; write a 1 1 6; make a 1 1 512 6; write z 1 0 6; write a 2 0 6',
     f'{B_OUT}; refused PastEnd; refused ObjectThere; refused NoDataset; refused NoObject'),
    ('an unknown word', 512, 'pool 7 2 8 4 64; wri a', 'script 2 Word'),
    ('a width out of range', 512, 'pool 7 5 8 4 64', 'script 1 Number'),
    ('status', 512, f'{B7}; status; {START}; status; walk 1; status; walk 1; status; walk 3; status; hold 0 1; write a 1 0 6;'
     'sync; status; finish; status',
     f'{B_OUT}; txg 4; scan none; {START_OUT};'
     'txg 5; scan scrub scanning checked 0 errors 0 waiting 0 flight 0; range 0 4; at none; todo $origin:0; walk 1 more waiting 0;'
     'txg 5; scan scrub scanning checked 0 errors 0 waiting 0 flight 0; range 0 4; at $origin 0.0.0.0 pass 0 1; todo;'
     'walk 1 more waiting 0;'
     'txg 5; scan scrub scanning checked 0 errors 0 waiting 0 flight 0; range 0 4; at none; todo a:1; walk 3 more waiting 2;'
     'txg 5; scan scrub scanning checked 0 errors 0 waiting 2 flight 0; range 0 4; at a 0.0.0.2 pass 1 4; todo; hold 0 1 296;'
     'wrote a 1 0 5; sync 5;'
     'txg 6; scan scrub scanning checked 0 errors 0 waiting 0 flight 0; range 0 4; at a 0.0.0.2 pass 1 4; todo;'
     'sync 6; finished scrub 0 0; txg 7; scan scrub finished checked 0 errors 0 waiting 0 flight 0'),
    ('a copy that is rewritten', 512, f'{B7}; rot 1 312 1; {START}; walk 100; issue 0 10; sync; errors; scrub; sync; walk 100; issue 0 10',
     f'{B_OUT}; rot 1 312 1; {START_OUT}; walk 7 nothing waiting 3; issue 0 3 296:GG 304:GG 312:GR; sync 5; finished scrub 3 0;'
     'errors 0; queued 6 1; sync 6; task 1 ok; walk 7 nothing waiting 3; issue 0 3 296:GG 304:GG 312:GG'),
    ('no good copy', 512, f'{B7}; rot 0 312 1; rot 1 312 1; {START}; finish; errors; read a 1 0; status',
     f'{B_OUT}; rot 0 312 1; rot 1 312 1; {START_OUT}; sync 5; finished scrub 3 1; errors 1; error 0 312 3 BB; refused ReadLost;'
     'txg 6; scan scrub finished checked 3 errors 1 waiting 0 flight 0'),
    ('rot twice restores', 512, f'{B7}; rot 0 304 8; rot 1 296 17; rot 0 304 8; rot 1 312 1; rot 1 296 16; {START}; finish; errors',
     f'{B_OUT}; rot 0 304 8; rot 1 296 17; rot 0 304 8; rot 1 312 1; rot 1 296 16; {START_OUT}; sync 5; finished scrub 3 0; errors 0'),
    ('a lost record that is restored', 512, f'{B7}; rot 0 312 1; rot 1 312 1; {START}; finish; read a 1 0; rot 0 312 1; read a 1 0;'
     'errors; scrub; errors; sync; errors; finish; read a 1 0',
     f'{B_OUT}; rot 0 312 1; rot 1 312 1; {START_OUT}; sync 5; finished scrub 3 1; refused ReadLost; rot 0 312 1;'
     'read a 1 0 0000000000000005; errors 1; error 0 312 3 BB; queued 6 1; errors 1; error 0 312 3 BB; sync 6; task 1 ok; errors 0;'
     'sync 7; finished scrub 3 0; read a 1 0 0000000000000005'),
    ('a freed piece is rewritten, too', 512, f'{B7}; {START}; walk 100; hold 0 10; write a 1 0 6; sync; rot 1 304 9; land; errors; finish',
     f'{B_OUT}; {START_OUT}; walk 7 nothing waiting 3; hold 0 3 296 304 312; wrote a 1 0 5; sync 5; rot 1 304 9;'
     'land 0 0/296:- 0/304:- 0/312:-; errors 0; sync 6; finished scrub 0 0'),
    ('the space of a device', 512, f'{B7}; rot 1 295 1; rot 1 295 2; rot 1 512 1; rot 1 511 2; rot 2 0 1; rot 255 296 1; rot 1 296 216;'
     'rot 1 296 217; rot 1 296 216; errors',
     f'{B_OUT}; refused OutOfRange; refused OutOfRange; refused OutOfRange; refused OutOfRange; refused NoDevice; refused NoDevice;'
     'rot 1 296 216; refused OutOfRange; rot 1 296 216; errors 0'),
    ('a sync writes over rot', 512, 'pool 7 2 8 4 64; rot 0 296 20; fs a; sync; make a 1 1 512 5; rot 1 296 20; sync; read a 1 0; scrub; sync;'
     'walk 100; issue 0 10; rot 0 313 3; rot 1 313 3',
     'pool 7 mirrors 1 txg 1; rot 0 296 20; queued 2 1; sync 2; task 1 ok; wrote a 1 0 3; rot 1 296 20; sync 3;'
     f'read a 1 0 0000000000000005; {START_OUT}; walk 7 nothing waiting 3; issue 0 3 296:GG 304:GG 312:GG; rot 0 313 3; rot 1 313 3'),
    ('rot out of its range', 512, f'{B7}; rot 1 2097152 1', 'script 6 Number'),
    ('more where no turn is left', 512, f'{B7}; {START}; walk 7; walk 1',
     f'{B_OUT}; {START_OUT}; walk 7 more waiting 3; walk 0 nothing waiting 3'),
    ('two snapshots of one group', 512, f'{FS}; snap a s; snap a t; sync; snap a t; sync',
     f'{FS_OUT}; queued 3 1; queued 3 2; sync 3; task 1 ok; task 2 refused SameTxg; queued 4 1; sync 4; task 1 ok'),
    ('a list', 512, f'{FS}; make a 1 1 512 5; snap a s; clone a@s b; sync; list',
     f'{FS_OUT}; wrote a 1 0 3; queued 3 1; queued 3 2; sync 3; task 1 ok; task 2 ok;'
     'ds $origin 1 0; ds a 0 3; ds a@s 3 3; ds b 0 3'),
    ('clones and snapshots in the way', 512, f'{B7}; snap a s; clone a@s b; sync; destroy a@s; destroy a; sync',
     f'{B_OUT}; queued 4 1; queued 4 2; sync 4; task 1 ok; task 2 ok; queued 5 1; queued 5 2; sync 5; task 1 refused HasClones;'
     'task 2 refused HasSnapshots'),
    ('two snapshots destroyed under the walk', 512, f'{FS}; make a 1 1 512 10; snap a s1; sync; write a 1 0 11; snap a s2; sync;'
     'write a 1 0 12; sync; scrub; sync; walk 4; destroy a@s1; destroy a@s2; snap a s3; sync; status; walk 100; issue 0 10; sync',
     f'{FS_OUT}; wrote a 1 0 3; queued 3 1; sync 3; task 1 ok; wrote a 1 0 4; queued 4 1; sync 4; task 1 ok;'
     'wrote a 1 0 5; sync 5; queued 6 1; sync 6; task 1 ok; walk 4 more waiting 1; queued 7 1; queued 7 2; queued 7 3; sync 7;'
     'task 1 ok; task 2 ok; task 3 ok; txg 8; scan scrub scanning checked 0 errors 0 waiting 0 flight 0; range 0 6;'
     'at a@s3 0.0.0.1 pass 1 3 again; todo; walk 9 nothing waiting 3; issue 0 3 330:GG 338:GG 346:GG; sync 8; finished scrub 3 0'),
    ('a snapshot taken under the walk', 512,
     f'{B7}; {START}; walk 4; snap a s; sync; write a 1 0 11; sync; walk 100; issue 0 10; sync',
     f'{B_OUT}; {START_OUT}; walk 4 more waiting 1; queued 5 1; sync 5; task 1 ok; wrote a 1 0 6; sync 6; walk 4 nothing waiting 3;'
     'issue 0 3 296:GG 304:GG 312:GG; sync 7; finished scrub 3 0'),
    ('a swap under the walk', 512, f'{FS.replace("7 2 8", "7 2 16")}; make a 1 1 512 10; snap a s; clone a@s b; sync; write a 1 0 11;'
     'write b 1 0 12; sync; scrub; sync; walk 9; status; swap a b; sync; status; walk 100; issue 0 16; sync',
     f'{FS_OUT}; wrote a 1 0 3; queued 3 1; queued 3 2; sync 3; task 1 ok; task 2 ok; wrote a 1 0 4; wrote b 1 0 4; sync 4;'
     'queued 5 1; sync 5; task 1 ok; walk 9 more waiting 4; txg 6; scan scrub scanning checked 0 errors 0 waiting 4 flight 0;'
     'range 0 5; at a 0.0.0.1 pass 3 5; todo b:3; queued 6 1; sync 6; task 1 ok; txg 7;'
     'scan scrub scanning checked 0 errors 0 waiting 4 flight 0; range 0 5; at b 0.0.0.1 pass 3 5; todo a:3;'
     'walk 8 nothing waiting 9; issue 0 9 296:GG 304:GG 312:GG 313:GG 321:GG 329:GG 330:GG 338:GG 346:GG; sync 7; finished scrub 9 0'),
    ('a head destroyed under the walk', 512, f'pool 7 2 8 4 64; fs a; fs b; sync; make a 1 1 512 10; make b 1 1 512 11; sync; scrub; sync;'
     'walk 4; destroy a; sync; status; walk 100; issue 0 10; sync',
     'pool 7 mirrors 1 txg 1; queued 2 1; queued 2 2; sync 2; task 1 ok; task 2 ok; wrote a 1 0 3; wrote b 1 0 3; sync 3;'
     f'{START_OUT}; walk 4 more waiting 1; queued 5 1; sync 5; task 1 ok; txg 6; scan scrub scanning checked 0 errors 0 waiting 0 flight 0;'
     'range 0 4; at destroyed; todo b:1; walk 6 nothing waiting 3; issue 0 3 313:GG 321:GG 329:GG; sync 6; finished scrub 3 0'),
    ('refusals of the tasks', 512, f'{B7}; fs a; fs b; snap z s; snap a s; clone a@z c; clone z a; clone a@s a; clone b a; clone b c; clone a@s c;'
     'destroy z; destroy a@z; destroy a@s; destroy a; swap a z; swap z z; swap a a; swap a b; swap a c; swap c a; sync;'
     'snap a s; snap a t; destroy c; destroy a; sync; swap a b; destroy a@t; destroy a@s; destroy a; destroy a; swap b a; sync; list',
     f'{B_OUT}; ' + '; '.join('queued 4 %d' % k for k in range(1, 21)) + '; sync 4; task 1 refused Exists; task 2 ok;'
     'task 3 refused NoDataset; task 4 ok; task 5 refused NoDataset; task 6 refused NoDataset; task 7 refused Exists;'
     'task 8 refused Exists; task 9 refused NotSnapshot; task 10 ok; task 11 refused NoDataset; task 12 refused NoDataset;'
     'task 13 refused HasClones; task 14 refused HasSnapshots; task 15 refused NoDataset; task 16 refused NoDataset;'
     'task 17 refused NotSiblings; task 18 refused NotSiblings; task 19 ok; task 20 ok;'
     'queued 5 1; queued 5 2; queued 5 3; queued 5 4; sync 5; task 1 refused Exists; task 2 ok; task 3 ok; task 4 refused HasSnapshots;'
     'queued 6 1; queued 6 2; queued 6 3; queued 6 4; queued 6 5; queued 6 6; sync 6; task 1 refused NotSiblings; task 2 ok; task 3 ok;'
     'task 4 ok; task 5 refused NoDataset; task 6 refused NoDataset; ds $origin 1 0; ds b 0 0'),
    ('records of snapshots', 512, f'{B7}; snap a s; make a@s 1 1 512 6; sync; make a@s 1 1 512 6; write a@s 7 7 6; write a 1 0 6; read a@s 1 0;'
     'sync; read a@s 1 0; read a 1 0; read a@s 2 0; read a@s 1 1; read a@t 1 0; clone a@s b; sync; read b 1 0; write b 1 0 8;'
     'read b 1 0; destroy a@s; destroy a; sync; read a 1 0; read b 1 0; write a@s 1 0 6',
     f'{B_OUT}; queued 4 1; refused NoDataset; sync 4; task 1 ok; refused NotHead; refused NotHead; wrote a 1 0 5;'
     'read a@s 1 0 0000000000000005; sync 5; read a@s 1 0 0000000000000005; read a 1 0 0000000000000006; refused NoObject;'
     'refused PastEnd; refused NoDataset; queued 6 1; sync 6; task 1 ok; read b 1 0 0000000000000005; wrote b 1 0 7;'
     'read b 1 0 0000000000000008; queued 7 1; queued 7 2; sync 7; task 1 refused HasClones; task 2 refused HasSnapshots;'
     'read a 1 0 0000000000000006; read b 1 0 0000000000000008; refused NotHead'),
    ('a swap of what waits in todo', 700, f'{FS}; make a 1 1 512 10; snap a s; clone a@s b; clone a@s c; sync; write b 1 0 1; write c 1 0 2; sync;'
     'scrub; sync; walk 8; status; swap b c; fs d; sync; status; swap a c; swap a d; sync; status',
     f'{FS_OUT}; wrote a 1 0 3; queued 3 1; queued 3 2; queued 3 3; sync 3; task 1 ok; task 2 ok; task 3 ok; wrote b 1 0 4; wrote c 1 0 4;'
     'sync 4; queued 5 1; sync 5; task 1 ok; walk 8 more waiting 3; txg 6; scan scrub scanning checked 0 errors 0 waiting 3 flight 0;'
     'range 0 5; at a 0.0.0.0 pass 3 5; todo b:3 c:3; queued 6 1; queued 6 2; sync 6; task 1 ok; task 2 ok; txg 7;'
     'scan scrub scanning checked 0 errors 0 waiting 3 flight 0; range 0 5; at a 0.0.0.0 pass 3 5; todo c:3 b:3;'
     'queued 7 1; queued 7 2; sync 7; task 1 ok; task 2 refused NotSiblings; txg 8;'
     'scan scrub scanning checked 0 errors 0 waiting 3 flight 0; range 0 5; at c 0.0.0.0 pass 3 5; todo a:3 b:3'),
    ('ids are never given again', 512, 'pool 7 2 8 4 64; fs a; fs b; destroy a; fs a; sync; scrub; sync; walk 3; status; list',
     'pool 7 mirrors 1 txg 1; queued 2 1; queued 2 2; queued 2 3; queued 2 4; sync 2; task 1 ok; task 2 ok; task 3 ok; task 4 ok;'
     'queued 3 1; sync 3; task 1 ok; walk 3 more waiting 0; txg 4; scan scrub scanning checked 0 errors 0 waiting 0 flight 0;'
     'range 0 3; at b 0.0.0.0 pass 1 3; todo a:1; ds $origin 1 0; ds b 0 0; ds a 0 0'),
    ('snapshots that come and go in one group', 512, f'{FS}; make a 1 1 512 5; snap a s; clone a@s b; snap b t; snap a t; destroy b; destroy a@s;'
     'snap a s; snap a t; sync; list',
     f'{FS_OUT}; wrote a 1 0 3; ' + '; '.join('queued 3 %d' % k for k in range(1, 9)) + '; sync 3; task 1 ok; task 2 ok; task 3 refused SameTxg;'
     'task 4 refused SameTxg; task 5 ok; task 6 ok; task 7 ok; task 8 refused SameTxg; ds $origin 1 0; ds a 0 3; ds a@s 3 3'),
    ('the most datasets', 512, f'pool 7 2 8 4 64; {MANY}; fs z; fs n7; snap n1 s; destroy n9; snap n1 s; snap n1 t; sync',
     'pool 7 mirrors 1 txg 1; ' + '; '.join('queued 2 %d' % k for k in range(1, 261)) + '; sync 2; '
     + '; '.join('task %d ok' % k for k in range(1, 255)) + '; task 255 refused TooMany; task 256 refused Exists;'
     'task 257 refused TooMany; task 258 ok; task 259 ok; task 260 refused SameTxg'),
    ('a snapshot destroyed while it waits in todo', 512, f'{FS}; make a 1 1 512 10; snap a s; sync; write a 1 0 11; sync; scrub; sync; walk 2;'
     'status; destroy a@s; sync; status; walk 100; issue 0 10; sync',
     f'{FS_OUT}; wrote a 1 0 3; queued 3 1; sync 3; task 1 ok; wrote a 1 0 4; sync 4; queued 5 1; sync 5; task 1 ok; walk 2 more waiting 0;'
     'txg 6; scan scrub scanning checked 0 errors 0 waiting 0 flight 0; range 0 5; at none; todo a@s:1; queued 6 1; sync 6; task 1 ok;'
     'txg 7; scan scrub scanning checked 0 errors 0 waiting 0 flight 0; range 0 5; at none; todo a:1;'
     'walk 5 nothing waiting 3; issue 0 3 313:GG 321:GG 329:GG; sync 7; finished scrub 3 0'),
    ('the one head destroyed under the walk', 512, f'{B7}; {START}; walk 4; destroy a; sync; sync; status; walk 9; sync; list',
     f'{B_OUT}; {START_OUT}; walk 4 more waiting 1; queued 5 1; sync 5; task 1 ok; sync 6; txg 7;'
     'scan scrub scanning checked 0 errors 0 waiting 0 flight 0; range 0 4; at destroyed; todo; walk 1 nothing waiting 0; sync 7;'
     'finished scrub 0 0; ds $origin 1 0'),
    ('a clone destroyed in flight', 512, f'{FS}; make a 1 1 512 10; snap a s; clone a@s b; sync; write b 1 0 11; sync; scrub; sync; walk 100;'
     'hold 0 4; destroy b; sync; status; land; sync',
     f'{FS_OUT}; wrote a 1 0 3; queued 3 1; queued 3 2; sync 3; task 1 ok; task 2 ok; wrote b 1 0 4; sync 4; queued 5 1; sync 5; task 1 ok;'
     'walk 14 nothing waiting 6; hold 0 4 296 304 312 313; queued 6 1; sync 6; task 1 ok; txg 7;'
     'scan scrub scanning checked 0 errors 0 waiting 0 flight 3; range 0 5; at none; todo;'
     'land 3 0/296:GG 0/304:GG 0/312:GG 0/313:-; sync 7; finished scrub 3 0'),
]

# these are for one mirror, of which no place is given again
FLAT = [
    ('freed pieces in flight', 330,
     f'{B7}; {START}; walk 100; hold 0 10; write a 1 0 6; sync; write a 1 0 7; land; write a 1 0 7; sync',
     f'{B_OUT}; {START_OUT}; walk 7 nothing waiting 3; hold 0 3 296 304 312; wrote a 1 0 5; sync 5; refused NoSpace;'
     'land 0 0/296:- 0/304:- 0/312:-; refused NoSpace; sync 6; finished scrub 0 0'),
    ('no scan', 512, 'pool 7 2 8 4 64; walk 5; issue 3 7; hold 0 2; land; finish; status',
     'pool 7 mirrors 1 txg 1; walk 0 nothing waiting 0; issue 3 0; hold 0 0; land 0; refused NoScan; txg 2; scan none'),
]
# these have a checkpoint that is due, or the tasks on a scan that runs
HALTING = [
    ('a paused scrub', 512, f'{B7}; {START}; pause; sync; walk 10; finish; scrub; sync; status; finish',
     f'{B_OUT}; {START_OUT}; queued 5 1; sync 5; task 1 ok; walk 0 nothing waiting 0; refused Paused; queued 6 1; sync 6; task 1 ok;'
     'txg 7; scan scrub scanning checked 0 errors 0 waiting 0 flight 0; range 0 4; at none; todo $origin:0; sync 7;'
     'finished scrub 3 0'),
    ('a checkpoint that is due', 512, f'{E1}; {START}; walk 4; sync; walk 10; issue 0 1; walk 10; sync; walk 10',
     f'{B_OUT}; {START_OUT}; walk 4 more waiting 1; sync 5; walk 0 draining waiting 1; issue 0 1 296:GG; walk 0 draining waiting 0;'
     'sync 6; walk 3 nothing waiting 2'),
    ('draining goes before full', 512, f'{E1.replace("2 8 1", "2 1 1")}; {START}; walk 100; sync; walk 100; issue 0 1; sync; walk 100',
     f'{B_OUT}; {START_OUT}; walk 4 full waiting 1; sync 5; walk 0 draining waiting 1; issue 0 1 296:GG; sync 6;'
     'walk 1 full waiting 1'),
    ('nothing goes before draining', 512, f'{E1}; {START}; walk 100; sync; walk 1; hold 0 10; sync; walk 1; land; sync',
     f'{B_OUT}; {START_OUT}; walk 7 nothing waiting 3; sync 5; walk 0 nothing waiting 3; hold 0 3 296 304 312; sync 6;'
     'walk 0 nothing waiting 0; land 3 0/296:GG 0/304:GG 0/312:GG; sync 7; finished scrub 3 0'),
    ('a turn that skips or enters drains, too', 512, f'{E1}; {START}; walk 4; destroy a; fs b; hold 0 1; sync; walk 1; land; sync; walk 1;'
     'walk 9',
     f'{B_OUT}; {START_OUT}; walk 4 more waiting 1; queued 5 1; queued 5 2; hold 0 1 296; sync 5; task 1 ok; task 2 ok;'
     'walk 0 draining waiting 0; land 0 0/296:-; sync 6; walk 1 more waiting 0; walk 0 nothing waiting 0'),
    ('checkpoints before they are due, and a pause while one is', 512, f'{E2}; {START}; sync; walk 4; sync; walk 1; sync; walk 1; pause; sync;'
     'walk 1; resume; sync; walk 1; issue 0 2; walk 1; sync; walk 1',
     f'{B_OUT}; {START_OUT}; sync 5; walk 4 more waiting 1; sync 6; walk 1 more waiting 2; sync 7; walk 0 draining waiting 2;'
     'queued 8 1; sync 8; task 1 ok; walk 0 nothing waiting 2; queued 9 1; sync 9; task 1 ok; walk 0 draining waiting 2;'
     'issue 0 2 296:GG 304:GG; walk 0 draining waiting 0; sync 10; walk 1 more waiting 1'),
    ('a checkpoint of a paused scrub', 512, f'{E1}; {START}; walk 4; pause; issue 0 1; sync; resume; sync; walk 1; sync; walk 1',
     f'{B_OUT}; {START_OUT}; walk 4 more waiting 1; queued 5 1; issue 0 1 296:GG; sync 5; task 1 ok; queued 6 1; sync 6; task 1 ok;'
     'walk 1 more waiting 1; sync 7; walk 0 draining waiting 1'),
    ('a finish over a checkpoint', 512, f'{E1}; {START}; walk 4; sync; finish; status',
     f'{B_OUT}; {START_OUT}; walk 4 more waiting 1; sync 5; sync 6; sync 7; finished scrub 3 0; txg 8;'
     'scan scrub finished checked 3 errors 0 waiting 0 flight 0'),
    ('a finish of a scrub that a task pauses', 512, f'{B7}; {START}; pause; finish; status; resume; sync',
     f'{B_OUT}; {START_OUT}; queued 5 1; sync 5; task 1 ok; txg 6; scan scrub paused checked 3 errors 0 waiting 0 flight 0;'
     'range 0 4; at none; todo; queued 6 1; sync 6; task 1 ok; finished scrub 3 0'),
    ('a finish of a scrub that another follows', 512, f'{B7}; {START}; stop; scrub; finish',
     f'{B_OUT}; {START_OUT}; queued 5 1; queued 5 2; sync 5; task 1 ok; task 2 ok; sync 6; finished scrub 3 0'),
    ('refusals of pause, resume, stop and scrub', 512, f'{B7}; pause; resume; stop; sync; scrub; resume; pause; pause; resume; resume; scrub;'
     'pause; scrub; stop; stop; pause; resume; scrub; pause; stop; sync; status; finish',
     f'{B_OUT}; queued 4 1; queued 4 2; queued 4 3; sync 4; task 1 refused NoScan; task 2 refused NotPaused; task 3 refused NoScan; '
     + '; '.join('queued 5 %d' % k for k in range(1, 17)) + '; sync 5; task 1 ok; task 2 refused NotPaused; task 3 ok;'
     'task 4 refused Paused; task 5 ok; task 6 refused NotPaused; task 7 refused ScanBusy; task 8 ok; task 9 ok; task 10 ok;'
     'task 11 refused NoScan; task 12 refused NoScan; task 13 refused NotPaused; task 14 ok; task 15 ok; task 16 ok; txg 6;'
     'scan scrub canceled checked 0 errors 0 waiting 0 flight 0; refused NoScan'),
    ('a paused scrub keeps what waits, and its range and ledger', 512, f'{B7}; {START}; walk 5; pause; sync; walk 9; status; issue 0 1; hold 0 1;'
     'sync; land; make a 2 1 512 6; scrub; sync; status; finish',
     f'{B_OUT}; {START_OUT}; walk 5 more waiting 2; queued 5 1; sync 5; task 1 ok; walk 0 nothing waiting 2; txg 6;'
     'scan scrub paused checked 0 errors 0 waiting 2 flight 0; range 0 4; at a 0.0.0.2 pass 1 4; todo; issue 0 1 296:GG;'
     'hold 0 1 304; sync 6; land 1 0/304:GG; wrote a 2 0 7; queued 7 1; sync 7; task 1 ok; txg 8;'
     'scan scrub scanning checked 2 errors 0 waiting 0 flight 0; range 0 4; at a 0.0.0.2 pass 1 4; todo; sync 8; finished scrub 3 0'),
    ('a batch of a scrub that was stopped', 512, f'{B7}; {START}; walk 100; issue 0 1; hold 0 1; stop; sync; status; scrub; sync; walk 100;'
     'issue 0 10; sync; land; sync',
     f'{B_OUT}; {START_OUT}; walk 7 nothing waiting 3; issue 0 1 296:GG; hold 0 1 304; queued 5 1; sync 5; task 1 ok; txg 6;'
     'scan scrub canceled checked 1 errors 0 waiting 0 flight 0; queued 6 1; sync 6; task 1 ok; walk 7 nothing waiting 3;'
     'issue 0 3 296:GG 304:GG 312:GG; sync 7; land 0 0/304:-; sync 8; finished scrub 3 0'),
    ('draining until a batch of a scrub that was stopped lands', 512, f'{E1}; {START}; walk 4; hold 0 1; stop; scrub; sync; walk 1; sync; walk 1;'
     'sync; walk 1; land; sync; walk 3',
     f'{B_OUT}; {START_OUT}; walk 4 more waiting 1; hold 0 1 296; queued 5 1; queued 5 2; sync 5; task 1 ok; task 2 ok;'
     'walk 1 more waiting 0; sync 6; walk 0 draining waiting 0; sync 7; walk 0 draining waiting 0; land 0 0/296:-; sync 8;'
     'walk 3 more waiting 1'),
    ('the errors of a scrub that was stopped', 512, f'{B7}; rot 0 312 1; rot 1 312 1; {START}; walk 100; issue 0 10; stop; sync; errors; status',
     f'{B_OUT}; rot 0 312 1; rot 1 312 1; {START_OUT}; walk 7 nothing waiting 3; issue 0 3 296:GG 304:GG 312:BB; queued 5 1; sync 5;'
     'task 1 ok; errors 1; error 0 312 3 BB; txg 6; scan scrub canceled checked 3 errors 1 waiting 0 flight 0'),
    ('a word after pause', 512, 'pool 7 2 8 4 64; pause x', 'script 2 Count'),
    ('a word after scrub', 512, 'pool 7 2 8 4 64; scrub x', 'script 2 Word'),
]
# what an opening would go on from: the state, how many entries of the ledger, where the walk is, and todo
AT, CHECKPOINT = f'{B7}; {START}; walk 4', 'issue 0 10; sync'
TWO = 'pool 7 2 16 4 64; fs a; sync; make a 1 1 512 10; snap a s; clone a@s b; sync; write a 1 0 11; write b 1 0 12; sync; scrub; sync'
OLD = f'{FS}; make a 1 1 512 10; snap a s; sync; write a 1 0 11; sync; scrub; sync'
KEPT = [
    ('a scrub that starts', f'{B7}; {START}; walk 100', 'scanning 0; at none; todo $origin:0'),
    ('a checkpoint in mid-walk', f'{AT}; {CHECKPOINT}; walk 1; issue 0 10', 'scanning 1; at a 0.0.0.1 pass 1 4; todo'),
    ('a checkpoint that pieces wait for', f'{AT}; sync', 'scanning 0; at none; todo $origin:0'),
    ('a checkpoint that a batch is in flight for', f'{AT}; hold 0 1; sync', 'scanning 0; at none; todo $origin:0'),
    ('a snapshot destroyed after the checkpoint', f'{OLD}; walk 6; {CHECKPOINT}; walk 3; destroy a@s; sync',
     'scanning 3; at a 1.1.0.4 pass 1 3 again; todo'),
    ('a snapshot destroyed that waits in todo', f'{OLD}; walk 2; sync; walk 4; hold 0 1; destroy a@s; sync', 'scanning 0; at none; todo a:1'),
    ('a snapshot taken after the checkpoint', f'{AT}; {CHECKPOINT}; walk 3; snap a s; sync', 'scanning 1; at a@s 0.0.0.1 pass 1 4; todo'),
    ('a head destroyed after the checkpoint', f'{AT}; {CHECKPOINT}; walk 3; hold 0 1; destroy a; sync', 'scanning 1; at destroyed; todo'),
    ('a swap after the checkpoint', f'{TWO}; walk 8; {CHECKPOINT}; walk 6; swap a b; sync', 'scanning 3; at b 0.0.0.0 pass 3 5; todo a:3'),
    ('a pause after the checkpoint', f'{AT}; {CHECKPOINT}; walk 1; pause; sync', 'paused 1; at a 0.0.0.1 pass 1 4; todo'),
    ('a pause and a scrub after the checkpoint', f'{AT}; {CHECKPOINT}; walk 1; pause; scrub; sync', 'scanning 1; at a 0.0.0.1 pass 1 4; todo'),
    ('a stop', f'{AT}; {CHECKPOINT}; walk 2; issue 0 1; stop; sync', 'canceled 2; at none; todo'),
    ('a scrub after a stop', f'{AT}; issue 0 1; walk 1; hold 0 1; stop; scrub; sync', 'scanning 0; at none; todo $origin:0'),
    ('a scrub that finished', f'{B7}; {START}; finish', 'finished 3; at none; todo'),
]


def split(s): return [l.strip() for l in s.split(';')]
def ran(script, devices, checkpoints, space):
    """Status, the lines that were printed, and the pool; devices are their sectors."""
    imgs = [bytearray(sectors*512) for sectors in devices]
    st, out, pool = answer(['step']+['x']*len(imgs), ('\n'.join(split(script))+'\n').encode(), imgs, True, checkpoints, space)
    return st, out.decode().split('\n')[:-1], pool


def mirrored(pool):
    """Both devices of the one mirror have the same bytes."""
    return pool is None or pool.images[0] == pool.images[1]


def kept(pool):
    scan, state = pool.scan, pool.scan.kept
    return ['%s %d' % ('paused' if state.paused else state.status, scan.stored)]+pool.place(state).decode().split('\n')[:-1]


def holds(name, got, want, so_far=True):
    """Prints whether an example holds, and where it does not."""
    ok = got == want and so_far
    print('example', name, 'holds' if ok else 'FAILS')
    if not ok:
        for a, b in itertools.zip_longest(want, got, fillvalue='-'): print('   ' if a == b else '***', a, '|', b)
    return ok


def rows(realistic):
    """Each example with checkpoints, and with levels, mirrors and space that is given again; those that need none of it also without.
    The realistic one takes some seconds."""
    oks = [run([], b'', []) == (1, b'usage\n')]
    for modes, examples in (([(0, 0), (1, 0), (1, 1)], ROWS), ([(0, 0), (1, 0)], FLAT), ([(1, 0), (1, 1)], HALTING)):
        for name, sectors, script, want in examples:
            for checkpoints, space in modes:
                st, got, pool = ran(script, [sectors]*2, checkpoints, space)
                oks.append(holds(name, got, split(want), mirrored(pool) and st == (2 if want.startswith('script') else 0)))
    for name, devices, script, want in spaced.ROWS:
        st, got, _ = ran(script, devices, True, True)
        oks.append(holds('of space: '+name, got, split(want), st == (3 if want.endswith('Shape') else 0)))
    oks.append(holds('of space: the bytes of blocks', [], [], spaced.bytes_hold(ran(spaced.BYTES, [512]*2, True, True)[2].images)))
    for space, examples in ((False, KEPT), (True, KEPT+spaced.KEPT)):
        for name, script, want in examples:
            oks.append(holds('of what is cached: '+name, kept(ran(script, [512]*2, True, space)[2]), split(want)))
    for numbers, want in spaced.GENERATED + (spaced.REALISTIC if realistic else []):
        got = generated.replies(*numbers)
        oks.append(holds('of the script of %d and %d' % numbers, [l for l in got if l.startswith('walk')][:want.count('walk')]+got[-4:], split(want)))
    assert all(oks), '%d examples fail' % oks.count(False)
    print('all examples hold')
