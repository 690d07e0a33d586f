"""Objects: the keys of their blocks, which block stands above which, and the bytes of blocks and pointers.

A key is (object, rank, leaf, depth). An object of L levels has its top block at depth 4-L, and its records at depth 3."""
ROOT = (0, 0, 0, 0)
WAY = 64                # pointers in a root or an indirect block
IN_DNODE_BLOCK = 32     # objects in a dnode block
LEVELS = (1, 2, 3, 4)
METADATA = 8            # sectors of each block that is no record

dnode_key = lambda obj: (obj//IN_DNODE_BLOCK*IN_DNODE_BLOCK, 0, 0, 1)
record_key = lambda obj, leaf=0: (obj, 1, leaf, 3)
top_key = lambda obj, levels: (obj, 1, 0, 4-levels)
from_below = lambda key: (-key[1], -key[3])  # the order in which a block comes behind all that are below it
is_record = lambda key: key[1] == 1 and key[3] == 3
leaves = lambda levels: WAY**(levels-1)  # the most records


def level(key):
    """As its pointer has it. A root is above the dnode blocks, which are not above one another."""
    return 1 if key == ROOT else 0 if key[1] == 0 else 3-key[3]


def above(key, levels):
    """The key of the block that points to it; levels are those of its object."""
    obj, rank, leaf, depth = key
    if rank == 0: return ROOT
    if key == top_key(obj, levels): return dnode_key(obj)
    covered = WAY**(4-depth)
    return obj, 1, leaf//covered*covered, depth-1


def needed(obj, leaf, levels):
    """The keys of a record and of all blocks above it, in order: what is above has the lesser key."""
    keys = [record_key(obj, leaf)]
    while keys[0] != ROOT: keys.insert(0, above(keys[0], levels))
    return keys


def below(key):
    """The keys that the pointers of a root or an indirect block are for."""
    obj, rank, leaf, depth = key
    if key == ROOT: return [dnode_key(i*IN_DNODE_BLOCK) for i in range(WAY)]
    return [(obj, 1, leaf+i*WAY**(2-depth), depth+1) for i in range(WAY)]


def levels_of(there, obj):
    """Read off the least key of the object, of those for which `there` holds; None without the object."""
    return next((n for n in reversed(LEVELS) if there(top_key(obj, n))), None)


def in_table(key, levels):
    """The key is one that an object of so many levels, or a dataset, has."""
    obj, rank, leaf, depth = key
    if rank == 0: return key == ROOT or key == dnode_key(obj)
    return 4-levels <= depth <= 3 and leaf % WAY**(3-depth) == 0 and leaf < leaves(levels)


# ---- bytes
def pointer(piece, sectors, level, sum):
    b = bytearray(64)
    b[0] = 1
    b[1] = level
    b[2:4] = sectors.to_bytes(2, 'big')
    b[8:16] = piece.birth.to_bytes(8, 'big')
    b[16] = piece.vdev
    b[17:21] = piece.sector.to_bytes(4, 'big')
    b[32:64] = sum
    return bytes(b)


def record_bytes(fill, sectors): return fill.to_bytes(8, 'big')*(sectors*64)


def metadata_bytes(blocks, key):
    """Of a block that is no record; what is below it stands in blocks."""
    if key == ROOT or key[1] == 1: return b''.join(blocks[q].bp if q in blocks else bytes(64) for q in below(key))
    data = bytearray(4096)
    for i in range(IN_DNODE_BLOCK):
        levels = levels_of(blocks.__contains__, key[0]+i)
        if levels is None: continue
        data[i*128] = levels
        data[i*128+1] = (blocks[record_key(key[0]+i)].sectors*512).bit_length()-1
        data[i*128+64:i*128+128] = blocks[top_key(key[0]+i, levels)].bp
    return bytes(data)
