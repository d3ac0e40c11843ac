"""A second writer of the bytes of docs/FORMAT.md, for tools/forgeries: media that spell a given tree, records, and single structures."""
import typing

BLOCK, REGION, OPEN = 4_096, 262_144, 0xA5
# The blocks of the fast tier that stand in the same place in all media.
SLOTS, MARKS, GATE, HEAD, IMAGES, NODES = 1, 33, 34, 35, 36, 292
FILE, DIRECTORY = 1, 2
FAST, LOWER, SLOW = range(3)
NAMES_OF_TIERS = ("fast", "block", "slow")


class Sizes(typing.NamedTuple):
    """The units, and the data blocks of the tiers."""

    units: int
    fast: int
    block: int
    slow: int

    def data(self):
        """The first data block of the fast tier, behind the node pool."""
        return NODES + 3_072 + 2 * self.units

    def place(self, tier, at):
        """The number of a tier's data block, as extents tell it."""
        return at + (self.data() if tier == FAST else 0)

    def byte(self, tier, place):
        """Where in an image a block of a tier begins."""
        return BLOCK * (place + (0, self.data() + self.fast, self.data() + self.fast + self.block)[tier])

    def length(self):
        return self.byte(SLOW, self.slow) + 16 * REGION


class File(typing.NamedTuple):
    """A file: its size, its blocks by their logical numbers, and its names, if not those that directories have.

    A block is a tier, or None where nothing is said of it, a data block of the tier, and the bytes.
    """

    size: int
    blocks: dict = {}
    names: typing.Optional[int] = None


class Directory(typing.NamedTuple):
    """A directory: pairs of a name and an inode, in the order of their places; and its names, if not the one."""

    entries: list = []
    names: typing.Optional[int] = None


def u32(*numbers):
    return b"".join(it.to_bytes(4, "little") for it in numbers)


def u64(number):
    return number.to_bytes(8, "little")


def put(image, at, data):
    image[at : at + len(data)] = data


def block_of(data):
    return data + bytes(BLOCK - len(data))


def superblock(sizes, version=1, text=b"STRATAFS"):
    return text + u32(version, *sizes)


# The fields of a slot: where each stands, and its bytes.
SLOT = {"kind": (0, 1), "names": (4, 4), "size": (8, 8), "touch": (16, 8), "fast": (24, 4), "block": (28, 4), "slow": (32, 4)}


def slot_at(inode):
    return BLOCK * (SLOTS + (inode - 1) // 32) + 128 * ((inode - 1) % 32)


def put_slot(image, inode, **fields):
    """Writes these fields of a slot."""
    for name, value in fields.items():
        at, size = SLOT[name]
        put(image, slot_at(inode) + at, value.to_bytes(size, "little"))


def extents(owner, *runs, count=None, level=0):
    """A block of extents: runs of a logical block, a length and a place."""
    return block_of(u32(owner, len(runs) if count is None else count, level, 0) + b"".join(u32(*run) for run in runs))


def entry(inode, kind, name, length=None):
    return u32(inode) + bytes([kind, len(name) if length is None else length, 0, 0]) + name + bytes(64 - len(name))


def entries(owner, *each, count=None):
    """A block of entries, given as bytes."""
    return block_of(u32(owner, len(each) if count is None else count) + bytes(56) + b"".join(each))


def put_mark(image, client, generation=0, done=0, zero=0):
    put(image, BLOCK * MARKS + 16 * (client - 1), u64(generation) + u32(done, zero))


def put_journal(image, images, count=None, gate=OPEN):
    """Opens the journal over these images, pairs of a block's number and its bytes."""
    image[BLOCK * GATE] = gate
    put(image, BLOCK * HEAD, block_of(u32(len(images) if count is None else count, *(number for number, _ in images))))
    for at, (_, data) in enumerate(images):
        put(image, BLOCK * (IMAGES + at), block_of(data))


def runs_of(blocks):
    """The extents of blocks, pairs of a logical number and a place, in their order."""
    runs = []
    for logical, place in blocks:
        if runs and runs[-1][0] + runs[-1][1] == logical and runs[-1][2] + runs[-1][1] == place:
            runs[-1][1] += 1
        else:
            runs.append([logical, 1, place])
    return runs


def names_in(nodes, inode):
    """How many entries lead to an inode; the root has one name."""
    return 1 if inode == 1 else sum(it == inode for node in nodes.values() if isinstance(node, Directory) for _, it in node.entries)


def put_tree(image, sizes, nodes):
    """Writes nodes, by their inodes, over the empty tree.

    The node pool is filled from its first block: of each inode its blocks of extents, and then those of its entries.
    """
    free = NODES
    for inode, node in sorted(nodes.items()):
        names = names_in(nodes, inode) if node.names is None else node.names
        if isinstance(node, File):
            put_slot(image, inode, kind=FILE, names=names, size=node.size)
            for tier, name in enumerate(NAMES_OF_TIERS):
                held = [(at, sizes.place(tier, place)) for at, (on, place, _) in sorted(node.blocks.items()) if on == tier]
                if held:
                    put_slot(image, inode, **{name: free})
                    put(image, BLOCK * free, extents(inode, *runs_of(held)))
                    free += 1
            for tier, place, data in node.blocks.values():
                put(image, sizes.byte(tier, sizes.place(tier, place)), data)
            continue
        parts = [node.entries[at : at + 56] for at in range(0, len(node.entries), 56)]
        put_slot(image, inode, kind=DIRECTORY, names=names, size=len(node.entries), fast=free if parts else 0)
        if parts:
            put(image, BLOCK * free, extents(inode, (0, len(parts), free + 1)))
        for at, part in enumerate(parts):
            each = [entry(to, DIRECTORY if isinstance(nodes.get(to), Directory) else FILE, name) for name, to in part]
            put(image, BLOCK * (free + 1 + at), entries(inode, *each))
        free += 1 + len(parts) if parts else 0


# Records: the effects as bytes, and what a payload is.


def make(inode, kind):
    return b"\x01" + u32(inode) + bytes([kind])


def enter(directory, inode, kind, name):
    return b"\x02" + u32(directory, inode) + bytes([kind, len(name)]) + name


def leave(directory, name):
    return b"\x03" + u32(directory) + bytes([len(name)]) + name


def names(inode, count):
    return b"\x04" + u32(inode, count)


def size(inode, length):
    return b"\x05" + u32(inode) + u64(length)


def write(inode, at, data, count=None):
    return b"\x06" + u32(inode) + u64(at) + u32(len(data) if count is None else count) + data


def drop(inode):
    return b"\x07" + u32(inode)


def new(inode, kind, name, directory=1):
    """The effects that make a node with its one name."""
    return make(inode, kind) + enter(directory, inode, kind, name) + names(inode, 1)


def frame(units, effects, count, more=0, gate=OPEN):
    """A record's gate, length and payload, where so many effects are given as bytes; and a length that is more than it is."""
    payload = u32(units) + bytes([count]) + effects
    return bytes([gate]) + u32(len(payload) + more) + payload


def put_log(image, client, *frames, odd=0, generation=None):
    """Writes records into a client's region."""
    at = len(image) - (16 - 2 * (client - 1) - odd) * REGION
    if generation is not None:
        put(image, at, u64(generation))
    put(image, at + 16, b"".join(frames))
