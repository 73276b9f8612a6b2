"""Writes the two files of a dirstate-v2 by hand, from the format alone (Mercurial's help topic internals.dirstate-v2).

Nothing here is taken from the program under test: docs/FORMAT_DOCKET.md and docs/FORMAT_DATA.md tell the same format in words.
"""

import struct

MARKER = b"dirstate-v2\n"
NULL = bytes(20)
# What SHA-1 gives for no bytes at all: the hash of the ignore patterns where there are none.
NO_PATTERNS = bytes.fromhex("da39a3ee5e6b4b0d3255bfef95601890afd80709")
IDENTIFIER = b"0" * 16

# Bits of a node's flags.
WDIR_TRACKED, P1_TRACKED, P2_INFO = 1 << 0, 1 << 1, 1 << 2
MODE_EXEC_PERM, MODE_IS_SYMLINK = 1 << 3, 1 << 4
EXPECTED_STATE_IS_MODIFIED, HAS_MODE_AND_SIZE, HAS_MTIME, MTIME_SECOND_AMBIGUOUS = 1 << 9, 1 << 10, 1 << 11, 1 << 12
DIRECTORY, ALL_UNKNOWN_RECORDED = 1 << 13, 1 << 14

# marker, first parent, second parent, root start, root count, entries, copies, unreachable, unused, ignore hash, used, length
DOCKET = struct.Struct(">12s 20s12s 20s12s IIIII 4s 20s I B")
# path start, path length, base, copy start, copy length, children start, children count, entries below, tracked below, flags,
# size, seconds, nanoseconds
NODE = struct.Struct(">IHH IH II II H III")
assert DOCKET.size == 125 and NODE.size == 44


def docket(used, root, p1=NULL, p2=NULL, identifier=IDENTIFIER, counts=(0, 0, 0), spare=0, marker=MARKER):
    """The docket of a data file of `used` bytes whose root list is `root`, a place and a number of nodes. The counts are those
    of the entries, the copy sources and the unreachable bytes; `spare` is each byte that has no meaning."""
    padding, unused = bytes([spare]) * 12, bytes([spare]) * 4
    head = DOCKET.pack(marker, p1, padding, p2, padding, *root, *counts, unused, NO_PATTERNS, used, len(identifier))
    return head + identifier


def record(start, length, base=0, copy=(0, 0), children=(0, 0), below=(0, 0), flags=WDIR_TRACKED, size=0, seconds=0, nanos=0):
    """One node: the place and the length of its path, and the place of its last component within the path."""
    return NODE.pack(start, length, base, *copy, *children, *below, flags, size, seconds, nanos)


# What a status may change of an entry: size, mode and time, and the mark that it was seen changed.
OF_A_STATUS = MODE_EXEC_PERM | MODE_IS_SYMLINK | EXPECTED_STATE_IS_MODIFIED | HAS_MODE_AND_SIZE | HAS_MTIME | MTIME_SECOND_AMBIGUOUS


def marks_of(head, data):
    """What no status changes of a record: the parents, and each path's marks and copy source. Of a docket that names no nodes there are none."""
    _, p1, _, p2, _, start, count, *_ = DOCKET.unpack(head[:DOCKET.size])
    found, lists = {}, [(start, count)]
    while lists:
        start, count = lists.pop()
        for at in range(start, start + count * NODE.size, NODE.size):
            path, length, _, copy, copied, children, number, _, _, flags, *_ = NODE.unpack_from(data, at)
            lists.append((children, number))
            found[data[path:path + length]] = flags & ~OF_A_STATUS, data[copy:copy + copied]
    return p1, p2, {path: it for path, it in found.items() if it[0]}


class Node:
    """A node of a tree that is still to be laid out."""

    def __init__(self):
        self.children, self.is_tracked = {}, False


def tree_of(paths):
    """The tree of the paths given as bytes: a node for each path and for each directory above one."""
    root = Node()
    for path in paths:
        at = root
        for name in path.split(b"/"):
            at = at.children.setdefault(name, Node())
        at.is_tracked = True
    return root


def put_list(data, node, path, entry=WDIR_TRACKED):
    """Puts the list of a node's children behind the data, each child's own list and its path first; `entry` is the flags of each entry, or those of each
    path. Answers the place and the number of the list, and how many entries it has at any depth."""
    records, total = [], 0
    for name in sorted(node.children):
        child = node.children[name]
        whole = path + name
        children, below = put_list(data, child, whole + b"/", entry)
        start = len(data)
        data += whole
        flags = (entry[whole] if isinstance(entry, dict) else entry) if child.is_tracked else 0
        records.append(record(start, len(whole), len(path), (0, 0), children, (below, below), flags))
        total += below + child.is_tracked
    start = len(data) if records else 0
    data += b"".join(records)
    return (start, len(records)), total


def written(paths, entry=WDIR_TRACKED, **changes):
    """The docket and the data of a dirstate that has exactly these paths, each one added, or with other flags."""
    data = bytearray()
    root, total = put_list(data, tree_of(paths), b"", entry)
    given = {"counts": (total, 0, 0), **changes}
    return docket(len(data), root, **given), bytes(data)
