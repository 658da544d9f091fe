"""Parts of traces as bytes, for the scripts beside this one that write traces. docs/TRACE.md has the formats."""
import hashlib
import struct

LIMIT = 10 ** 15
DONE, TOTAL, NO_NAME, BAD_AMOUNT, SHORT, RANGE = range(6)


def frame(kind, body):
    return struct.pack(">BI", kind, len(body)) + body


def reply(code, value=0):
    return struct.pack(">Bq", code, value)


class Head:
    """The numbers of the header, but the total."""

    def __init__(self, replicas=1, verifiers=1, quorum=1, customers=1, batches=0, version=1, window=1, workers=1):
        self.fields = version, replicas, verifiers, quorum, window, workers, customers, batches

    def text(self, total):
        return b"EVESBK" + struct.pack(">HBBBBB3xIIQ", *self.fields, total)


def customer(name, saving=0, checking=0):
    return frame(0x01, bytes([len(name)]) + name + struct.pack(">qq", saving, checking))


def begin_section(number):
    return frame(0x10, bytes([number]))


def attempt(seq, view, serial, order, replies, token):
    head = struct.pack(f">IIBH{len(order)}H", seq, view, int(serial), len(order), *order)
    return frame(0x11, head + b"".join(replies) + token)


def access(place, index, entries, worker=0):
    return frame(0x12, struct.pack(">BHHB", worker, place, index, len(entries)) + b"".join(entries))


def commit(seq, view, token):
    return frame(0x13, struct.pack(">II", seq, view) + token)


def rollback(to, view, restores=()):
    """Each restore is a row, its version and its value."""
    return frame(0x14, struct.pack(">III", to, view, len(restores))
                 + b"".join(struct.pack(">IQq", *restore) for restore in restores))


def transfer(seq, view, rows):
    """A state taken over: version and value of each row."""
    return frame(0x15, struct.pack(">II", seq, view) + b"".join(struct.pack(">Qq", *row) for row in rows))


def begin_votes(number):
    return frame(0x20, bytes([number]))


def vote(seq, view, token):
    """A vote for this token, or for a rollback where there is none."""
    return frame(0x21, struct.pack(">IIB", seq, view, int(token is not None)) + (token or bytes(32)))


def sent(client, number, replica, seq, answer):
    return frame(0x30, struct.pack(">IQBI", client, number, replica, seq) + answer)


END = frame(0x7F, b"")


def sha(data):
    return hashlib.sha256(data).digest()


def leaf(number, content):
    return sha(b"\0" + struct.pack(">I", number) + content)


def parent(level, i):
    """The i-th hash of the level above: of two hashes, or the odd last one as it is."""
    return sha(b"\1" + level[i] + level[i + 1]) if i + 1 < len(level) else level[i]


class Tree:
    """A Merkle tree by levels. `root` hashes anew what stands above the leaves that were set since."""

    def __init__(self, contents):
        self.levels, self.touched = [[leaf(number, it) for number, it in enumerate(contents)]], set()
        while len(self.levels[-1]) > 1:
            below = self.levels[-1]
            self.levels.append([parent(below, i) for i in range(0, len(below), 2)])

    def set(self, number, content):
        self.levels[0][number] = leaf(number, content)
        self.touched.add(number)

    def root(self):
        at, self.touched = self.touched, set()
        for below, level in zip(self.levels, self.levels[1:]):
            at = {i // 2 for i in at}
            for i in at:
                level[i] = parent(below, 2 * i)
        return self.levels[-1][0]


def token_1(seq, balances, replies):
    """Version 1's token, of the balances as bytes."""
    return sha(b"EVESB1" + struct.pack(">I", seq) + balances + b"".join(replies))


def token_2(seq, rows, replies):
    """Version 2's token, of a tree over the balances."""
    return sha(b"EVESB2" + struct.pack(">I", seq) + rows.root() + Tree(replies).root())
