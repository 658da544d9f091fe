#!/usr/bin/env python3
"""A small replicated bank that records its own run, as a server of your own could: a trace of version 2.

    python3 examples/server.py > run.trace && ./eve audit run.trace
    python3 examples/server.py --bug lost-update > run.trace; ./eve explain run.trace

Three replicas run each batch with three workers, which lock the customers that they touch; three verifiers compare the
replicas' tokens and vote. The mixer overlooks whom an amalgamate pays, so the replicas reply differently in batch 3,
roll back, and run it again in index order. Replica 2 is down meanwhile, and gets a state by a transfer afterwards.

Workers, replicas and verifiers are generators: at each `yield` another may go on, drawn by lot. So a seed gives one
run, byte for byte. examples/README.md has the bugs that can be planted, and what eve says of each.
"""
import argparse
import collections
import hashlib
import itertools
import random
import struct
import sys

REPLICAS, VERIFIERS, QUORUM, WINDOW, WORKERS = 3, 3, 2, 2, 3
CUSTOMERS = [("ann", 900, 100), ("bob", 0, 2500), ("cat", 50, -70), ("dan", 4000, 0), ("eve", 10, 10), ("fay", 777, 3)]
NUMBERS = {name: number for number, (name, _, _) in enumerate(CUSTOMERS)}
OPENING = [(0, value) for _, *pair in CUSTOMERS for value in pair]      # of each row its version and value
BALANCE, DEPOSIT, TRANSACT, AMALGAMATE, CHECK = 1, 2, 3, 4, 5
DONE, TOTAL, NO_SUCH_NAME, BAD_AMOUNT, INSUFFICIENT, OUT_OF_RANGE = 0, 1, 2, 3, 4, 5
BUGS = ["lost-update", "wrong-order", "no-barrier", "wrong-penalty", "executed-twice", "noted-once", "resubmitted",
        "forgotten-restore", "dirty-read", "stale-state", "still-serial", "wrong-token", "replies-as-made",
        "two-votes", "eager-votes", "early-reply"]

def bug(*names):
    return chosen.bug in names

def together(lot, tasks):
    """Runs tasks side by side until none is left: one drawn by lot goes on to its next yield, and so on."""
    while tasks:
        task = lot.choice(tasks)
        if next(task, "ended") == "ended":
            tasks.remove(task)
        yield

def alike(said, least):
    """Of what several said, what at least so many of them said: a list of one, or of none."""
    return [it for it, times in collections.Counter(said.values()).items() if times >= least][:1]

# SmallBank
Request = collections.namedtuple("Request", "client number kind names amount")

def rows_of(request):
    """The rows of a request, in the order in which a trace has them; none where it is refused unseen."""
    if not set(request.names) <= set(NUMBERS) or (request.kind in (DEPOSIT, CHECK) and request.amount < 0):
        return []
    saving, *others = [2 * NUMBERS[name] for name in dict.fromkeys(request.names)]
    if request.kind in (DEPOSIT, TRANSACT):
        return [saving + 1 if request.kind == DEPOSIT else saving]
    return [saving, saving + 1] + [other + 1 for other in others]

def effect(request, seen):
    """The reply to a request that saw these values in its rows, and what it leaves in each; None where it reads."""
    if not seen:
        return (BAD_AMOUNT if set(request.names) <= set(NUMBERS) else NO_SUCH_NAME, 0), []
    if request.kind == BALANCE:
        return (TOTAL, sum(seen)), [None, None]
    if request.kind == AMALGAMATE:
        after = [0] * (len(seen) - 1) + [sum(seen)]
    elif request.kind == CHECK:
        penalty = 100 if sum(seen) < request.amount and not bug("wrong-penalty") else 0
        after = [None, seen[1] - request.amount - penalty]
    else:
        after = [seen[0] + request.amount]
    if request.kind == TRANSACT and after[0] < 0:
        return (INSUFFICIENT, 0), [None]
    if any(value is not None and abs(value) > 10 ** 15 for value in after):
        return (OUT_OF_RANGE, 0), [None] * len(seen)
    return (DONE, 0), after

# Bytes
def frame(kind, layout="", *fields, rest=b""):
    body = struct.pack(">" + layout, *fields) + rest
    return struct.pack(">BI", kind, len(body)) + body

def packed(layout, parts):
    return b"".join(struct.pack(">" + layout, *part) for part in parts)

def name_bytes(name):
    return bytes([len(name)]) + name.encode()

def request_bytes(request):
    amount = packed("q", [[request.amount]] if request.kind in (DEPOSIT, TRANSACT, CHECK) else [])
    return packed("IQB", [request[:3]]) + b"".join(map(name_bytes, request.names)) + amount

def merkle_root(leaves):
    level = [hashlib.sha256(b"\0" + leaf).digest() for leaf in leaves]
    while len(level) > 1:
        pairs = [hashlib.sha256(b"\1" + left + right).digest() for left, right in zip(level[::2], level[1::2])]
        level = pairs + level[2 * len(pairs):]
    return level[0]

def token_of(seq, table, replies):
    rows = merkle_root(struct.pack(">Iq", row, value) for row, (_, value) in enumerate(table))
    said = merkle_root(struct.pack(">IBq", index, *reply) for index, reply in enumerate(replies))
    return hashlib.sha256(b"EVESB2" + struct.pack(">I", seq) + rows + said).digest()

def asked(draw):
    """What clients ask for: the requests of each batch."""
    names, numbers = list(NUMBERS), itertools.count(1)
    def one(kind, *who, amount=None):
        return Request(draw.randrange(7, 10), next(numbers), kind, who, amount or draw.choice((5, 40, 300, 1200, -40)))
    lists = [[one(draw.choice((BALANCE, DEPOSIT, TRANSACT, CHECK)), draw.choice(names + ["zoe"]))
              for _ in range(8)] for _ in range(6)]
    # Batch 2: a check that nothing covers, and a conflict that is overlooked and shows in no reply.
    lists[1] += [one(CHECK, "eve", amount=20_000), one(AMALGAMATE, "ann", "bob"), one(AMALGAMATE, "dan", "bob")]
    # Batch 3: cat's balance, again and again while all that the others have comes to it.
    lists[2] = [it for name in names if name != "cat" for it in (one(BALANCE, "cat"), one(AMALGAMATE, name, "cat"))]
    return lists[:3] + [lists[3] + lists[2][:1] if bug("resubmitted") else lists[3]] + lists[4:]

def cut(requests):
    """The mixer: parallelBatches in which no two requests are in conflict over their first customers."""
    groups = []
    for request in requests:
        fits = (group for group in groups if all(
            it.names[0] != request.names[0] or it.kind == request.kind == BALANCE for it in group))
        if (group := next(fits, None)) is None:
            groups.append(group := [])
        group.append(request)
    return groups

Attempt = collections.namedtuple("Attempt", "seq view token replies left")      # left: the rows that it wrote

class Replica:
    def __init__(self, number, bank):
        self.number, self.bank, self.frames = number, bank, [frame(0x10, "B", number)]
        self.table, self.committed, self.cache, self.locked = list(OPENING), list(OPENING), {}, set()
        self.reached, self.view, self.serial = 0, 0, False

    def execute(self, request, ticks):
        """Runs one request under its locks: the tick at which it took effect, its reply, its entries."""
        rows = rows_of(request)
        customers = {row // 2 for row in rows}
        yield
        while self.locked & customers and not bug("lost-update"):
            yield
        self.locked |= customers
        seen = [self.table[row] for row in rows]
        if bug("dirty-read") and request.kind == BALANCE:
            seen = [self.cache.get(row, pair) for row, pair in zip(rows, seen)]
        yield
        reply, after = effect(request, [value for _, value in seen])
        entries = []
        for row, (version, value), left in zip(rows, seen, after):
            if left is not None:
                self.table[row] = self.cache[row] = (version + 1, left)
            entries.append((row, left is not None, version, value, value if left is None else left))
        self.locked -= customers
        return next(ticks), reply, entries

    def attempt(self, seq):
        """Runs a batch, in parallel or in index order, records it, and tells the verifiers its token."""
        requests, before = self.bank.requests[seq], list(self.table)
        ticks, waiting, done = itertools.count(), list(range(len(requests))), {}
        notes = [[] for _ in range(1 if self.serial else WORKERS)]
        def work(noted):
            for end in itertools.accumulate(map(len, self.bank.batches[seq - 1])):
                while waiting and waiting[0] < end:
                    index = waiting.pop(0)
                    for _ in range(2 if index == 0 and bug("executed-twice", "noted-once") else 1):
                        did = yield from self.execute(requests[index], ticks)
                        noted.append((index, did[2]))
                    if index == 0 and bug("noted-once"):
                        del noted[-2]
                    done[index] = did
                while len(done) < end and not bug("no-barrier"):
                    yield
        yield from together(self.bank.lot, [work(noted) for noted in notes])
        replies = [done[index][1] for index in range(len(requests))]
        order = sorted(done, key=lambda index: index if bug("wrong-order") else done[index][0])
        token = token_of(seq, before if bug("wrong-token") else self.table,
                         [replies[index] for index in order] if bug("replies-as-made") else replies)
        self.frames.append(frame(0x11, f"IIBH{len(order)}H", seq, self.view, self.serial, len(order), *order,
                                 rest=packed("Bq", replies) + token))
        self.frames += [frame(0x12, "BHHB", worker, place, index, len(entries), rest=packed("IBQqq", entries))
                        for worker, noted in enumerate(notes) for place, (index, entries) in enumerate(noted)]
        left = {row: self.table[row] for _, _, entries in done.values() for row, writes, *_ in entries if writes}
        made = Attempt(seq, self.view, token, replies, left)
        self.serial = False
        self.bank.told[seq, self.view][self.number] = token
        if bug("early-reply"):
            self.answer(made)
        return made

    def commit(self, made):
        self.committed = [made.left.get(row, pair) for row, pair in enumerate(self.committed)]
        self.reached, self.bank.states[made.seq] = made.seq, list(self.committed)
        self.frames.append(frame(0x13, "II", made.seq, made.view, rest=made.token))
        if not bug("early-reply"):
            self.answer(made)

    def answer(self, made):
        self.bank.sent += [frame(0x30, "IQBIBq", request.client, request.number, self.number, made.seq, *reply)
                           for request, reply in zip(self.bank.requests[made.seq], made.replies)]

    def roll_back(self, discarded):
        rows = sorted({row for made in discarded for row in made.left if row % 2 or not bug("forgotten-restore")})
        for row in rows:
            self.table[row] = self.committed[row]
        if not bug("dirty-read"):
            self.cache.clear()
        self.view, self.serial = self.view + 1, True
        self.frames.append(frame(0x14, "III", self.reached, self.view, len(rows),
                                 rest=packed("IQq", [(row, *self.committed[row]) for row in rows])))

    def take_over(self, seq):
        """Waits until some replica has the state after a batch, and installs it."""
        wanted = seq - 1 if bug("stale-state") else seq
        while wanted not in self.bank.states:
            yield
        self.table, self.committed, self.cache = list(self.bank.states[wanted]), list(self.bank.states[wanted]), {}
        self.reached, self.serial = seq, self.serial and bug("still-serial")
        self.frames.append(frame(0x15, "II", seq, self.view, rest=packed("Qq", self.table)))

    def run(self):
        """Window by window: attempts, and then what the verifiers decide of them, in order."""
        while window := range(self.reached + 1, min(self.reached + WINDOW, len(self.bank.batches)) + 1):
            made, missed = {}, None
            for seq in window:
                if (self.number, self.view, window[0]) == (2, 1, 3):        # it is down
                    self.bank.told[seq, self.view][self.number] = None      # as the verifiers' clocks would tell
                else:
                    made[seq] = yield from self.attempt(seq)
            for seq in window:
                while not (decided := alike(self.bank.votes[seq, self.view], QUORUM)):
                    yield
                token = decided[0]          # None: to be rolled back
                if token and seq in made and made[seq].token == token:
                    self.commit(made.pop(seq))
                elif token:
                    made, missed = {}, seq      # it was down or outvoted: its attempts are void
                if missed and (not token or seq == window[-1]):
                    yield from self.take_over(missed)
                if not token:
                    self.roll_back(made.values())
                    break

class Verifier:
    def __init__(self, number, bank):
        self.number, self.bank, self.frames = number, bank, [frame(0x20, "B", number)]

    def vote(self, seq, view, token):
        self.frames.append(frame(0x21, "IIB", seq, view, token is not None, rest=token or bytes(32)))
        self.bank.votes[seq, view][self.number] = token

    def judge(self, seq, view):
        """Waits until most replicas have one token, or all have told theirs, and votes: that token, or None."""
        told, hasty = self.bank.told[seq, view], bug("two-votes") and self.number == 1
        while not (most := alike(told, REPLICAS // 2 + 1)) and len(told) < REPLICAS:
            if hasty and len(told) == 2:
                self.vote(seq, view, None)
                hasty = False
            yield
        self.vote(seq, view, most[0] if most else None)
        return bool(most)

    def run(self):
        """Judges batch after batch. One that is rolled back ends the view: no later batch is judged in it."""
        seq, view = 1, 0
        while seq <= len(self.bank.batches):
            if (yield from self.judge(seq, view)):
                seq += 1
            else:
                if bug("eager-votes"):
                    yield from self.judge(seq + 1, view)
                view += 1

class Bank:
    def __init__(self, lot):
        self.lot, self.batches = lot, [cut(requests) for requests in asked(lot)]
        self.requests = {seq: sum(groups, []) for seq, groups in enumerate(self.batches, 1)}
        self.told, self.votes = collections.defaultdict(dict), collections.defaultdict(dict)    # by batch and view
        self.states, self.sent = {}, []
        self.replicas = [Replica(number, self) for number in range(REPLICAS)]
        self.verifiers = [Verifier(number, self) for number in range(VERIFIERS)]

    def trace(self):
        """Runs the bank, and writes down what it did."""
        list(together(self.lot, [it.run() for it in self.replicas + self.verifiers]))
        frames = [frame(0x01, rest=name_bytes(name) + struct.pack(">qq", *pair)) for name, *pair in CUSTOMERS]
        for seq, groups in enumerate(self.batches, 1):
            frames.append(frame(0x02, f"IH{len(groups)}H", seq, len(groups), *map(len, groups),
                                rest=b"".join(map(request_bytes, self.requests[seq]))))
        frames += [it for part in self.replicas + self.verifiers for it in part.frames] + self.sent
        rest = b"".join(frames) + frame(0x7F)
        return struct.pack(">6sH5B3xIIQ", b"EVESBK", 2, REPLICAS, VERIFIERS, QUORUM, WINDOW, WORKERS,
                           len(CUSTOMERS), len(self.batches), 32 + len(rest)) + rest

parser = argparse.ArgumentParser(description="Runs a small replicated bank, and writes the trace of the run.")
parser.add_argument("--bug", choices=BUGS, metavar="NAME", help="plant a fault: " + ", ".join(BUGS))
parser.add_argument("--seed", type=int, default=4, metavar="N", help="of requests and turns; default 4")
chosen = parser.parse_args()
sys.stdout.buffer.write(Bank(random.Random(chosen.seed)).trace())
