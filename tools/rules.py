"""The rules of traces in Python: a second judge, for `compare-verdicts`.

It has the rules of docs/TRACE.md, docs/MODEL.md and docs/FAULTS.md, shares nothing with the auditor, and does
everything in the plainest way: whole lists, tables of all rows, one replica after another. Nothing of it is proved.
"""
from collections import Counter, defaultdict
from types import SimpleNamespace as Record

import traces
from traces import BAD_AMOUNT, DONE, NO_NAME, RANGE, SHORT, TOTAL
from traces import LIMIT as MONEY

AMOUNT, VERSION = 10 ** 12, 2 ** 40
BALANCE, DEPOSIT, TRANSACT, AMALGAMATE, CHECK = range(1, 6)
READ, WRITE = 0, 1
COMMITTED, DISCARDED, OPEN = "committed", "discarded", "open"
CUSTOMER, BATCH, REPLICA, ATTEMPT, ACCESS, COMMIT, ROLLBACK, TRANSFER = 0x01, 0x02, 0x10, 0x11, 0x12, 0x13, 0x14, 0x15
VERIFIER, VOTE, SENT, END = 0x20, 0x21, 0x30, 0x7F

# The codes of each phase.
PHASES = [{1: "Length", 2: "Magic", 3: "Head", 4: "Frame", 5: "Body"}, {10: "SameName", 11: "SameRequest"},
          {20: "Attempt", 21: "Certificate", 22: "Access", 23: "WorkerOrder", 24: "Commit", 25: "Rollback",
           26: "Transfer"}, {30: "Record"}, {40: "Version", 41: "Value"}, {50: "Restore"}, {60: "Token"},
          {70: "TwoVotes", 71: "TwoDecisions"}, {72: "NoMajority", 73: "RollbackNoMajority", 74: "TransferNoMajority"},
          {80: "Outcome", 81: "TransferBalances"}, {90: "Reply"}]
NAMES = {code: name for phase in PHASES for code, name in phase.items()}
PHASE_OF = {code: number for number, phase in enumerate(PHASES, 1) for code in phase}


class Fault(Exception):
    """A fault: its code, its byte, and the replica in whose section it stands, if any."""

    def __init__(self, code, offset, replica=None):
        self.code, self.offset, self.replica = code, offset, replica

    def __str__(self):
        where = "" if self.replica is None else f", replica {self.replica}"
        return f"no: F{self.code} {NAMES[self.code]} at byte {self.offset}{where}"


def raise_first(faults):
    """Raises the first of the faults of a phase (byte, code, replica), if there is one."""
    if faults:
        offset, code, replica = min(faults, key=lambda it: it[:2])
        raise Fault(code, offset, replica)


# ---- form

class WrongBody(Exception):
    """A body isn't as its kind's has to be."""


def need(is_right):
    if not is_right:
        raise WrongBody


class Fields:
    """The fields of a body, one after another."""

    def __init__(self, body):
        self.body, self.at = body, 0

    def take(self, count):
        need(self.at + count <= len(self.body))
        self.at += count
        return self.body[self.at - count:self.at]

    def number(self, size, most=None, least=0):
        it = int.from_bytes(self.take(size), "big")
        need(least <= it and (most is None or it <= most))
        return it

    def money(self, least=-MONEY, most=MONEY):
        it = int.from_bytes(self.take(8), "big", signed=True)
        need(least <= it <= most)
        return it

    def name(self):
        it = self.take(self.number(1, 24, 1))
        need(all(0x21 <= byte <= 0x7E for byte in it))
        return it

    def request(self):
        client, number, code, name = self.number(4), self.number(8), self.number(1, CHECK, BALANCE), self.name()
        other = self.name() if code == AMALGAMATE else None
        amount = self.money(-AMOUNT, AMOUNT) if code in (DEPOSIT, TRANSACT, CHECK) else None
        return Record(id=(client, number), code=code, name=name, other=other, amount=amount)

    def reply(self):
        code, value = self.number(1, RANGE), self.money(-2 ** 63, 2 ** 63)
        need(code == TOTAL or value == 0)
        return code, value

    def entry(self, rows):
        it = Record(row=self.number(4, rows - 1), kind=self.number(1, WRITE), version=self.number(8, VERSION),
                    seen=self.money(), after=self.money())
        need(it.kind == WRITE or it.after == it.seen)
        return it

    def restore(self, rows):
        return self.number(4, rows - 1), self.number(8, VERSION), self.money()


def read_customer(trace, f):
    trace.customers.append(Record(offset=f.offset, name=f.name(), saving=f.money(0), checking=f.money()))


def read_batch(trace, f):
    need(f.number(4) == len(trace.batches) + 1)
    sizes = [f.number(2, least=1) for _ in range(f.number(2, least=1))]
    need(sum(sizes) <= 256)
    trace.batches.append(Record(offset=f.offset, sizes=sizes, requests=[f.request() for _ in range(sum(sizes))]))


def read_replica(trace, f):
    need(f.number(1) == len(trace.sections))
    trace.sections.append([])


def read_attempt(trace, f):
    seq, view, serial, count = f.number(4), f.number(4), f.number(1, 1) == 1, f.number(2, 256, 1)
    order, replies = [f.number(2) for _ in range(count)], [f.reply() for _ in range(count)]
    trace.sections[-1].append(Record(kind=ATTEMPT, offset=f.offset, seq=seq, view=view, serial=serial, order=order,
                                     replies=replies, token=f.take(32), records=[], fate=OPEN))


def read_access(trace, f):
    worker, place, index = f.number(1), f.number(2), f.number(2)
    entries = [f.entry(trace.rows) for _ in range(f.number(1, 3))]
    trace.sections[-1][-1].records.append(
        Record(offset=f.offset, worker=worker, place=place, index=index, entries=entries))


def read_commit(trace, f):
    trace.sections[-1].append(
        Record(kind=COMMIT, offset=f.offset, seq=f.number(4), view=f.number(4), token=f.take(32)))


def read_rollback(trace, f):
    to, view, count = f.number(4), f.number(4), f.number(4)
    need(len(f.body) == 12 + 20 * count)
    restores = [f.restore(trace.rows) for _ in range(count)]
    need(all(one[0] < next[0] for one, next in zip(restores, restores[1:])))
    trace.sections[-1].append(Record(kind=ROLLBACK, offset=f.offset, to=to, view=view, restores=restores))


def read_transfer(trace, f):
    seq, view = f.number(4), f.number(4)
    table = [(f.number(8, VERSION), f.money(0 if row % 2 == 0 else -MONEY)) for row in range(trace.rows)]
    trace.sections[-1].append(Record(kind=TRANSFER, offset=f.offset, seq=seq, view=view, table=table))


def read_verifier(trace, f):
    need(f.number(1) == len(trace.votes))
    trace.votes.append([])


def read_vote(trace, f):
    seq, view, is_commit, token = f.number(4, trace.N, 1), f.number(4), f.number(1, 1), f.take(32)
    need(is_commit or token == bytes(32))
    trace.votes[-1].append(Record(offset=f.offset, about=(seq, view), choice=token if is_commit else None))


def read_sent(trace, f):
    trace.sent.append(Record(offset=f.offset, id=(f.number(4), f.number(8)), replica=f.number(1, trace.E - 1),
                             seq=f.number(4, trace.N, 1), reply=f.reply()))


def read_end(trace, f):
    trace.is_ended = True


READERS = {CUSTOMER: read_customer, BATCH: read_batch, REPLICA: read_replica, ATTEMPT: read_attempt,
           ACCESS: read_access, COMMIT: read_commit, ROLLBACK: read_rollback, TRANSFER: read_transfer,
           VERIFIER: read_verifier, VOTE: read_vote, SENT: read_sent, END: read_end}


def kinds_due(trace):
    """The kinds of which a frame may stand behind what was read."""
    if len(trace.customers) < trace.K:
        return {CUSTOMER}
    if len(trace.batches) < trace.N:
        return {BATCH}
    if not trace.sections:
        return {REPLICA}
    if trace.sent:
        return {SENT, END}
    if trace.votes:
        return {VOTE, VERIFIER} if len(trace.votes) < trace.V else {VOTE, SENT, END}
    steps = trace.sections[-1]
    if steps and steps[-1].kind == ATTEMPT and len(steps[-1].records) < len(steps[-1].order):
        return {ACCESS}
    steps_due = {ATTEMPT, COMMIT, ROLLBACK} | ({TRANSFER} if trace.version == 2 else set())
    return steps_due | {REPLICA if len(trace.sections) < trace.E else VERIFIER}


def read(data):
    """The trace that the bytes spell, or their fault of form."""
    if not 32 <= len(data) <= 2 ** 30 or int.from_bytes(data[24:32], "big") != len(data):
        raise Fault(1, 0)
    if data[:6] != b"EVESBK":
        raise Fault(2, 0)
    version, (E, V, Q, P, W), zeros = int.from_bytes(data[6:8], "big"), data[8:13], data[13:16]
    K, N = int.from_bytes(data[16:20], "big"), int.from_bytes(data[20:24], "big")
    if not (version in (1, 2) and 1 <= E <= 8 and 1 <= V <= 16 and 1 <= Q <= V < 2 * Q and 1 <= P <= 8 and 1 <= W <= 8
            and not any(zeros) and 1 <= K <= (4096 if version == 1 else 65536) and N <= 65535):
        raise Fault(3, 0)
    trace = Record(version=version, E=E, V=V, Q=Q, P=P, W=W, K=K, N=N, rows=2 * K, customers=[], batches=[],
                   sections=[], votes=[], sent=[], is_ended=False)
    at = 32
    while not trace.is_ended:
        kind, end = data[at:at + 1], at + 5 + int.from_bytes(data[at + 1:at + 5], "big")
        if len(data) < at + 5 or kind[0] not in kinds_due(trace) or len(data) < end:
            raise Fault(4, at)
        fields = Fields(data[at + 5:end])
        fields.offset = at
        try:
            READERS[kind[0]](trace, fields)
            need(fields.at == len(fields.body))
        except WrongBody:
            raise Fault(5, at) from None
        at = end
    if at < len(data):
        raise Fault(4, at)
    return trace


# ---- orders and structure

def judge_orders(trace):
    names, ids, faults = set(), set(), []
    for it in trace.customers:
        if it.name in names:
            faults.append((it.offset, 10, None))
        names.add(it.name)
    for batch in trace.batches:
        for request in batch.requests:
            if request.id in ids:
                faults.append((batch.offset, 11, None))
            ids.add(request.id)
    raise_first(faults)


def wrong_certificate(attempt, sizes):
    """Whether the order isn't each index once, parallelBatch after parallelBatch, and in serial mode as listed."""
    groups = [group for group, size in enumerate(sizes) for _ in range(size)]
    if sorted(attempt.order) != [*range(len(groups))]:
        return True
    met = [groups[index] for index in attempt.order]
    return met != sorted(met) or attempt.serial and attempt.order != sorted(attempt.order)


def judge_structure(trace, e):
    """Goes along the section up to its first wrong frame; at its end each attempt has its fate, each commit and
    rollback its attempts."""
    view, last, opened, is_serial_due = 0, 0, [], False
    for step in trace.sections[e]:
        if step.kind == ATTEMPT:
            n = step.seq
            if not (n == last + 1 + len(opened) and n <= trace.N and n <= last + trace.P and step.view == view
                    and len(step.order) == len(trace.batches[n - 1].requests) and step.serial == is_serial_due):
                raise Fault(20, step.offset, e)
            if wrong_certificate(step, trace.batches[n - 1].sizes):
                raise Fault(21, step.offset, e)
            met, places = set(), Counter()
            for it in step.records:
                if it.worker >= (1 if step.serial else trace.W) or it.index >= len(step.order) or it.index in met:
                    raise Fault(22, it.offset, e)
                if it.place != places[it.worker]:
                    raise Fault(23, it.offset, e)
                met.add(it.index)
                places[it.worker] += 1
            opened.append(step)
            is_serial_due = False
        elif step.kind == COMMIT:
            if not opened or (step.seq, step.view, step.token) != (last + 1, opened[0].view, opened[0].token):
                raise Fault(24, step.offset, e)
            step.attempt, last = opened.pop(0), last + 1
            step.attempt.fate = COMMITTED
        elif step.kind == ROLLBACK:
            if step.to != last or last >= trace.N or step.view != view + 1:
                raise Fault(25, step.offset, e)
            step.attempts, opened, view, is_serial_due = opened, [], step.view, True
            for it in step.attempts:
                it.fate = DISCARDED
        else:
            if not last < step.seq <= trace.N or step.view < view:
                raise Fault(26, step.offset, e)
            for it in opened:
                it.fate = DISCARDED
            opened, last, view, is_serial_due = [], step.seq, step.view, False
    return last


# ---- SmallBank, for the values seen

def touched(names, request):
    """The rows of a request with their kinds, or the reply that refuses it."""
    if request.name not in names or request.other is not None and request.other not in names:
        return [], NO_NAME
    if request.code in (DEPOSIT, CHECK) and request.amount < 0:
        return [], BAD_AMOUNT
    saving = 2 * names[request.name]
    checking = saving + 1
    rows = {BALANCE: [(saving, READ), (checking, READ)], DEPOSIT: [(checking, WRITE)], TRANSACT: [(saving, WRITE)],
            AMALGAMATE: [(saving, WRITE), (checking, WRITE)], CHECK: [(saving, READ), (checking, WRITE)]}[request.code]
    if request.code == AMALGAMATE and request.other != request.name:
        rows.append((2 * names[request.other] + 1, WRITE))
    return rows, None


def executed(names, request, seen):
    """The reply of a request and its entries (row, kind, value after), where its rows have these values."""
    rows, refusal = touched(names, request)
    if refusal is not None:
        return (refusal, 0), []
    if request.code == BALANCE:
        reply, after = (TOTAL, sum(seen)), seen
    elif request.code == AMALGAMATE:
        reply, after = (DONE, 0), [0] * (len(seen) - 1) + [sum(seen)]
    elif request.code == CHECK:
        reply, after = (DONE, 0), [seen[0], seen[1] - request.amount - (100 if sum(seen) < request.amount else 0)]
    else:
        reply, after = (DONE, 0), [seen[0] + request.amount]
    if request.code == TRANSACT and after[0] < 0:
        reply = SHORT, 0
    elif any(kind == WRITE and not -MONEY <= it <= MONEY for (_, kind), it in zip(rows, after)):
        reply = RANGE, 0
    if reply[0] in (SHORT, RANGE):
        return reply, [(row, READ, it) for (row, _), it in zip(rows, seen)]
    return reply, [(row, kind, it) for (row, kind), it in zip(rows, after)]


def is_right_record(names, request, record, reply):
    seen, rows = [it.seen for it in record.entries], touched(names, request)[0]
    if len(seen) != len(rows):
        return False
    return (reply, [(it.row, it.kind, it.after) for it in record.entries]) == executed(names, request, seen)


# ---- a replica by itself

def token(version, seq, balances, replies):
    balances = [it.to_bytes(8, "big", signed=True) for it in balances]
    replies = [traces.reply(*it) for it in replies]
    if version == 1:
        return traces.token_1(seq, b"".join(balances), replies)
    return traces.token_2(seq, traces.Tree(balances), replies)


def write(table, attempt, judge=None):
    """Writes an attempt's entries to a table of rows, in its certificate's order."""
    by_index = {it.index: it for it in attempt.records}
    for index in attempt.order:
        record = by_index[index]
        for it in record.entries:
            if judge:
                judge(record, it, table[it.row])
            if it.kind == WRITE:
                table[it.row] = it.version + 1, it.after


def judge_records(trace, e):
    raise_first([(it.offset, 30, e) for step in trace.sections[e] if step.kind == ATTEMPT and step.fate != OPEN
                 for it in step.records
                 if not is_right_record(trace.names, trace.batches[step.seq - 1].requests[it.index], it,
                                        step.replies[it.index])])


def judge_rows(trace, e):
    """Chains, then restores, then tokens. Notes the balances after each number that the replica reached."""
    opening = [(0, it) for customer in trace.customers for it in (customer.saving, customer.checking)]
    kept, working, chains, restores, tokens = [*opening], [*opening], [], [], []

    def judge(record, entry, due):
        chains.extend((record.offset, code, e) for code, one, other in
                      ((40, entry.version, due[0]), (41, entry.seen, due[1])) if one != other)

    for step in trace.sections[e]:
        if step.kind == ATTEMPT:
            write(working, step, None if step.fate == OPEN else judge)
        elif step.kind == COMMIT:
            write(kept, step.attempt)
            balances = trace.balances[e][step.seq] = [value for _, value in kept]
            trace.committed[e][step.seq] = step.attempt
            if token(trace.version, step.seq, balances, step.attempt.replies) != step.attempt.token:
                tokens.append((step.attempt.offset, 60, e))
        elif step.kind == ROLLBACK:
            rows = {entry.row for attempt in step.attempts for it in attempt.records for entry in it.entries
                    if entry.kind == WRITE}
            if step.restores != [(row, *kept[row]) for row in sorted(rows)]:
                restores.append((step.offset, 50, e))
            working = [*kept]
        else:
            kept, working = [*step.table], [*step.table]
            trace.balances[e][step.seq] = [value for _, value in kept]
    for faults in (chains, restores, tokens):
        raise_first(faults)


def own_fault(trace, e):
    """The first fault of a replica by itself, if there is one."""
    try:
        trace.last[e] = judge_structure(trace, e)
        judge_records(trace, e)
        judge_rows(trace, e)
    except Fault as fault:
        return fault
    return None


# ---- all replicas together

def judge_votes(trace):
    """Notes what was decided, by number and view: the token, or None where it was a rollback."""
    choices, faults = defaultdict(lambda: defaultdict(list)), []
    for v, votes in enumerate(trace.votes):
        for vote in votes:
            if choices[vote.about][v]:
                faults.append((vote.offset, 70, None))
            choices[vote.about][v].append(vote.choice)
    for about, by_verifier in choices.items():
        for choice, count in Counter(it[0] for it in by_verifier.values() if len(it) == 1).items():
            if count >= trace.Q:
                trace.decided[about] = choice
    views = Counter(seq for (seq, _), choice in trace.decided.items() if choice is not None)
    raise_first(faults + [(trace.batches[seq - 1].offset, 71, None) for seq, count in views.items() if count > 1])


def judge_majorities(trace):
    faults = []
    for e, steps in enumerate(trace.sections):
        for it in steps:
            if it.kind == COMMIT and trace.decided.get((it.seq, it.view)) != it.token:
                faults.append((it.offset, 72, e))
            elif it.kind == ROLLBACK and trace.decided.get((it.to + 1, it.view - 1), it) is not None:
                faults.append((it.offset, 73, e))
            elif it.kind == TRANSFER and trace.decided.get((it.seq, it.view)) is None:
                faults.append((it.offset, 74, e))
    raise_first(faults)


def judge_agreement(trace):
    first, faults = {}, []
    for e, committed in enumerate(trace.committed):
        for n in committed:
            first.setdefault(n, e)
    for e, committed in enumerate(trace.committed):
        for n, attempt in committed.items():
            f = first[n]
            if (trace.balances[e][n], attempt.replies) != (trace.balances[f][n], trace.committed[f][n].replies):
                faults.append((attempt.offset, 80, e))
        for it in trace.sections[e]:
            if it.kind == TRANSFER and (it.seq not in first or trace.balances[first[it.seq]][it.seq]
                                        != [value for _, value in it.table]):
                faults.append((it.offset, 81, e))
    raise_first(faults)


def judge_replies(trace):
    faults = []
    for it in trace.sent:
        ids = [request.id for request in trace.batches[it.seq - 1].requests]
        attempt = trace.committed[it.replica].get(it.seq)
        if it.id not in ids or attempt is None or attempt.replies[ids.index(it.id)] != it.reply:
            faults.append((it.offset, 90, None))
    raise_first(faults)


def judge(data):
    """Raises the first fault of the bytes, or returns the trace; `last` has each replica's last number."""
    trace = read(data)
    judge_orders(trace)
    trace.names = {it.name: number for number, it in enumerate(trace.customers)}
    trace.last, trace.decided = [0] * trace.E, {}
    trace.balances, trace.committed = [{} for _ in range(trace.E)], [{} for _ in range(trace.E)]
    faults = [fault for fault in (own_fault(trace, e) for e in range(trace.E)) if fault]
    if faults:
        raise min(faults, key=lambda it: (PHASE_OF[it.code], it.offset, it.code))
    for phase in (judge_votes, judge_majorities, judge_agreement, judge_replies):
        phase(trace)
    return trace


def line_of(data):
    """The line that `eve audit` is to print for these bytes."""
    try:
        trace = judge(data)
    except Fault as fault:
        return str(fault)
    return f"yes: {trace.E} replicas, {trace.N} batches, {min(trace.last)} committed"
