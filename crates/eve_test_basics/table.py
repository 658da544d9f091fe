#!/usr/bin/env python3
"""Answers the cases of eve_test_basics as its program must, and independently of it, but those of workloads and stamps.

  python3 table.py < stdin

Names, money and rows are those of docs/MODEL.md, and Debug texts those of Rust. A stream is a list of calls, of which
each moves bytes, is interrupted or fails. Python's hashlib gives the hashes. The levels of a tree are made one from
another, as docs/TRACE.md says under "Merkle token"; nothing in stdout was printed by the program.
"""
import hashlib
import os
import re
import sys

HERE = os.path.dirname(os.path.realpath(__file__))
KINDS = ["Done", "Total", "NoSuchName", "BadAmount", "Insufficient", "OutOfRange"]


def sha256(*parts):
    return hashlib.sha256(b"".join(parts)).digest()


def u32(number):
    return number.to_bytes(4, "big")


def i64(number):
    return number.to_bytes(8, "big", signed=True)


def spelled(reply):
    """A reply's nine bytes. It is said by its kind, or by the cents of a total."""
    return bytes([KINDS.index(reply)]) + i64(0) if reply in KINDS else b"\1" + i64(int(reply))


def leaf(number, text):
    return sha256(b"\0", u32(number), text)


def node(left, right):
    return sha256(b"\1", left, right)


def root(level):
    """Level by level: pairs from the left, and an odd last hash goes up as it is."""
    while len(level) > 1:
        pairs = [node(level[i], level[i + 1]) for i in range(0, len(level) - 1, 2)]
        level = pairs + level[2 * len(pairs) :]
    return level[0]


def rows_root(balances):
    return root([leaf(row, i64(cents)) for row, cents in enumerate(balances)])


def root_of_six(balances):
    """Of six rows, node by node: the last pair goes up by itself."""
    a, b, c, d, e, f = (leaf(row, i64(cents)) for row, cents in enumerate(balances))
    return node(node(node(a, b), node(c, d)), node(e, f))


def token(version, number, balances, replies):
    if version == 1:
        return sha256(b"EVESB1", u32(number), *map(i64, balances), *map(spelled, replies))
    replies_root = root([leaf(index, spelled(reply)) for index, reply in enumerate(replies)])
    return sha256(b"EVESB2", u32(number), rows_root(balances), replies_root)


def spelled_bytes(word):
    """The bytes of a word: those in braces are written in hexadecimal."""
    parts = re.split(r"\{(\w*)\}", word)
    return b"".join(bytes.fromhex(it) if i % 2 else it.encode() for i, it in enumerate(parts))


def is_name(found):
    return 1 <= len(found) <= 24 and all(0x21 <= byte <= 0x7E for byte in found)


def shown(number):
    return "None" if number is None else f"Some({number})"


def quoted(found):
    return f'"{found.decode()}"'


def bool_text(value):
    return "true" if value else "false"


def of_names(limit, *words):
    names, told = [], ["empty true"]
    number = lambda it: names.index(it) if it in names else None
    for name in map(spelled_bytes, words):
        if not is_name(name):
            answer = "Err(BadName)"
        elif name in names:
            answer = "Err(SameName)"
        elif len(names) == int(limit):
            answer = "Err(Full)"
        else:
            names.append(name)
            answer = f"Ok({len(names) - 1})"
        told.append(f"{answer} {shown(number(name))} {len(names)}")
    numbers = [shown(number(spelled_bytes(it))) for it in words]
    return " " + "; ".join([*told, f"empty {bool_text(not names)}, numbers {' '.join(numbers)}"])


def of_name(word):
    name = spelled_bytes(word)
    return f" true, {len(name)} bytes, the same true, and true" if is_name(name) else " false, none"


def of_money(number, most):
    return f" {number} cents" if abs(int(number)) <= most else " out of range"


def of_rows(customer):
    return f" saving {2 * int(customer)}, checking {2 * int(customer) + 1}"


def of_balances(count, *sets):
    balances = [0] * int(count)
    for word in sets:
        row, value = map(int, word.split("="))
        balances[row] = value
    told = f"{len(balances)}, empty {bool_text(not balances)}" + "".join(f", {it}" for it in balances)
    told += ", all" + "".join(f" {it}" for it in balances)
    return f" {told}; copied {told}"


def of_send(call, *words):
    """Each call takes a byte; the one that fails takes none, and the rest of its part isn't sent."""
    taken, calls, failed, told = b"", 0, 0, ""
    for part in map(spelled_bytes, words):
        answer = "Ok(())"
        for byte in part:
            calls += 1
            if calls == int(call):
                answer, failed = "Err(SendFault)", failed + 1
                break
            taken += bytes([byte])
        told += f" {answer},"
    return f"{told} {failed} failed, taken {quoted(taken)}"


def of_fetch(call, limit, word):
    """Each call gives a byte, as long as there are some and no more than the limit and one are read."""
    left, read, calls = spelled_bytes(word), b"", 0
    while len(read) < int(limit) + 1:
        calls += 1
        if calls == int(call):
            return f" Read, 1 failed, left {quoted(left)}"
        if not left:
            break
        read, left = read + left[:1], left[1:]
    return f" read {quoted(read)}, 0 failed, left {quoted(left)}"


class Device:
    """Takes its turns one after another, and then moves nothing."""

    def __init__(self, turns, most):
        self.turns, self.calls, self.moved, self.failed = turns.split(","), most, 0, 0

    def call(self, room):
        """Moves so many bytes at most, and says how many, None where it fails; again after an interruption."""
        while self.calls > 0:
            self.calls -= 1
            turn = self.turns.pop(0) if self.turns else "0"
            if turn == "fails":
                break
            if turn != "again":
                self.moved += min(int(turn), room)
                return min(int(turn), room)
        self.failed += 1
        return None

    def told(self):
        return f"{self.failed} failed, {self.moved} moved"


def of_write_to(turns, word):
    device, left = Device(turns, 2**31), len(spelled_bytes(word))
    while left:
        moved = device.call(left)
        if not moved:
            device.failed = 1
            return f" Err(SendFault), {device.told()}"
        left -= moved
    return f" Ok(()), {device.told()}"


def of_tries(count, turns, word):
    device = Device(turns, int(count))
    moved = device.call(len(spelled_bytes(word)))
    return f" {'Err(SendFault)' if moved is None else f'Ok({moved})'}, {device.told()}"


def of_reads(count, turns, limit):
    device, told, read = Device(turns, int(count)), None, 0
    while told is None:
        moved = device.call(int(limit) + 1 - read) if read <= int(limit) else 0
        read += moved or 0
        told = "Read" if moved is None else None if moved else f"{read} bytes"
    told = f" {told}, {device.told()}"
    moved = device.call(1)
    return f"{told}; {'Err(FetchFault)' if moved is None else f'Ok({moved})'}"


def of_buffer(call):
    """A buffer of 65,536 bytes is sent on where it is full and more comes, and where it is flushed."""
    call, whole, room = int(call), 400_000, 65_536
    sent = held = calls = failed = 0

    def sent_on():
        nonlocal sent, held, calls, failed
        if held:
            calls += 1
            if calls == call:
                failed += 1
                return False
            sent, held = sent + held, 0
        return True

    def taken(count):
        nonlocal held
        while count:
            if held == room and not sent_on():
                return False
            part = min(count, room - held)
            held, count = held + part, count - part
        return True

    text = lambda fine: "Ok(())" if fine else "Err(SendFault)"
    state = lambda: f" {sent} sent, {held} held, in order true, {failed} failed"
    fine = all(taken(40) for _ in range(whole // 40))
    # Of the part at which the sink failed, those bytes are taken for which there was room.
    told = f" {text(fine)},{state()}"
    told += f"; the rest {text(taken(whole - sent - held))},"
    told += f" {text(sent_on())}, {text(sent_on())},"
    return told + state()


def cents(text):
    return [int(word) for word in text.split(",")]


def in_trace(name, found):
    """How often the trace of that name has these bytes, if there is one."""
    try:
        with open(f"{HERE}/data/{name}.trace", "rb") as trace:
            return f", {trace.read().count(found)} times in its trace"
    except FileNotFoundError:
        return ""


def tell_token(name, version, number, balances, replies):
    balances = cents(balances)
    due = token(int(version), int(number), balances, replies.split(","))
    print(f"{name}: token {due.hex()}{in_trace(name, due)}")
    if version == "2":
        print(f"{name}: root {rows_root(balances).hex()}, whose token is {due.hex()}")


def tell_writes(name, balances, *writes):
    balances = cents(balances)
    print(f"{name}: {root_of_six(balances).hex()}")
    for write in writes:
        row, value = map(int, write.split("="))
        balances[row] = value
        print(f"{name}: {write} {root_of_six(balances).hex()}")


def tell_random(name, count, balances):
    """That many writes, drawn by the generator that the program has."""
    balances, count, seed = cents(balances), int(count), 1
    for _ in range(count):
        seed = (seed * 6364136223846793005 + 1442695040888963407) % 2**64
        balances[(seed >> 33) % len(balances)] = (seed >> 61) - 4
    print(f"{name}: {count} roots are those of new trees, the last is {rows_root(balances).hex()}")


SAID = {
    "names": of_names,
    "name": of_name,
    "cents": lambda number: of_money(number, 10**15),
    "amount": lambda number: of_money(number, 10**12),
    "rows": of_rows,
    "balances": of_balances,
    "send": of_send,
    "fetch": of_fetch,
    "read": lambda limit, word: of_fetch(0, limit, word),
    "write-to": of_write_to,
    "tries": of_tries,
    "read-from": lambda turns, limit: of_reads(2**31, turns, limit),
    "reads": of_reads,
    "buffer": of_buffer,
}
TELL = {"token": tell_token, "writes": tell_writes, "random": tell_random}

for line in sys.stdin.read().splitlines():
    what, *words = line.split(" ")
    if what in ("workload", "stamps"):
        continue
    if what in SAID:
        print(f"{line}:{SAID[what](*words)}")
    else:
        TELL[what](*words)
