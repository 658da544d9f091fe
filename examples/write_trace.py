#!/usr/bin/env python3
"""Writes a trace of one replica that ran one batch: ann deposits 500 cents, then asks for her balance.

    python3 examples/write_trace.py > my.trace && ./eve audit < my.trace
"""
import hashlib
import struct
import sys


def frame(kind, body=b""):                         # every frame: its kind, the length of its body, its body
    return struct.pack(">BI", kind, len(body)) + body

def name(text):
    return bytes([len(text)]) + text.encode()

def entry(row, kind, version, seen, after):        # kind 0 reads, 1 writes; a read leaves what it saw
    return struct.pack(">IBQqq", row, kind, version, seen, after)

def access(worker, place, index, *entries):        # one record for each request of the batch
    return frame(0x12, struct.pack(">BHHB", worker, place, index, len(entries)) + b"".join(entries))

customer = frame(0x01, name("ann") + struct.pack(">qq", 0, 0))       # ann's rows: 0 is her saving, 1 her checking
requests = [struct.pack(">IQB", 7, 1, 2) + name("ann") + struct.pack(">q", 500),   # client 7, number 1: deposit
            struct.pack(">IQB", 7, 2, 1) + name("ann")]                            # client 7, number 2: balance
batch = frame(0x02, struct.pack(">IHHH", 1, 2, 1, 1) + b"".join(requests))  # batch 1, two parallelBatches of one each
certificate = struct.pack(">HH", 0, 1)                               # the order in which the requests took effect
replies = struct.pack(">Bq", 0, 0) + struct.pack(">Bq", 1, 500)      # Done, Total 500: by request index
balances = struct.pack(">qq", 0, 500)                                # of all rows, after the batch
token = hashlib.sha256(b"EVESB1" + struct.pack(">I", 1) + balances + replies).digest()

section = (frame(0x10, b"\0")                                        # replica 0
           + frame(0x11, struct.pack(">IIBH", 1, 0, 0, 2) + certificate + replies + token)   # batch 1, view 0, parallel
           + access(0, 0, 0, entry(1, 1, 0, 0, 500))                 # the deposit wrote row 1: version 0, 0 to 500
           + access(0, 1, 1, entry(0, 0, 0, 0, 0), entry(1, 0, 1, 500, 500))   # the balance read rows 0 and 1
           + frame(0x13, struct.pack(">II", 1, 0) + token))          # batch 1 is committed in view 0
votes = frame(0x20, b"\0") + frame(0x21, struct.pack(">IIB", 1, 0, 1) + token)   # verifier 0 votes commit
sent = frame(0x30, struct.pack(">IQBI", 7, 1, 0, 1) + replies[:9])   # replica 0 answered the deposit: optional

frames = customer + batch + section + votes + sent + frame(0x7F)
counts = struct.pack(">BBBBB3x", 1, 1, 1, 1, 1)                      # replicas, verifiers, quorum, window, workers
header = b"EVESBK" + struct.pack(">H", 1) + counts + struct.pack(">IIQ", 1, 1, 32 + len(frames))
sys.stdout.buffer.write(header + frames)
