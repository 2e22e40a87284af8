"""What `time_bench` hands on, which the scripts of bench/ time: calls of each crate that it links, and words that it hasn't.

The outputs are worked out by hand: a listing of `exit` has five bytes, and a change leaves data and a write record.
"""
from __future__ import annotations

from tables import TIMED, WATCH, Row, Tables

WATCHING = bytes.fromhex(WATCH)

CALLS = [
    Row(["programs", "list", "1"], out=b"50000\n", program=TIMED),
    Row(["programs", "verify", "64"], out=b"64000\n", program=TIMED),
    Row(["programs", "run", "i", "3"], {"i": WATCHING}, out=b"result 0 taken 2 writes 0\n", program=TIMED),
    Row(["programs", "step", "i", "3"], {"i": WATCHING}, out=b"result 0 taken 2 writes 0\n", program=TIMED),
    Row(["tablets", "list", "build", "1000"], out=b"1000\n", program=TIMED),
    Row(["tablets", "slab", "walk", "100"], out=b"100\n", program=TIMED),
    Row(["tablets", "slab", "change", "10"], out=b"20\n", program=TIMED),
    Row(["tablets", "slab", "copy", "1000", "3"], out=b"3\n", program=TIMED),
    Row(["workers", "2", "20", "spread", "0"], out=None, judge=lambda out: [] if out.endswith(b" 0\n") else ["changes are left"], program=TIMED),
]

WRONG = [[], ["gone"], ["programs"], ["programs", "run", "gone", "1"], ["tablets", "list", "build"], ["workers", "64", "1", "one", "0"]]

TABLES: Tables = {
    "a call of each crate that is timed": CALLS,
    "no such words to time": [Row(words, status=1, program=TIMED) for words in WRONG],
}
