#!/usr/bin/env python3
"""Writes the example traces: those in README.md beside this file, and all of them where the program `reports` reads them."""
import pathlib
import struct

MODEM = [(10, 0, 0), (4, 20, 2), (1, 50, 9)]


def record(kind, body=b""):
    return struct.pack("<HH", 2 + len(body), kind) + body


def table(number, rows):
    cells = b"".join(struct.pack("<III", *row) for row in rows)
    return record(1, struct.pack("<HB", number, len(rows)) + cells)


def limit(latency):
    return record(2, struct.pack("<I", latency))


def ticks(count):
    return record(3, struct.pack("<I", count))


def request(number, note=b""):
    return record(4, struct.pack("<H", number) + note)


def release(number):
    return record(5, struct.pack("<H", number))


def report(number, code):
    return record(6, struct.pack("<HI", number, code))


END = record(7)
START = table(7, MODEM)

# in README.md
SHOWN = "listing stuck jam limit limit_jam stop_1 stop_2 stop_3 stop_4 stop_4_after_end stop_5 stop_12 stop_13 stop_14 stop_21 stop_22 stop_23 stop_25".split()

EXAMPLES = {
    "listing": START + ticks(12) + request(7, b"sbd") + ticks(3) + release(7) + ticks(4) + request(7) + release(7) + ticks(2) + END,
    "stuck": START + ticks(3) + report(7, 9) + ticks(1) + report(7, 0) + ticks(1) + request(7) + release(7) + END,
    "jam": START + ticks(5) + report(7, 5) + request(7, b"first") + report(7, 0) + request(7, b"again") + END,
    "limit": START + limit(8) + ticks(12) + request(7) + release(7) + END,
    "limit_jam": START + limit(8) + ticks(5) + report(7, 5) + request(7) + END,
    "stop_1": START + ticks(3),
    "stop_2": START + record(9) + END,
    "stop_3": START + ticks(0) + END,
    "stop_4": START + ticks(1) + limit(8) + END,
    "stop_4_after_end": START + END + b"\0",
    "stop_5": START + ticks(1) * 8192 + END,
    "stop_12": table(7, MODEM[:1]) + END,
    "stop_13": table(7, [(10, 0, 0), (4, 20, 100001)]) + END,
    "stop_14": table(7, [(10, 0, 0), (10, 20, 2)]) + END,
    "stop_21": START + request(7) + request(7) + END,
    "stop_22": START + ticks(1) + release(7) + END,
    "stop_23": START + ticks(1000000) + ticks(1) + END,
    "stop_25": START + ticks(1) + request(8) + END,
    # lengths of 0 and 1, with fewer and with no fewer than four bytes left
    "length_0_of_two_bytes": START + b"\0\0",
    "length_1_of_three_bytes": START + b"\1\0\7",
    "length_0": START + b"\0\0\7\0",
    "length_1": START + b"\1\0\7\0",
    # the order of the checks
    "empty": b"",
    "cut_unknown_kind": START + b"\5\0\x63\0",
    "unknown_kind_wrong_body": START + record(0x0107, b"?"),
    "late_limit_wrong_body": START + ticks(1) + record(2, b"?"),
    "limit_twice": START + limit(9) + limit(9) + END,
    "table_twice": START + START + END,
    "no_rows": record(1, struct.pack("<HB", 7, 0)) + END,
    "seventeen_rows": table(7, [(100 - i, i, 0) for i in range(17)]) + END,
    # attach comes once the record after table and limit has passed its checks
    "unfit_then_nothing": table(7, MODEM[:1]),
    "unfit_then_wrong_body": table(7, MODEM[:1]) + ticks(0) + END,
    "unfit_then_trailing": table(7, MODEM[:1]) + END + b"\0",
    "unfit_then_other_number": table(7, MODEM[:1]) + request(8) + END,
    "other_number_first": START + request(8) + END,
    "other_number_bad_note": START + request(8, b" ") + END,
    # ticks, leases and notes
    "million_passed_inside": START + ticks(999999) + ticks(5) + END,
    "lease_out_at_end": START + ticks(2) + request(7) + ticks(1) + END,
    "lease_out_at_stop": START + ticks(2) + request(7) + release(8) + END,
    "release_of_other_number": START + release(8) + END,
    "report_of_other_number": START + report(8, 1) + END,
    "gap_of_no_ticks": START + request(7, b"-") + END,
    "note_of_16": START + ticks(1) + request(7, b"0123456789abcdef") + release(7) + END,
    "note_of_17": START + ticks(1) + request(7, b"0123456789abcdefg") + END,
    "note_with_space": START + ticks(1) + request(7, b"a b") + END,
    "sixteen_states": table(7, [(100 - i, i * i, i) for i in range(16)]) + ticks(40) + request(7) + END,
    "full": START + request(7, b"!") + report(7, 0) + ticks(1) * 8184 + END,
}

here = pathlib.Path(__file__).parent
tested = here.parent / "crates" / "reports" / "data"
for name, trace in EXAMPLES.items():
    (tested / (name + ".trace")).write_bytes(trace)
    if name in SHOWN:
        (here / (name + ".trace")).write_bytes(trace)
