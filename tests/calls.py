"""The stored calls of vectors/calls.jsonl: a build, a tape, and what it answers and leaves; the
page, and lookups.  They were made by another implementation than the reference."""

import collections
import json

import reference as r

Call = collections.namedtuple("Call", "size capacity requests taped left page lookups")


def call_of(line):
    case = json.loads(line)
    size = case["columns"], case["rows"], case["mode"]
    values = [int(bits, 16) for bits in case["values"]]
    looked = [((speed, load), r.Found(why, number, status, int(bits, 16))) for speed, load, number, status, bits, why in case["lookups"]]
    return Call(
        size,
        case["capacity"],
        bytes.fromhex(case["tape"]),
        r.Taped(case["done"], case["refusal"], case["offset"]),
        (r.Header(*size, case["mark"]), case["table"], values, case["counts"]),
        case["page"].encode("ascii"),
        looked,
    )


def stored(folder):
    return [call_of(line) for line in (folder / "calls.jsonl").read_text().splitlines()]
