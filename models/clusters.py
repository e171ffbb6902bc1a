#!/usr/bin/env python3
"""What `clusters` has to print, worked out independently of it from the CSV files in the current folder."""
import hashlib
import re
import struct


def fnv64(data):
    h = 0xCBF29CE484222325
    for byte in data:
        h = (h ^ byte) * 0x00000100000001B3 % 2**64
    return h


def whole(text):
    """A whole number within 64 bits, signed, or None."""
    if not re.fullmatch(r"[+-]?[0-9]+", text):
        return None
    number = int(text)
    return number if -(2**63) <= number < 2**63 else None


def parse(line):
    """(tag, time, value), or what is wrong."""
    try:
        text = line.decode("utf-8")
    except UnicodeDecodeError:
        return "not text"
    fields = text.split(",")
    if len(fields) != 3:
        return "not three fields"
    tag, time, value = fields
    if not tag:
        return "no tag"
    if len(tag.encode()) > 32:
        return "a tag of more than 32 bytes"
    if whole(time) is None:
        return "the time is not a whole number"
    if whole(value) is None:
        return "the value is not a whole number"
    return tag.encode(), whole(time), whole(value)


def load(name, path, stores):
    """The records of a file, kept in the first of the stores unless one of them has the chunk."""
    print(f"reading {name} from {path}")
    records, corrected, malformed, taken, held, cost = {}, 0, 0, 0, 0, 0
    with open(path, "rb") as file:
        lines = file.read().split(b"\n")
    if lines[-1] == b"":
        lines.pop()
    for number, line in enumerate(lines, 1):
        reading = parse(line)
        if isinstance(reading, str):
            malformed += 1
            print(f"  {path}, line {number}, left out: {reading}")
            continue
        tag, time, value = reading
        data = bytes([len(tag)]) + tag + struct.pack(">qq", time, value)
        address = hashlib.sha256(data).hexdigest()
        if any(address in store for store in stores):
            held += 1
        else:
            taken += 1
            cost += -(-(32 + len(data)) // 504)
            stores[0][address] = data
        corrected += (tag, time) in records
        records[tag, time] = (value, address, f"{fnv64(data):016x}")
    print(f"  {len(records)} records; {corrected} lines corrected an earlier one, {malformed} could not be read")
    print(f"  {taken} chunks taken for {cost} units, {held} held already, 0 refused")
    return records


def show(name, place, record):
    tag, time = place
    value, sha256, fnv = record
    print(f"  {tag.decode():<14} {time} {name:<5} {value:>6}  sha256 {sha256[:8]}  fnv64 {fnv[:8]}")


def read_back(name, records, stores):
    count = sum(any(address in store for store in stores) for _, address, _ in records.values())
    print(f"read back from {name}, each checked against its address: {count} of {len(records)}")


def main():
    north_store, archive_store, south_store = {}, {}, {}
    north = load("north", "north.csv", [north_store])
    load("the archive of south", "archive.csv", [archive_store])
    south = load("south", "south.csv", [south_store, archive_store])
    places = sorted(set(north) | set(south))
    same = [p for p in places if north.get(p) == south.get(p)]
    differ = [p for p in places if p in north and p in south and north[p] != south[p]]
    only_north = [p for p in places if p not in south]
    only_south = [p for p in places if p not in north]
    for title, names, chosen in (
        ("the same in both", ("both",), same),
        ("different", ("north", "south"), differ),
        ("only in north", ("north",), only_north),
        ("only in south", ("south",), only_south),
    ):
        print(title)
        for place in chosen:
            for name in names:
                show(name, place, (south if name == "south" else north)[place])
    print(f"{len(same)} the same, {len(differ)} different, {len(only_north)} only in north, {len(only_south)} only in south")
    sums = [sum(record[0] for record in records.values()) for records in (north, south)]
    print(f"the values of north add up to {sums[0]}, those of south to {sums[1]}")
    read_back("north", north, [north_store])
    read_back("south", south, [south_store, archive_store])
    first = south[min(south)][1]
    zero = "0" * 64
    print("what refusals look like")
    print(f"  a chunk of 2489 bytes: refused 1 {zero} store")
    print(f"  an address that has nothing: refused 5 {hashlib.sha256(b'nobody put this').hexdigest()} store")
    print(f"  a buffer of 8 bytes: refused 6 {first} store")
    print(f"  a root that is not the old one: refused 7 {zero} store")
    print(f"  a store of one unit that is full: refused 4 {hashlib.sha256(b'the second').hexdigest()} store")


main()
