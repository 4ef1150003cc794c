#!/usr/bin/python3
"""Replies with pointers (RFC 1035, section 4.1.4), laid out independently of the libraries.

    tests/rows/compress.py OCTETS [MAXIMUM]    prints a message, in hex, with pointers in the place of names, within a maximum
    tests/rows/compress.py compare             compares every reply of `vectors` with what its records in full are laid out as,
                                               and both with dnspython: by hand, since the gate needs no dnspython

Which names point is told by ROWS.md. A record is left out where a part of it, its names counted in full, would pass the maximum
while it is written; its names aren't pointed to then, the rest of its list is left out too, and the next list is still tried."""
import os
import struct
import sys

VECTORS = os.path.join(os.path.dirname(os.path.realpath(__file__)), "vectors")

# The types whose data have names that point: how many octets stand before the names, and how many names.
NS, CNAME, SOA, PTR, MX, OPT, TSIG = 2, 5, 6, 12, 15, 41, 250
POINTING = {NS: (0, 1), CNAME: (0, 1), PTR: (0, 1), SOA: (0, 2), MX: (2, 1)}
MOST, PLACES, TC = 64, 0x3FFF, 0x0200


class Full(Exception):
    """No room within the maximum."""


# Reading.

def name_at(octets, place):
    """The octets of a name in full, and where what stands behind it begins."""
    labels, end, last = b"", None, place
    while octets[place]:
        if octets[place] < 64:
            labels += octets[place : place + 1 + octets[place]]
            place += 1 + octets[place]
        else:
            target = (octets[place] & 63) << 8 | octets[place + 1]
            assert octets[place] >= 192 and target < last, f"a pointer at {place} to {target}"
            end = end or place + 2
            place = last = target
    return labels + b"\0", end or place + 1


def end_of(octets, place):
    """Where the octets of a name end, and whether it stands there in full."""
    while 0 < octets[place] < 64:
        place += 1 + octets[place]
    return (place + 1, True) if octets[place] == 0 else (place + 2, False)


def record_at(octets, place):
    """The octets of a record in full, and where the next one begins."""
    owner, at = name_at(octets, place)
    kind, length = struct.unpack(">H6xH", octets[at : at + 10])
    fixed, at = octets[at : at + 8], at + 10
    end, data = at + length, b""
    if kind in POINTING and length:
        before, count = POINTING[kind]
        data, at = octets[at : at + before], at + before
        for _ in range(count):
            name, at = name_at(octets, at)
            data += name
    assert at <= end <= len(octets), f"data of {length} octets at {at}"
    data += octets[at:end]
    return owner + fixed + struct.pack(">H", len(data)) + data, end


def parts_of(octets):
    """A message's identifier, flags, number of questions, questions as they stand, and the records of its sections in full."""
    ident, flags, questions, *counts = struct.unpack(">6H", octets[:12])
    at, sections = 12, []
    for _ in range(questions):
        at = end_of(octets, at)[0] + 4
    asked = octets[12:at]
    for count in counts:
        sections.append([])
        for _ in range(count):
            record, at = record_at(octets, at)
            sections[-1].append(record)
    assert at == len(octets), f"{len(octets) - at} octets behind the last record"
    return ident, flags, questions, asked, sections


def in_full(octets):
    """The message with names in full."""
    ident, flags, questions, asked, sections = parts_of(octets)
    counts = [len(records) for records in sections]
    return struct.pack(">6H", ident, flags, questions, *counts) + asked + b"".join(map(b"".join, sections))


# Writing.

def suffixes(name):
    """Where the suffixes of a name in full begin that have labels, the longest first."""
    at = 0
    while name[at]:
        yield at
        at += 1 + name[at]


def kept_of_question(name):
    """Where those begin that are kept for a question's name: the longest first, but beside a long name the shorter."""
    starts = list(suffixes(name))
    left_out = len(starts) - (MOST - 1) if len(name) - 1 > 2 * MOST else 0
    return starts[:1] + starts[max(left_out, 1):]


class Encoder:
    def __init__(self, maximum=65535):
        self.octets, self.maximum = bytearray(), maximum
        self.kept = []  # of each name that later ones may point to: its octets in full, its place, and where it ends

    def ask(self, count):
        if len(self.octets) + count > self.maximum:
            raise Full

    def put(self, octets):
        self.ask(len(octets))
        self.octets += octets

    def keep(self, name, starts, place, end):
        for start in starts:
            if len(self.kept) < MOST and place + start < PLACES:
                self.kept.append((name[start:], place + start, end))

    def name(self, name):
        """A name in full, which points to the longest of its suffixes that is kept."""
        self.ask(len(name))
        place, starts = len(self.octets), list(suffixes(name))
        for index, start in enumerate(starts):
            for octets, target, _ in self.kept:
                if octets == name[start:]:
                    self.octets += name[:start] + struct.pack(">H", 0xC000 | target)
                    self.keep(name, starts[:index], place, len(self.octets))
                    return
        self.octets += name
        self.keep(name, starts, place, len(self.octets))

    def data(self, kind, data):
        at = 0
        if kind in POINTING and data:
            at, count = POINTING[kind]
            self.put(data[:at])
            for _ in range(count):
                name, at = name_at(data, at)
                self.name(name)
        self.put(data[at:])

    def record(self, record):
        """Writes a record that is given in full, or nothing of it; whether it did."""
        owner, at = name_at(record, 0)
        start, (kind,) = len(self.octets), struct.unpack(">H", record[at : at + 2])
        try:
            # (names stand in full, and are none to point to, in an owner of signatures and in other data)
            self.put(owner) if kind == TSIG else self.name(owner)
            self.put(record[at : at + 8])
            self.put(b"\0\0")
            place = len(self.octets)
            self.data(kind, record[at + 10 :])
        except Full:
            del self.octets[start:]
            self.kept = [it for it in self.kept if it[2] <= start]
            return False
        self.octets[place - 2 : place] = struct.pack(">H", len(self.octets) - place)
        return True

    def records(self, records):
        """How many records of a list are written, up to the first that isn't."""
        for count, record in enumerate(records):
            if not self.record(record):
                return count
        return len(records)


def kind_of(record):
    at = name_at(record, 0)[1]
    return int.from_bytes(record[at : at + 2], "big")


def laid_out(ident, flags, questions, asked, sections, maximum=65535):
    """A message of these parts, the questions being so many octets, within a maximum."""
    encoder = Encoder(maximum)
    encoder.put(bytes(12) + asked)
    if questions:
        end, is_full = end_of(encoder.octets, 12)
        if is_full:
            name = bytes(encoder.octets[12:end])
            encoder.keep(name, kept_of_question(name), 12, end)
    counts = []
    for records in sections:
        # Options stand behind the additional records, whether or not these are all there, and signatures last.
        lists = [[it for it in records if kind_of(it) not in (OPT, TSIG)]]
        lists += [[it for it in records if kind_of(it) == kind] for kind in (OPT, TSIG)]
        counts.append(sum(map(encoder.records, lists)))
    if counts != [len(records) for records in sections]:
        flags |= TC
    encoder.octets[:12] = struct.pack(">6H", ident, flags, questions, *counts)
    return bytes(encoder.octets)


def compressed(octets, maximum=65535):
    """A message with pointers where names can point, and without the records that don't fit."""
    return laid_out(*parts_of(octets), maximum)


# By hand.

def records_by_dnspython(octets):
    """The flags, the questions, and each record in order, as dnspython reads them, with the case of names."""
    import dns.message
    read = dns.message.from_wire(octets, one_rr_per_rrset=True)
    told = [(read.id, int(read.flags), read.edns, int(read.ednsflags), read.payload, [it.to_wire() for it in read.options])]
    for section in (read.question, read.answer, read.authority, read.additional):
        told.append([(it.name.labels, it.rdtype, it.rdclass, it.ttl, [data.to_wire() for data in it]) for it in section])
    return told


def same_by_dnspython(octets, plain):
    """Whether dnspython reads the same records in both, in the same order. Both are to have them all."""
    return records_by_dnspython(octets) == records_by_dnspython(plain)


def stored_replies():
    """The replies of `vectors`: the line of each, and its octets."""
    with open(f"{VECTORS}/stdin", encoding="utf-8") as asked, open(f"{VECTORS}/stdout", encoding="utf-8") as told:
        questions, answers = asked.read().split("\n"), told.read().split("\n")
    before = len(answers) - len(questions)
    for at, question in enumerate(questions):
        if question.split("\t")[0] in ("serve", "answers", "server", "transferred", "roads"):
            for reply in answers[before + at].split("\t"):
                if reply != "none":
                    yield before + at + 1, bytes.fromhex(reply)


def compare():
    """The number of replies that aren't what their records in full are laid out as; these are shown."""
    wrong = count = shorter = 0
    for line, octets in stored_replies():
        count, plain = count + 1, in_full(octets)
        shorter += len(octets) < len(plain)
        # (a question may have pointers into the header, which spell another name in the reply)
        has_names = not octets[5] or end_of(octets, 12)[1]
        if compressed(plain) != octets or has_names and len(octets) < len(plain) and not same_by_dnspython(octets, plain):
            wrong += 1
            print(f"line {line}: {octets.hex()}, expected {compressed(plain).hex()}")
    print(f"{count} replies, {shorter} of them with pointers; {wrong} wrong")
    return wrong


def main():
    if sys.argv[1:] == ["compare"]:
        sys.exit(1 if compare() else 0)
    if not sys.argv[1:]:
        sys.exit(__doc__)
    octets, *maximum = sys.argv[1:]
    print(compressed(bytes.fromhex(octets), *map(int, maximum)).hex())


if __name__ == "__main__":
    main()
