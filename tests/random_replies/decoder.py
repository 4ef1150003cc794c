"""A strict decoder of replies, of the tests' own, which keeps where each name stands and how it is spelled, and the rules of
pointers (RFC 1035, section 4.1.4), checked on what it decoded."""

import struct
from typing import NamedTuple

NS, CNAME, SOA, PTR, MX = 2, 5, 6, 12, 15
# The types whose data have names that may point: how many octets stand before the names, how many names, and the octets behind.
POINTING = {NS: (0, 1, 0), CNAME: (0, 1, 0), PTR: (0, 1, 0), SOA: (0, 2, 20), MX: (2, 1, 0)}
CANDIDATES, LAST_PLACE = 64, 0x3FFF


class Wrong(Exception):
    """A reply that isn't as it has to be."""


class Spelled(NamedTuple):
    """A name: its labels, its place, how many labels stand there in full, and the place that a pointer behind them leads to."""
    labels: tuple
    place: int
    count: int
    target: object  # a place, or None where the name stands in full
    end: int


class Decoded(NamedTuple):
    """A record: its parts, its names as they are spelled, its octets in full, and where it stands."""
    owner: Spelled
    type: int
    rclass: int
    ttl: int
    names: list
    in_full: bytes
    place: int
    end: int


class Message(NamedTuple):
    id: int
    flags: int
    asked: list  # names as they are spelled
    question_end: int
    sections: list


def octets_of(labels):
    return b"".join(bytes([len(label)]) + label for label in labels) + b"\0"


def labels_at(octets, place, most):
    """Labels that stand at a place, up to the end of the name or a pointer, which they end before `most`."""
    labels = []
    while True:
        if place >= most:
            raise Wrong(f"a name runs past {most}")
        length = octets[place]
        if length == 0:
            return labels, None, place + 1
        if length >= 0xC0:
            if place + 2 > most:
                raise Wrong(f"a pointer runs past {most}")
            return labels, (length & 0x3F) << 8 | octets[place + 1], place + 2
        if length > 63:
            raise Wrong(f"a label of kind {length:#x} at {place}")
        if place + 1 + length > most:
            raise Wrong(f"a label runs past {most}")
        labels.append(octets[place + 1 : place + 1 + length])
        place += 1 + length


def name_at(octets, place, most, may_point):
    labels, target, end = labels_at(octets, place, most)
    spelled = Spelled(tuple(labels), place, len(labels), target, end)
    if target is not None and not may_point:
        raise Wrong(f"a pointer at {end - 2}, where names stand in full")
    start, next_target = place, target
    while next_target is not None:
        if not 12 <= next_target < start:
            raise Wrong(f"a pointer in the name at {place} leads to {next_target}")
        start = next_target
        more, next_target, _ = labels_at(octets, start, len(octets))
        labels += more
    if len(octets_of(labels)) > 255:
        raise Wrong(f"the name at {place} has more than 255 octets")
    return spelled._replace(labels=tuple(labels))


def record_at(octets, place):
    owner = name_at(octets, place, len(octets), True)
    if owner.end + 10 > len(octets):
        raise Wrong(f"the record at {place} is cut")
    kind, rclass, ttl, length = struct.unpack_from(">HHIH", octets, owner.end)
    at, end = owner.end + 10, owner.end + 10 + length
    if end > len(octets):
        raise Wrong(f"the data of the record at {place} are cut")
    names, data = [], b""
    if kind in POINTING:
        before, count, behind = POINTING[kind]
        data, at = octets[at : at + before], at + before
        for _ in range(count):
            names.append(name_at(octets, at, end, True))
            data, at = data + octets_of(names[-1].labels), names[-1].end
        if end - at != behind:
            raise Wrong(f"{end - at} octets behind the names of the record at {place}")
    data += octets[at:end]
    in_full = octets_of(owner.labels) + struct.pack(">HHIH", kind, rclass, ttl, len(data)) + data
    return Decoded(owner, kind, rclass, ttl, names, in_full, place, end)


def decode(octets):
    """The message that the octets are, whole: as many records as the header counts, and nothing behind."""
    if len(octets) < 12:
        raise Wrong("shorter than a header")
    id, flags, questions, *counts = struct.unpack_from(">6H", octets)
    at, asked, sections = 12, [], []
    for _ in range(questions):
        asked.append(name_at(octets, at, len(octets), False))
        at = asked[-1].end + 4
    if at > len(octets):
        raise Wrong("a question is cut")
    question_end = at
    for count in counts:
        sections.append([])
        for _ in range(count):
            sections[-1].append(record_at(octets, at))
            at = sections[-1][-1].end
    if at != len(octets):
        raise Wrong(f"{len(octets) - at} octets behind the last record")
    return Message(id, flags, asked, question_end, sections)


def left_out_of(name):
    """How many of the longest suffixes of a question's name are no candidates: of a long name the shorter are."""
    return len(name.labels) - (CANDIDATES - 1) if len(octets_of(name.labels)) - 1 > 2 * CANDIDATES else 0


def keep(kept, name, count, left_out=0):
    """Keeps the suffixes of a name that begin with its first labels, so many, as candidates: by their octets, their place.
    Behind the name itself the first may be left out."""
    place = name.place
    for at in range(count):
        if 0 < at < left_out:
            pass
        elif len(kept) < CANDIDATES and place < LAST_PLACE:
            kept.setdefault(octets_of(name.labels[at:]), place)
        place += 1 + len(name.labels[at])


def check_name(kept, name):
    """A name points to its longest suffix that is kept, or stands in full."""
    for at in range(len(name.labels)):
        place = kept.get(octets_of(name.labels[at:]))
        if place is not None:
            if (name.count, name.target) != (at, place):
                raise Wrong(f"the name at {name.place} has {name.count} labels and leads to {name.target}: {at} and {place} are "
                            "its longest suffix")
            return keep(kept, name, at)
    if name.target is not None:
        raise Wrong(f"the name at {name.place} leads to {name.target}, where no name is kept")
    keep(kept, name, len(name.labels))


def check_pointers(message):
    """That each name points where the rules say, and no record is longer than in full. How many names point, how many
    candidates there were, and how many names came behind the last place that is kept."""
    kept, pointing, beyond, first = {}, 0, 0, None
    if message.asked:
        keep(kept, message.asked[0], len(message.asked[0].labels), left_out_of(message.asked[0]))
    for record in (it for section in message.sections for it in section):
        if record.end - record.place > len(record.in_full):
            raise Wrong(f"the record at {record.place} is longer than in full")
        # (the first record's owner, in full or not, is what each later one of the same owner leads to)
        if first and record.owner.labels == first.labels and first.labels and octets_of(first.labels) in kept:
            if record.owner.end - record.owner.place != 2:
                raise Wrong(f"the record at {record.place} spells the first one's owner again")
        for name in [record.owner, *record.names]:
            check_name(kept, name)
            pointing += name.target is not None
            beyond += name.place >= LAST_PLACE
        first = first or record.owner
    return pointing, len(kept), beyond
