#!/usr/bin/env python3
"""Checks a stream of framed replies against the zone file and the questions that were asked.

    replies.py ZONEFILE QUESTIONS REPLIES

It knows the server by nothing but the protocol: what each reply has to hold is worked out
from the zone file's text, and the replies are decoded here, names with or without pointers.
"""

import collections
import ipaddress
import struct
import sys

sys.dont_write_bytecode = True
import generate

NO_ERROR, NX_DOMAIN, REFUSED = 0, 3, 5
QR, AA, RD = 0x8000, 0x0400, 0x0100
HEADER, DO = 12, 0x8000

# A zone: its origin, the records by owner and then type, and all owners with the names above them.
Zone = collections.namedtuple("Zone", "origin owners names")
Record = collections.namedtuple("Record", "owner type rclass ttl data")
Message = collections.namedtuple("Message", "id flags questions question_octets answers authorities additionals")


class Wrong(Exception):
    """A reply that is not what it has to be."""


def read_name(message, place):
    """The name at a place, in lower case with its last dot, and the place behind it."""
    labels, behind, lowest = [], None, place
    while True:
        if place >= len(message):
            raise Wrong("a name ends behind the message")
        length = message[place]
        if length >= 0xC0:
            if place + 1 >= len(message):
                raise Wrong("a pointer ends behind the message")
            target = (length & 0x3F) << 8 | message[place + 1]
            behind = place + 2 if behind is None else behind
            if target >= lowest:
                raise Wrong("a pointer does not point back")
            place = lowest = target
        elif length > 63:
            raise Wrong("a label of an unknown kind")
        elif length == 0:
            name = "".join(label.lower() + "." for label in labels) or "."
            return name, place + 1 if behind is None else behind
        else:
            if place + 1 + length > len(message):
                raise Wrong("a label ends behind the message")
            labels.append(message[place + 1 : place + 1 + length].decode("latin-1"))
            place += 1 + length


def read_data(message, record_type, place, end):
    """The data of a record as a tuple."""
    if record_type == generate.TYPE_A and end - place == 4:
        return (str(ipaddress.IPv4Address(message[place:end])),)
    if record_type == generate.TYPE_OPT:
        return (message[place:end],)
    if record_type in (generate.TYPE_NS, generate.TYPE_CNAME):
        data, place = read_name(message, place)
        data = (data,)
    elif record_type == generate.TYPE_SOA:
        mname, place = read_name(message, place)
        rname, place = read_name(message, place)
        if end - place != 20:
            raise Wrong("SOA data of a wrong length")
        data, place = (mname, rname, *struct.unpack_from("!5I", message, place)), end
    else:
        raise Wrong(f"data of an unexpected type {record_type} or length {end - place}")
    if place != end:
        raise Wrong("data longer than what they hold")
    return data


def read_record(message, place):
    """The record at a place, and the place behind it."""
    owner, place = read_name(message, place)
    if place + 10 > len(message):
        raise Wrong("a record ends behind the message")
    record_type, rclass, ttl, length = struct.unpack_from("!HHIH", message, place)
    place, end = place + 10, place + 10 + length
    if end > len(message):
        raise Wrong("data end behind the message")
    return Record(owner, record_type, rclass, ttl, read_data(message, record_type, place, end)), end


def decode(message):
    """A message, whole; octets behind its last record are refused."""
    if len(message) < HEADER:
        raise Wrong("shorter than a header")
    number, flags, *counts = struct.unpack_from("!6H", message)
    place, asked = HEADER, []
    for _ in range(counts[0]):
        name, place = read_name(message, place)
        if place + 4 > len(message):
            raise Wrong("a question ends behind the message")
        asked.append((name, *struct.unpack_from("!2H", message, place)))
        place += 4
    question_octets, sections = message[HEADER:place], []
    for count in counts[1:]:
        records = []
        for _ in range(count):
            record, place = read_record(message, place)
            records.append(record)
        sections.append(records)
    if place != len(message):
        raise Wrong("octets behind the last record")
    return Message(number, flags, asked, question_octets, *sections)


def frames(octets):
    """The messages of a stream."""
    messages, place = [], 0
    while place < len(octets):
        if place + 2 > len(octets):
            raise Wrong("the stream ends inside a length")
        (length,) = struct.unpack_from("!H", octets, place)
        if place + 2 + length > len(octets):
            raise Wrong("the stream ends inside a message")
        messages.append(octets[place + 2 : place + 2 + length])
        place += 2 + length
    return messages


def suffixes(name):
    """A name and those above it, the root last."""
    labels = name[:-1].split(".") if name != "." else []
    return [".".join(labels[place:]) + "." for place in range(len(labels) + 1)]


def read_zone(text):
    """A zone file; the owner of its first record is the origin."""
    owners, names, origin = {}, set(), None
    types = {"A": generate.TYPE_A, "NS": generate.TYPE_NS, "SOA": generate.TYPE_SOA}
    for line in text.splitlines():
        owner, ttl, _, kind, *data = line.split()
        owner = owner.lower()
        origin = origin or owner
        if kind == "SOA":
            data = [name.lower() for name in data[:2]] + [int(number) for number in data[2:]]
        elif kind == "NS":
            data = [data[0].lower()]
        record = Record(owner, types[kind], generate.CLASS_IN, int(ttl), tuple(data))
        owners.setdefault(owner, {}).setdefault(types[kind], []).append(record)
        names.update(suffixes(owner))
    return Zone(origin, owners, names)


def cut_above(zone, name):
    """The name servers of the lowest cut at or above a name: of a suffix that owns NS and no SOA."""
    for suffix in suffixes(name):
        sets = zone.owners.get(suffix, {})
        if generate.TYPE_NS in sets:
            return [] if generate.TYPE_SOA in sets else sets[generate.TYPE_NS]
    return []


def found(zone, name, record_type):
    """The records of a name and a type, its own or of the nearest wildcard that has the type."""
    for owner in [name] + ["*." + suffix for suffix in suffixes(name)[1:-1]]:
        if records := zone.owners.get(owner, {}).get(record_type):
            return [record._replace(owner=name) for record in records]
    return []


def addresses(zone, servers):
    """Those of the first name server, glue too."""
    return zone.owners.get(servers[0].data[0], {}).get(generate.TYPE_A, []) if servers else []


def expected(zone, asked):
    """What a query with one question gets: flags but RD, answers, authorities, additionals. No name in a file is an alias."""
    (name, record_type, _), = asked.questions
    if name != zone.origin and not name.endswith("." + zone.origin):
        return QR | REFUSED, [], [], []
    servers = cut_above(zone, name)
    if servers:
        is_answer = record_type == generate.TYPE_NS
        return QR | AA | NO_ERROR, servers if is_answer else [], [] if is_answer else servers, addresses(zone, servers)
    apex, answers = zone.owners[zone.origin], found(zone, name, record_type)
    if not answers:
        code = NO_ERROR if name in zone.names else NX_DOMAIN
        return QR | AA | code, [], apex[generate.TYPE_SOA], []
    if record_type == generate.TYPE_NS:
        return QR | AA | NO_ERROR, answers, [], addresses(zone, answers)
    beside = apex[generate.TYPE_NS] if record_type == generate.TYPE_SOA else []
    return QR | AA | NO_ERROR, answers, beside, []


def expected_options(asked):
    """The OPT record of a reply, where its question has one: the payload and DO as asked, no options."""
    return [
        Record(".", generate.TYPE_OPT, record.rclass, record.ttl & DO, (b"",))
        for record in asked.additionals
        if record.type == generate.TYPE_OPT
    ]


def check_reply(zone, question, reply):
    """Raises Wrong where a reply is not the question's."""
    asked, said = decode(question), decode(reply)
    flags, answers, authorities, additionals = expected(zone, asked)
    wanted = Message(
        asked.id, flags | asked.flags & RD, asked.questions, asked.question_octets, answers, authorities,
        additionals + expected_options(asked),
    )
    for field, want, got in zip(Message._fields, wanted, said):
        if want != got:
            raise Wrong(f"{field}: {got!r} in place of {want!r}")


def check_stream(zone_text, questions, replies):
    """Raises Wrong where a stream of replies is not the one that the questions have to get; counts the
    replies by code and number of answers."""
    zone = read_zone(zone_text)
    # A frame without a whole header gets no reply.
    asked, said = [it for it in frames(questions) if len(it) >= HEADER], frames(replies)
    if len(asked) != len(said):
        raise Wrong(f"{len(said)} replies to {len(asked)} questions")
    kinds = collections.Counter()
    for place, (question, reply) in enumerate(zip(asked, said)):
        try:
            check_reply(zone, question, reply)
        except Wrong as wrong:
            raise Wrong(f"reply {place}: {wrong}\n  question {question.hex()}\n  reply    {reply.hex()}") from None
        message = decode(reply)
        kinds[message.flags & 15, len(message.answers), len(message.authorities)] += 1
    return kinds


def main(words):
    if len(words) != 3:
        sys.exit(__doc__)
    zone_file, questions, replies = (open(word, "rb").read() for word in words)
    try:
        kinds = check_stream(zone_file.decode("ascii"), questions, replies)
    except Wrong as wrong:
        sys.exit(str(wrong))
    for (code, answers, authorities), count in sorted(kinds.items()):
        print(f"{count} replies with code {code}, {answers} answers, {authorities} authorities")


if __name__ == "__main__":
    main(sys.argv[1:])
