#!/usr/bin/env python3
"""Messages as octets, random zones of about 20 owners, and random updates of them, half of whose records lie near what is stored.

    ./messages.py [--seed N] [--count N]    prints updates, a line each: the origin, the message in hex, and what the rules answer

The same seed gives the same zones and messages (RFC 2136, section 2; RFC 1035, section 4.1)."""

import argparse
import os
import random
import struct
import sys
from typing import NamedTuple

sys.dont_write_bytecode = True
import model
from model import (A, AAAA, ANAME, ANY, AXFR, CLASS_ANY, CLASS_IN, CLASS_NONE, CNAME, IXFR, MX, NAMES_IN, NS, NSEC, SOA, SRV, TSIG,
                   TXT, Record, Signed, Update)

QR, OP_CODE_UPDATE = 0x8000, 5 << 11
CLASS_CH = 3
WORDS = {A: "A", NS: "NS", CNAME: "CNAME", SOA: "SOA", 12: "PTR", MX: "MX", TXT: "TXT", AAAA: "AAAA", SRV: "SRV", NSEC: "NSEC",
         ANY: "ANY", ANAME: "ANAME"}


class Message(NamedTuple):
    id: int
    flags: int
    questions: list  # of (name, type, class)
    prerequisites: list
    records: list
    additionals: list


class Malformed(Exception):
    pass


# Names.

def name_of(text):
    """The labels of a name without odd characters."""
    return tuple(label.encode() for label in text.rstrip(".").split(".") if label)


def name_text(name):
    return "".join(label.decode("latin-1") + "." for label in name) or "."


# Writing, all names uncompressed.

def name_octets(name):
    return b"".join(bytes([len(label)]) + label for label in name) + b"\0"


def record_octets(record):
    data = record.data or b""
    return name_octets(record.owner) + struct.pack(">HHIH", record.type, record.class_, record.ttl, len(data)) + data


def message_octets(message):
    sections = message.prerequisites, message.records, message.additionals
    octets = struct.pack(">6H", message.id, message.flags, len(message.questions), *map(len, sections))
    octets += b"".join(name_octets(name) + struct.pack(">HH", type, class_) for name, type, class_ in message.questions)
    return octets + b"".join(record_octets(record) for section in sections for record in section)


def update_message(id, origin, prerequisites, records, additionals=()):
    return Message(id, OP_CODE_UPDATE, [(origin, SOA, CLASS_IN)], list(prerequisites), list(records), list(additionals))


# Reading.

def name_at(octets, place):
    labels, end, start = [], None, place
    while octets[place]:
        if octets[place] < 64:
            labels.append(octets[place + 1:place + 1 + octets[place]])
            place += 1 + octets[place]
            continue
        target = (octets[place] & 63) << 8 | octets[place + 1]
        if octets[place] < 192 or target >= start:
            raise Malformed(f"no label at {place}")
        end = end or place + 2
        place = start = target
    return tuple(labels), end or place + 1


def data_at(octets, type, at, end):
    """RDATA with their names uncompressed."""
    if type not in NAMES_IN or at == end:
        return octets[at:end] if at < end else None
    first, after = NAMES_IN[type]
    data, at = octets[at:at + first], at + first
    while at < end - after:
        name, at = name_at(octets, at)
        data += name_octets(name)
    return data + octets[at:end]


def record_at(octets, place):
    owner, at = name_at(octets, place)
    type, class_, ttl, length = struct.unpack_from(">HHIH", octets, at)
    at += 10
    return Record(owner, type, class_, ttl, data_at(octets, type, at, at + length)), at + length


def read(octets):
    try:
        id, flags, *counts = struct.unpack_from(">6H", octets)
        at, questions, sections = 12, [], ([], [], [])
        for _ in range(counts[0]):
            name, at = name_at(octets, at)
            questions.append((name, *struct.unpack_from(">HH", octets, at)))
            at += 4
        for section, count in zip(sections, counts[1:]):
            for _ in range(count):
                record, at = record_at(octets, at)
                section.append(record)
    except (IndexError, struct.error) as error:
        raise Malformed(str(error)) from error
    if at != len(octets):
        raise Malformed(f"{len(octets) - at} octets after the last record")
    return Message(id, flags, questions, *sections)


class Tsig(NamedTuple):
    """The RDATA of a TSIG record (RFC 8945, section 4.2)."""
    algorithm: tuple
    time: int
    fudge: int
    mac: bytes
    id: int
    error: int
    other: bytes


def tsig_of(record):
    algorithm, at = name_at(record.data, 0)
    high, low, fudge, length = struct.unpack_from(">HIHH", record.data, at)
    mac, at = record.data[at + 10:at + 10 + length], at + 10 + length
    return Tsig(algorithm, high << 32 | low, fudge, mac, *struct.unpack_from(">HH", record.data, at), record.data[at + 6:])


def tsig_record(key_name, tsig):
    numbers = struct.pack(">HIHH", tsig.time >> 32, tsig.time & 0xFFFFFFFF, tsig.fudge, len(tsig.mac))
    last = struct.pack(">HHH", tsig.id, tsig.error, len(tsig.other))
    data = name_octets(tsig.algorithm) + numbers + tsig.mac + last + tsig.other
    return Record(key_name, TSIG, CLASS_ANY, 0, data)


def update_of(message, verdict):
    """What the rules are asked of a message."""
    signed = None
    if message.additionals and message.additionals[-1].type == TSIG:
        record = message.additionals[-1]
        signed = Signed(record.owner, tsig_of(record).algorithm, tsig_of(record).mac)
    return Update(message.id, signed, verdict, message.prerequisites, message.records)


# Data.

def soa(server, mailbox, serial, refresh=3600, retry=1800, expire=604800, minimum=86400):
    return name_octets(server) + name_octets(mailbox) + struct.pack(">5I", serial, refresh, retry, expire, minimum)


def data_text(record):
    data = record.data
    if data is None:
        return ""
    if record.type == A:
        return ".".join(map(str, data))
    if record.type == AAAA:
        return ":".join(f"{data[at] << 8 | data[at + 1]:x}" for at in range(0, 16, 2))
    if record.type == SOA:
        server, at = name_at(data, 0)
        mailbox, at = name_at(data, at)
        return " ".join([name_text(server), name_text(mailbox), *map(str, struct.unpack_from(">5I", data, at))])
    if record.type == MX:
        return f"{data[0] << 8 | data[1]} {name_text(name_at(data, 2)[0])}"
    if record.type in (NS, CNAME, ANAME):
        return name_text(name_at(data, 0)[0])
    if record.type == TXT and data.isascii():
        return " ".join(f'"{word.decode()}"' for word in strings_of(data))
    return f"\\# {len(data)} {data.hex()}"


def strings_of(data):
    words, at = [], 0
    while at < len(data):
        words.append(data[at + 1:at + 1 + data[at]])
        at += 1 + data[at]
    return words


def record_text(record):
    class_ = {CLASS_IN: "IN", CLASS_ANY: "ANY", CLASS_NONE: "NONE"}.get(record.class_, f"CLASS{record.class_}")
    type = WORDS.get(record.type, f"TYPE{record.type}")
    return f"{name_text(record.owner)} {record.ttl} {class_} {type} {data_text(record)}".rstrip()


def zone_text(zone):
    return "".join(record_text(record) + "\n" for record in model.records_of(zone))


# Random zones.

LABELS = [label.encode() for label in "a b c d www ns mail sub x deep".split()]
TTLS = [0, 60, 300, 3600]


def generic_text(record):
    """With data in the form of RFC 3597, which loses no case and no octet."""
    kind = WORDS.get(record.type, f"TYPE{record.type}")
    return f"{name_text(record.owner)} {record.ttl} IN {kind} \\# {len(record.data)} {record.data.hex()}"


def generic_zone_text(zone):
    """By owner, in name order, and by type."""
    ordered = sorted(zone.sets, key=lambda at: (at[0][::-1], at[1]))
    return "\\n".join(generic_text(record) for at in ordered for record in zone.sets[at])


class ZoneMaker:
    """Makes a zone, and messages that change it. One that is for another server too (`served_elsewhere`) has its SOA and its name
    servers, and each set one time to live."""

    def __init__(self, dice, served_elsewhere=False):
        self.dice, self.served_elsewhere = dice, served_elsewhere

    def chance(self, share):
        return self.dice.random() < share

    def cased(self, name):
        if self.served_elsewhere or self.chance(0.85):
            return name
        return tuple(label.swapcase() if self.chance(0.5) else label for label in name)

    def make(self, origin):
        """Some 20 owners: hosts, mail, texts, aliases, cuts with glue, a zone below a cut now and then, the start."""
        self.origin, self.lines = origin, []
        if self.served_elsewhere or self.chance(0.9):
            self.put(origin, SOA)
        for _ in range(self.dice.randint(1, 3) if self.served_elsewhere or self.chance(0.9) else 0):
            self.put(origin, NS)
        self.put(origin, self.dice.choice([TXT, MX, A]))
        while len({model.lower(it.owner) for it in self.lines}) < 20:
            self.add_owner(self.new_name())
        takes = True if self.served_elsewhere or self.chance(0.96) else self.dice.choice([None, False])
        return model.zone_of(origin, self.lines, takes)

    def new_name(self):
        dice = self.dice
        parent = self.origin if not self.lines or self.chance(0.6) else dice.choice(self.lines).owner
        return (dice.choice(LABELS + [b"h%d" % dice.randrange(30)]), *parent) if len(parent) < 7 else (dice.choice(LABELS), *self.origin)

    def add_owner(self, name):
        kind = self.dice.random()
        if kind < 0.2:
            self.put(name, CNAME)
        elif kind < 0.4:
            for _ in range(self.dice.choice([1, 1, 2, 3])):
                self.put(name, NS)
            self.put((b"ns", *name), self.dice.choice([A, AAAA]))
        elif kind < 0.44 and not self.served_elsewhere:
            self.put(name, SOA)
        else:
            for type in self.dice.sample([A, AAAA, MX, TXT], self.dice.randint(1, 3)):
                for _ in range(self.dice.choice([1, 1, 2, 3])):
                    self.put(name, type)

    def ttl(self):
        """A set has one where named is to serve it, so there mostly the same."""
        return 300 if self.served_elsewhere and self.chance(0.9) else self.dice.choice(TTLS)

    def put(self, name, type):
        """A record at the name, unless an alias or equal data is in its way."""
        types = {it.type for it in self.lines if model.lower(it.owner) == model.lower(name)}
        record = Record(self.cased(name), type, CLASS_IN, self.ttl(), self.data(type))
        beside = [it for it in self.lines if model.key(it) == model.key(record)]
        if (CNAME in types) or (type == CNAME and types) or (type == SOA and beside) or model.has_equal(beside, record):
            return
        if self.served_elsewhere and beside:
            record = record._replace(ttl=beside[0].ttl)
        self.lines.append(record)

    def host(self):
        """A name in data; the name servers of the start have addresses or lie elsewhere."""
        if self.chance(0.5):
            return (self.dice.choice(LABELS), b"elsewhere")
        return self.cased((self.dice.choice(LABELS), *self.origin))

    def data(self, type):
        dice = self.dice
        if type == A:
            return bytes([192, 0, 2, dice.randrange(8)])
        if type == AAAA:
            return bytes.fromhex("20010db8") + bytes(11) + bytes([dice.randrange(8)])
        if type == SOA:
            return soa((b"ns", b"elsewhere"), (b"admin", *self.origin), dice.choice([0, 1, 7, 7, 2**31, 2**32 - 1]))
        if type == MX:
            return struct.pack(">H", dice.randrange(3)) + name_octets(self.host())
        if type == SRV:
            return struct.pack(">3H", 0, 0, 53) + name_octets(self.host())
        if type == TXT:
            return b"".join(bytes([len(word)]) + word for word in dice.sample([b"hello", b"", b"a b", b"Hello"], dice.randint(1, 2)))
        if type == NSEC:
            return name_octets(self.host()) + bytes([0, 1, dice.choice([64, 32])])
        if type == NS and self.served_elsewhere:
            return name_octets((dice.choice(LABELS), b"elsewhere"))
        return name_octets(self.host())

    # Random updates.

    def owner(self, zone):
        """An owner, a name beside or below one, the start, or, rarely, a name outside."""
        chance, owners = self.dice.random(), [name for name, _ in zone.sets] or [zone.origin]
        if chance < 0.5:
            return self.cased(self.dice.choice(owners))
        if chance < 0.65:
            return self.cased(zone.origin)
        if chance < 0.72:
            return (self.dice.choice(LABELS), *self.dice.choice(owners))[-8:] if self.chance(0.9) else (b"*", *zone.origin)
        if chance < 0.97:
            return (self.dice.choice(LABELS), *zone.origin)
        return self.dice.choice([zone.origin[1:], (b"x", b"elsewhere"), (b"x" + zone.origin[0], *zone.origin[1:])])

    def near(self, zone):
        """A stored record, or one that differs from it a little."""
        if not zone.sets:
            return Record(zone.origin, A, CLASS_IN, 60, self.data(A))
        record = self.dice.choice([it for records in zone.sets.values() for it in records])
        way = self.dice.random()
        if way < 0.35:
            return record._replace(owner=self.cased(record.owner))
        if way < 0.5:
            return record._replace(ttl=self.ttl())
        if record.type == SOA and way < 0.85:
            number = (model.serial(record) + self.dice.choice([-1, 0, 0, 1, 1, 2, 2**31 - 1, 2**31, 2**31 + 1])) % 2**32
            return model.with_serial(record, number)
        if way < 0.85:
            return record._replace(data=self.data(record.type))
        return record._replace(owner=self.owner(zone))

    def fresh(self, zone):
        own = [] if self.served_elsewhere else [ANAME, NSEC]
        type = self.dice.choice([A, A, AAAA, MX, TXT, NS, NS, CNAME, CNAME, SOA, SRV, *own])
        owner = zone.origin if type == SOA and self.chance(0.6) else self.owner(zone)
        return Record(owner, type, CLASS_IN, self.ttl(), self.data(type))

    def drawn(self, zone):
        return self.near(zone) if self.chance(0.5) else self.fresh(zone)

    def prerequisite(self, zone):
        """Mostly one that is met."""
        record, kind = self.drawn(zone), self.dice.random()
        if kind < 0.35:
            record = record._replace(class_=CLASS_ANY, ttl=0, data=None)
        elif kind < 0.6:
            record = record._replace(class_=CLASS_NONE, ttl=0, data=None)
        else:
            record = record._replace(class_=CLASS_IN, ttl=0)
        if record.class_ != CLASS_IN and self.chance(0.4):
            record = record._replace(type=ANY)
        return self.odd(record, 0.03)

    def met(self, zone):
        """Some prerequisites that are met: a whole set by value, or in use, or not."""
        kind, sets = self.dice.random(), list(zone.sets.values())
        records = self.dice.choice(sets) if sets else []
        if kind < 0.4:
            return [it._replace(ttl=0) for it in records]
        if kind < 0.7 and records:
            return [records[0]._replace(type=self.dice.choice([ANY, records[0].type]), class_=CLASS_ANY, ttl=0, data=None)]
        name = (b"unused%d" % self.dice.randrange(3), *zone.origin)
        return [Record(name, self.dice.choice([ANY, A, NS]), CLASS_NONE, 0, None)]

    def change(self, zone):
        record, kind = self.drawn(zone), self.dice.random()
        if kind < 0.2:
            record = record._replace(class_=CLASS_ANY, ttl=0, data=None)
            record = record._replace(type=ANY) if self.chance(0.4) else record
        elif kind < 0.5:
            record = record._replace(class_=CLASS_NONE, ttl=0)
        return self.odd(record, 0.02)

    def odd(self, record, share):
        """Now and then of a form that is refused: a time to live, no data or some, another class or type."""
        if not self.chance(share):
            return record
        ways = [dict(ttl=1), dict(data=None), dict(class_=CLASS_CH, type=TXT, data=b"\1x"), dict(class_=CLASS_ANY), dict(class_=CLASS_NONE),
                dict(type=self.dice.choice([AXFR, IXFR, ANY]), data=None)]
        return record._replace(**self.dice.choice(ways))

    def message(self, zone):
        """0 to 6 prerequisites, 0 to 8 records, of which a later one may undo an earlier one."""
        dice, prerequisites = self.dice, []
        for _ in range(dice.choice([0, 0, 0, 1, 1, 2, 3])):
            prerequisites += self.met(zone) if self.chance(0.8) else [self.prerequisite(zone)]
        records = [self.change(zone) for _ in range(dice.randint(0, 8))]
        if records and self.chance(0.15):
            again = dice.choice(records)
            records.append(dice.choice([again, again._replace(class_=CLASS_NONE, ttl=0)]))
        return update_message(dice.getrandbits(16), zone.origin, prerequisites[:6], records[:8])

    def verdict(self):
        return "Good" if self.served_elsewhere or self.chance(0.94) else self.dice.choice(["BadSignature", "UnknownKey", "BadTime"])


KEY, ALGORITHM = (b"key", b"example"), (b"hmac-sha256",)


def signed_message(maker, message):
    """The message with a TSIG, unless it is to go without one; its MAC is drawn, since a test's suite decides what it is worth."""
    if not maker.served_elsewhere and maker.chance(0.03):
        return message
    mac = maker.dice.randbytes(8)
    return message._replace(additionals=[tsig_record(KEY, Tsig(ALGORITHM, 1700000000, 300, mac, message.id, 0, b""))])


class Drawn(NamedTuple):
    """A message, the zone before it, and the verdict on its TSIG."""
    zone: model.Zone
    message: Message
    verdict: str


MESSAGES_A_ZONE = 25
ORIGINS = [(b"example", b"com"), (b"Example", b"test"), (b"com",), (b"a", b"b", b"c")]


def drawn(seed, count, served_elsewhere=False):
    """Messages, each to the zone that those before it left; a new zone after some."""
    made, at = 0, 0
    while made < count:
        dice = random.Random(f"{seed} {at}")
        maker = ZoneMaker(dice, served_elsewhere)
        zone = maker.make(dice.choice(ORIGINS))
        for _ in range(min(MESSAGES_A_ZONE, count - made)):
            message, verdict = signed_message(maker, maker.message(zone)), maker.verdict()
            yield Drawn(zone, message, verdict)
            zone = model.answer(zone, update_of(message, verdict), 0).zone
            made += 1
        at += 1


def main():
    parser = argparse.ArgumentParser(description=__doc__, formatter_class=argparse.RawDescriptionHelpFormatter)
    parser.add_argument("--seed", type=int, default=1)
    parser.add_argument("--count", type=int, default=10_000)
    words = parser.parse_args()
    for it in drawn(words.seed, words.count):
        octets = message_octets(it.message)
        assert read(octets) == it.message, octets.hex()
        answer = model.answer(it.zone, update_of(it.message, it.verdict), 0)
        print(name_text(it.zone.origin), octets.hex(), it.verdict, answer.code, int(answer.changed), sep="\t")


if __name__ == "__main__":
    try:
        main()
    except BrokenPipeError:
        os._exit(0)
