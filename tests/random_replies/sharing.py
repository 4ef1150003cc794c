"""Random zones of A, NS and SOA records whose names share suffixes in many ways, and questions for them."""

import struct
from typing import NamedTuple

import lookup
import wire
import zones

LETTERS = b"abcdefghijklmnopqrstuvwxyz"
INNER = LETTERS + LETTERS.upper() + b"0123456789-_"
FIRST = INNER.replace(b"-", b"")
# Octets of labels that a question may have, and a zone file's names may not.
ODD = [b"\0", b"\xff", b"\xc0\x0c", b"a b", b"\\", b'"', b";", b"@", b"\xc3\xa4", b"\x3f\x01", b"-x", b"x*"]


class Asked(NamedTuple):
    """A request, and its payload and DO where it has an OPT record."""
    request: lookup.Request
    payload: object
    dnssec_ok: bool


# Texts.

def label_text(label):
    return label.decode("ascii").replace(".", "\\.")


def name_text(name):
    return "".join(label_text(label) + "." for label in name) or "."


def data_text(record):
    if record.type == lookup.A:
        return ".".join(map(str, record.data))
    if record.type == lookup.NS:
        return name_text(record.data)
    return " ".join(name_text(part) if isinstance(part, tuple) else str(part) for part in record.data)


def zone_text(lines):
    return "".join(f"{name_text(it.owner)} {it.ttl} IN {wire.TYPE_WORDS[it.type]} {data_text(it)}\n" for it in lines)


# Names.

def length_of(name):
    return sum(len(label) + 1 for label in name) + 1


def cased(dice, name, share):
    """The name, its letters in random case with this chance."""
    if dice.random() >= share:
        return name
    return tuple(bytes(octet ^ 32 if chr(octet).isalpha() and octet < 128 and dice.random() < 0.5 else octet for octet in label)
                 for label in name)


class Names:
    """Makes names of a zone: of a few labels again and again, or of labels of 1 to 63 octets."""

    def __init__(self, dice):
        self.dice = dice
        self.case = dice.choice([0, 0, 0.1, 0.5])
        self.few = [self.label() for _ in range(dice.choice([1, 2, 3, 5, 8]))]
        self.fresh = dice.choice([0, 0.1, 0.5])
        self.most = dice.choice([1, 1, 2, 2, 3, 3, 5, 20])

    def label(self):
        dice = self.dice
        length = dice.choice([1, 1, 2, 3, 5, 8, dice.randint(1, 63), 63])
        label = bytearray(dice.choice(INNER) for _ in range(length))
        label[0] = dice.choice(FIRST)
        if length > 1 and dice.random() < 0.05:
            label[dice.randrange(length)] = ord(".")
        return bytes(label)

    def next_label(self):
        return self.label() if self.dice.random() < self.fresh else self.dice.choice(self.few)

    def under(self, top):
        """A name some labels below another, now and then as long as names can be."""
        dice, name = self.dice, top
        count = 300 if dice.random() < 0.04 else dice.randint(1, self.most)
        for _ in range(count):
            label = self.next_label()
            room = 255 - length_of(name) - 1
            if room < 1:
                break
            name = (label[:room], *name)
        return cased(dice, name, self.case)

    def longest(self, top):
        """A name of 255 octets, or some less, that shares little with others."""
        name = top
        while (room := 255 - length_of(name) - 1) > 0:
            name = (self.label()[:room], *name)
        return name

    def sharing(self, names, top):
        """A name that shares a suffix with one of these, at or below the top."""
        other = self.dice.choice(names)
        suffix = other[self.dice.randint(0, max(0, len(other) - len(top))):]
        return self.under(suffix)


# Zones.

class Zone:
    """A zone in the making: its origin, its lines, and the names that later ones share suffixes with."""

    def __init__(self, dice):
        self.dice, self.made = dice, Names(dice)
        self.origin = () if dice.random() < 0.03 else self.made.under(())[-dice.randint(1, 4):]
        self.names, self.lines = [self.origin], []

    def add(self, owner, type, data):
        ttl = self.dice.choice([0, 60, 3600, 2**32 - 1])
        self.lines.append(lookup.Record(cased(self.dice, owner, self.made.case), type, ttl, data))

    def host(self, owner):
        """A name for data: one of the zone's, one that shares a suffix, one below the owner, or one elsewhere."""
        dice, way = self.dice, self.dice.random()
        if way < 0.3:
            name = dice.choice(self.names)
        elif way < 0.6:
            name = self.made.sharing(self.names, ())
        elif way < 0.85:
            name = self.made.under(owner)
        else:
            name = self.made.under((b"Elsewhere",) if dice.random() < 0.5 else ())
        self.names.append(name)
        return cased(dice, name, self.made.case)

    def address(self):
        return bytes([10, 0, self.dice.randrange(256), self.dice.randrange(256)])

    def add_addresses(self, owner):
        for _ in range(self.dice.choice([1, 1, 1, 2, 3, 28])):
            self.add(owner, lookup.A, self.address())

    def add_name_servers(self, owner):
        count, rare = self.dice.choice([1, 1, 2, 3, 5]), self.dice.random()
        if rare < 0.04:
            count = self.dice.choice([13, 40, 70])  # more than 64 names
        hosts = [self.host(owner) for _ in range(count)]
        if rare < 0.002:  # more than 16,383 octets, or more than a stream's reply has
            hosts += [self.made.longest(owner) for _ in range(self.dice.choice([120, 300]))]
        for host in hosts:
            self.add(owner, lookup.NS, host)
        for host in hosts[:self.dice.choice([0, 1, 1, 2])]:
            if lookup.is_at_or_below(host, self.origin):
                self.add_addresses(host)

    def add_soa(self, owner):
        """One SOA at a name: a zone file may have no second one."""
        if not lookup.set_of(self.lines, owner, lookup.SOA):
            self.add(owner, lookup.SOA, (self.host(owner), self.host(owner), 1, 2, 3, 4, 2**32 - 1))

    def add_name(self):
        dice = self.dice
        name = self.made.sharing([it for it in self.names if lookup.is_at_or_below(it, self.origin)], self.origin)
        kind = dice.random()
        if kind < 0.2 and length_of(name) < 254:
            name = (b"*", *name)
        self.names.append(name)
        if 0.2 <= kind < 0.5:
            self.add_name_servers(name)
        elif kind < 0.55:
            self.add_soa(name)
        else:
            self.add_addresses(name)


def zone(dice):
    """The origin, and the lines of the zone's file."""
    made = Zone(dice)
    if dice.random() < 0.95:
        made.add_soa(made.origin)
    if dice.random() < 0.9:
        made.add_name_servers(made.origin)
    for _ in range(dice.choice([2, 5, 10])):
        made.add_name()
    if dice.random() < 0.5:
        dice.shuffle(made.lines)
    return made.origin, made.lines


# Questions.

def odd_label(dice):
    return dice.choice([*ODD, bytes(dice.randrange(256) for _ in range(dice.randint(1, 63)))])


def near(dice, name, made):
    """The name, one above or below it, or one beside it."""
    way = dice.random()
    if way < 0.5:
        return name
    if way < 0.6:
        return name[dice.randint(0, len(name)):]
    top = name[1:] if way < 0.8 else name
    label = odd_label(dice) if dice.random() < 0.4 else made.label()
    room = 255 - length_of(top) - 1
    return (label[:room], *top) if room > 0 else top


def question(dice, stored, origin, made):
    record = dice.choice(stored) if stored else lookup.Record(origin, lookup.A, 0, bytes(4))
    name = record.owner
    if record.type == lookup.NS and dice.random() < 0.3:
        name = record.data
    elif name[:1] == (b"*",) and dice.random() < 0.8:
        name = near(dice, (b"x", *name[1:]), made)
    types = [record.type] * 4 + [lookup.A, lookup.NS, lookup.SOA, lookup.ANY, lookup.AAAA, lookup.DS]
    return cased(dice, near(dice, name, made), dice.choice([0, 0.5])), dice.choice(types), 1


def requests(dice, lines, origin, count):
    """So many requests: most of one plain question, some of those of the plain lookup, and some with an OPT record."""
    stored, made, found = lookup.stored(lines), Names(dice), []
    for _ in range(count):
        if dice.random() < 0.2:
            request = zones.request(dice, stored, origin)
        else:
            asked = question(dice, stored, origin, made)
            request = lookup.Request(dice.getrandbits(16), dice.choice([0, lookup.RD]), [asked])
        # (with an OPT record only what is answered as it is without one)
        plain = len(request.questions) == 1 and not request.flags & (lookup.QR | lookup.OP_CODE)
        payload = dice.choice([512, 1232, 4096, 65535]) if plain and dice.random() < 0.2 else None
        found.append(Asked(request, payload, payload is not None and dice.random() < 0.5))
    return stored, found


def options_octets(payload, dnssec_ok):
    return struct.pack(">BHHIH", 0, 41, payload, 0x8000 if dnssec_ok else 0, 0)


def request_octets(asked):
    octets = wire.request_octets(asked.request)
    if asked.payload is None:
        return octets
    return octets[:10] + b"\0\1" + octets[12:] + options_octets(asked.payload, asked.dnssec_ok)
