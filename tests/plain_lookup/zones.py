"""Random small zones, and questions that lie at, above, below and beside their names."""

from lookup import (A, AAAA, ANAME, ANY, AXFR, CNAME, DS, MX, NS, QR, SOA, SRV, Record, Request, ancestors, is_at_or_below, lower,
                    same, set_of, star_under)

LABELS = [label.encode() for label in "a b c d www ns ns1 mail sub _x x-y 9 xyzzy".split()]
ODD_LABELS = [b"\0", b"a\0", b"A.b", b"\xe4", b"\xc3\xa4", b"-", b"*a", b"a*", b" ", b"@[`{", b"\x01" * 63, b"zz"]
STAR = b"*"
TTLS = [0, 1, 60, 300, 3600, 86400, 2**31 - 1, 2**31, 2**32 - 1]
SERIALS = [0, 1, 7, 2**31, 2**32 - 1]


def fits(name):
    return sum(len(label) + 1 for label in name) + 1 <= 255


def cased(dice, name):
    """The name in mixed case, now and then."""
    if dice.random() < 0.7:
        return name
    return tuple(bytes(octet ^ 32 if chr(octet).isascii() and chr(octet).isalpha() and dice.random() < 0.5 else octet
                       for octet in label) for label in name)


def label(dice, stars=0.12):
    chance = dice.random()
    if chance < stars:
        return STAR
    if chance < 0.97:
        return dice.choice(LABELS)
    return dice.choice(b"abz"[:1]).to_bytes(1, "big") * dice.choice([1, 24, 25, 62, 63])


def under(dice, name, most=3, odd=0.0):
    """A name some labels below, now and then very many."""
    count = dice.choice([1, 1, 1, *range(1, most + 1)]) if dice.random() < 0.97 else dice.randint(10, 120)
    for _ in range(count):
        longer = (dice.choice(ODD_LABELS) if dice.random() < odd else label(dice), *name)
        if not fits(longer):
            break
        name = longer
    return name


class ZoneMaker:
    """Makes zones of the types. Where they are for another server too (`served_elsewhere`), they have one SOA and some NS at
    the origin, no NS at a wildcard, and one time to live a set."""

    def __init__(self, dice, types=(A, NS, SOA), served_elsewhere=False):
        self.dice, self.types, self.served_elsewhere = dice, types, served_elsewhere

    def chance(self, share):
        return self.dice.random() < share

    def origin(self):
        count = 0 if self.chance(0.02) else self.dice.choice([1, 2, 2, 3, 3, 5])
        return tuple(self.dice.choice([b"example", b"com", b"test", b"a", b"b"]) for _ in range(count))

    def make(self, origin):
        """The records of a zone, as the lines of its file."""
        self.start, self.lines, self.names = origin, [], [origin]
        if self.served_elsewhere or self.chance(0.93):
            self.add(origin, SOA)
        if self.served_elsewhere:
            self.add_name_servers()
        elif self.chance(0.85):
            self.add(origin, NS)
        for _ in range(self.dice.choice([1, 3, 5, 8, 12])):
            self.add_name()
        if self.chance(0.5):
            self.dice.shuffle(self.lines)
        if self.served_elsewhere:
            self.lines = one_ttl_a_set(self.lines)
        return self.lines

    def add_name_servers(self):
        """Name servers of the origin that have addresses, where they lie in the zone."""
        hosts = [(b"ns2", *self.start), (b"ns3", b"x", *self.start), (b"ns", b"elsewhere")]
        for host in self.dice.sample(hosts, self.dice.randint(1, 3)):
            self.lines.append(Record(self.start, NS, self.ttl(), host))
            if host[-1] != b"elsewhere":
                self.names.append(host)
                self.add(host, A)
                self.add(host, AAAA)

    def add_name(self):
        dice = self.dice
        name = under(dice, dice.choice([self.start, *self.names]))
        self.names.append(name)
        kind = dice.random()
        if kind < 0.18 and not (self.served_elsewhere and STAR in name[:1]):
            self.add(name, NS)
            for _ in range(dice.choice([0, 1, 1, 2])):
                self.add_glue(name)
        elif kind < 0.22 and not self.served_elsewhere:
            self.add(name, SOA)
            if self.chance(0.7):
                self.add(name, NS)
        elif kind < 0.42 and CNAME in self.types:
            self.add_chain(name, dice.choice([1] * 6 + [2, 3, 7, 8, 9, 12]))
        else:
            for type in dice.sample([it for it in self.types if it not in (NS, CNAME, SOA)], k=1):
                self.add(name, type)
        for _ in range(dice.choice([0, 0, 1, 2])):
            self.add(name, dice.choice([it for it in self.types if it not in (NS, CNAME, SOA)]))

    def add_glue(self, cut):
        """Addresses of hosts that the cut's NS name, or of other names below it."""
        hosts = [record.data for record in self.lines if record.type == NS and same(record.owner, cut)]
        host = self.dice.choice(hosts) if hosts and self.chance(0.7) else under(self.dice, cut)
        if is_at_or_below(host, self.start):
            self.names.append(host)
            for type in self.dice.choice([[A], [A, AAAA], [AAAA, A]]):
                self.add(host, type)

    def add_chain(self, name, count):
        """Aliases, each of the next, and the last of any host."""
        for at in range(count):
            target = self.host(name) if at == count - 1 else (b"c%d" % at, *self.start)
            if fits(target) and not any(same(record.owner, name) for record in self.lines):
                self.lines.append(Record(cased(self.dice, name), CNAME, self.ttl(), target))
                self.names.append(name)
            name = target

    def add(self, name, type):
        """A set at the name, of one to four records, if it may stand there."""
        dice = self.dice
        there = {record.type for record in self.lines if same(record.owner, name)}
        if type not in self.types or (CNAME in there) or (type == CNAME and there) or (type == SOA and SOA in there):
            return
        count = 1 if type in (SOA, CNAME, ANAME) else dice.choice([1, 1, 2, 3, 4])
        for _ in range(count):
            again = [record for record in self.lines if record.type == type and same(record.owner, name)]
            data = dice.choice(again).data if again and self.chance(0.1) and not self.served_elsewhere else self.data(name, type)
            self.lines.append(Record(cased(dice, name), type, self.ttl(), data))

    def ttl(self):
        return self.dice.choice(TTLS[:6] if self.served_elsewhere else TTLS)

    def data(self, owner, type):
        dice = self.dice
        if type == A:
            return bytes([192, 0, 2, dice.randrange(256)])
        if type == AAAA:
            return bytes.fromhex("20010db8") + bytes(11) + bytes([dice.randrange(256)])
        if type == SOA:
            serials = [dice.choice(SERIALS), 7200, 900, dice.choice([0, 2**31 - 1]), dice.choice([0, 60, 300, 2**31 - 1])]
            return (self.host(owner), self.host(owner), *serials)
        if type == MX:
            return (dice.randrange(3), self.host(owner))
        if type == SRV:
            return (dice.randrange(3), 0, 53, self.host(owner))
        return self.host(owner)

    def host(self, owner):
        """A name that has addresses, or another of the zone, or one below the owner, or outside."""
        chance, hosts = self.dice.random(), [record.owner for record in self.lines if record.type in (A, AAAA)]
        if chance < 0.4 and hosts:
            name = self.dice.choice(hosts)
        elif chance < 0.55:
            name = self.dice.choice(self.names)
        elif chance < 0.75:
            name = under(self.dice, owner)
        elif chance < 0.9:
            name = under(self.dice, self.start)
        else:
            name = under(self.dice, (b"elsewhere",))
        return cased(self.dice, name)


def one_ttl_a_set(lines):
    """Each record with the time to live of the first of its set."""
    return [record._replace(ttl=set_of(lines, record.owner, record.type)[0].ttl) for record in lines]


# Questions.

TYPES = [A] * 30 + [NS] * 14 + [SOA] * 10 + [ANY] * 10 + [CNAME] * 4 + [AAAA] * 8 + [MX] * 5 + [SRV, 16, ANAME] * 2 + [DS] * 4
ODD_TYPES = [0, 41, 46, 47, 249, 250, 251, 254, 256, 65535]


def asked_name(dice, zone, origin):
    """A name at, above, below or beside an owner or a name in data."""
    owners = [record.owner for record in zone]
    names = [origin, *owners, *owners] + [record.data for record in zone if record.type in (NS, CNAME, ANAME)
                                          and is_at_or_below(record.data, origin)]
    stars = [owner for owner in owners if owner[:1] == (STAR,)]
    name = dice.choice(stars if stars and dice.random() < 0.3 else names)
    way = dice.random()
    if way < 0.40:
        return name
    if way < 0.50:
        return name[dice.randint(0, len(name) - len(origin)):]
    if way < 0.70:
        return under(dice, name, odd=0.1)
    if way < 0.88:
        return under(dice, name[1:], odd=0.1)
    if way < 0.95:
        return star_under(name) if fits(star_under(name)) else name
    if way < 0.97:
        return dice.choice([*ancestors(origin), origin])
    if way < 0.99:
        return under(dice, origin[1:], most=2)
    return under(dice, (), odd=0.3)


def stored_question(dice, zone):
    """A name and a type that a record answers, or an alias on the way to one."""
    record = dice.choice(zone)
    types = {ANAME: [A, AAAA, ANAME], CNAME: [A, AAAA, MX, NS]}.get(record.type, [record.type])
    is_star = record.owner[:1] == (STAR,) and dice.random() < 0.7
    return under(dice, record.owner[1:]) if is_star else record.owner, dice.choice(types)


def question(dice, zone, origin, odd_types=0.02):
    chance = dice.random()
    if zone and chance > 0.8:
        name, type = stored_question(dice, zone)
    else:
        name, type = asked_name(dice, zone, origin), dice.choice(TYPES)
        if chance < odd_types:
            type = dice.choice(ODD_TYPES)
        elif zone and chance > 0.5:
            type = dice.choice(zone).type
    return cased(dice, name), type, 1


def request(dice, zone, origin):
    """A request, with one plain question, RD or not; a few are odd: other classes and counts, other flags and op codes."""
    asked = question(dice, zone, origin)
    flags, questions = dice.choice([0, 0x0100]), [asked]
    if dice.random() < 0.04:
        questions = [(*asked[:2], dice.choice([0, 3, 4, 254, 255, 65535]))]
    if dice.random() < 0.04:
        flags = dice.getrandbits(16) & ~0x7800 & ~(QR if dice.random() < 0.8 else 0)
    if dice.random() < 0.01:
        flags |= dice.choice([1, 2, 3, 4, 6, 15]) << 11
    if dice.random() < 0.01:
        questions = dice.choice([[], questions + [question(dice, zone, origin)]])
    assert not any(type == AXFR for _, type, _ in questions)
    return Request(dice.getrandbits(16), flags, questions)


def requests(dice, zone, origin, most):
    """At most so many requests, no two of which ask the same."""
    different = {}
    for _ in range(2 * most):
        drawn = request(dice, zone, origin)
        different.setdefault(tuple((lower(name), type) for name, type, _ in drawn.questions), drawn)
    return list(different.values())[:most]
