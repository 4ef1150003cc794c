#!/usr/bin/env python3
"""Rows of updates: a server's zones, messages to it in order, each reply, and the first zone after it.

    tests/rows/updates.py    prints them, as they stand in `updates.tsv`

Every line's fields stand between tabs. A line `zone NAME KIND SETTING TEXT` puts a zone behind those of the chain NAME; KIND is
`primary`, `secondary` or `external`, SETTING says whether it takes messages that change it: `none` never, `off` not now, `on`.
`send SOURCE PROTOCOL MOMENT KEYS REQUEST REPLY NAME AFTER` is a message to the zones as those before it left them; REPLY are all
octets, AFTER the text of the first zone of the chain NAME then. An empty line ends a server. In texts `\\n` ends a record; owners
are in name order, their types rise.

KEYS says what the suite of keys answers to the name that the zone is registered under, this message's octets and its moment:
`Good`, `BadSignature`, `UnknownKey` or `BadTime`; to anything else it is to answer `BadSignature`. It signs with a MAC of four
numbers of 16 bits: the context's identifier, its error, how many octets its request's MAC has, and how many octets are signed;
the other fields are the context's, a fudge of 300 and no other data. Behind `fails` it doesn't sign.

What is expected was written by hand, from RFC 2136, RFC 2181 and RFC 8945, by the reasons in the comments: the code, and which
records come and go. Layouts are those of RFC 1035, section 4.1; the pointers in replies to queries are those of `compress.py`."""
import os
import struct
import sys

sys.dont_write_bytecode = True
sys.path.append(os.path.dirname(os.path.realpath(__file__)))
import compress

ID, NOW, SOURCE = 0x1234, 1700000000, "192.0.2.7"
A, NS, CNAME, SOA, TXT, OPT, NSEC, TSIG, IXFR, AXFR, ANY, ANAME = 1, 2, 5, 6, 16, 41, 47, 250, 251, 252, 255, 65305
WORDS = {A: "A", NS: "NS", CNAME: "CNAME", SOA: "SOA", TXT: "TXT", NSEC: "NSEC", ANAME: "ANAME"}
IN, CH, NONE, ANY_CLASS = 1, 3, 254, 255
ORIGIN, WWW, B, KEY, ALGORITHM = "example.com.", "www.example.com.", "b.example.com.", "key.example.", "hmac-sha256."


# Octets.

def name(text):
    return b"".join(bytes([len(label)]) + label.encode() for label in text.split(".") if label) + b"\0"


def entry(owner, kind, ttl, data=b"", dns_class=IN):
    return name(owner) + struct.pack(">HHIH", kind, dns_class, ttl, len(data)) + data


def address(last):
    return bytes([192, 0, 2, last])


def question(text=ORIGIN, kind=SOA):
    return name(text) + struct.pack(">HH", kind, IN)


def message(flags, questions, *sections):
    counts = [len(it) for it in sections] + [0] * (3 - len(sections))
    head = struct.pack(">6H", ID, flags, len(questions), *counts)
    return head + b"".join(questions) + b"".join(record for section in sections for record in section)


def tsig(mac, key=KEY, algorithm=ALGORITHM, error=0):
    """Of a request or a reply; a reply's moment is that of its request here."""
    data = name(algorithm) + struct.pack(">HIHH", NOW >> 32, NOW & 0xFFFFFFFF, 300, len(mac)) + mac + struct.pack(">HHH", ID, error, 0)
    return entry(key, TSIG, 0, data, ANY_CLASS)


MAC = bytes.fromhex("0102030405060708")


def update(prerequisites=(), records=(), questions=(question(),), flags=0x2800, additionals=(), signature=tsig(MAC)):
    """A signed one, unless it is to have no signature (None)."""
    return message(flags, questions, prerequisites, records, [*additionals, *([signature] if signature else [])])


def signed_reply(code, error=0, request_mac=MAC, questions=(question(),), options=(), flags=0xA800, key=KEY, algorithm=ALGORITHM):
    """The reply with the suite's signature: identifier, error, octets of the request's MAC, octets that are signed."""
    unsigned = message(flags | code, questions, [], [], options)
    mac = struct.pack(">4H", ID, error, len(request_mac), len(unsigned))
    return message(flags | code, questions, [], [], [*options, tsig(mac, key, algorithm, error)])


def plain_reply(code, questions=(question(),), options=(), flags=0xA800):
    return message(flags | code, questions, [], [], options)


def query(text, kind):
    return message(0, [question(text, kind)])


def answer(flags, text, kind, answers=(), authorities=()):
    return compress.laid_out(ID, flags, 1, question(text, kind), [list(answers), list(authorities), []], 65535)


# Zones.

def soa_text(serial):
    return f"ns.example.com. admin.example.com. {serial} 3600 1800 604800 86400"


def soa_data(serial):
    return name("ns.example.com.") + name("admin.example.com.") + struct.pack(">5I", serial, 3600, 1800, 604800, 86400)


class Zone:
    """The records of a zone, as (owner, TTL, type, text of its data)."""

    def __init__(self, *records):
        self.records = records

    def plus(self, *records):
        return Zone(*self.records, *records)

    def minus(self, *records):
        assert all(it in self.records for it in records), records
        return Zone(*(it for it in self.records if it not in records))

    def serial(self, number):
        """With this serial number at the origin."""
        return Zone(*((*it[:3], soa_text(number)) if it[0] == ORIGIN and it[2] == SOA else it for it in self.records))

    def text(self):
        def place(record):
            return [label.lower() for label in reversed(record[0].rstrip(".").split("."))], record[2]

        lines = [f"{owner} {ttl} IN {WORDS[kind]} {data}" for owner, ttl, kind, data in sorted(self.records, key=place)]
        return "\\n".join(lines)


HELLO = (ORIGIN, 3600, TXT, '"hello"')
SERVER = (ORIGIN, 3600, NS, "ns.example.org.")
HOST = (WWW, 3600, A, "192.0.2.1")
U = Zone((ORIGIN, 3600, SOA, soa_text(1)), SERVER, HELLO, HOST)
ADDED = (B, 60, A, "192.0.2.9")
ADD_B = entry(B, A, 60, address(9))
SOA_2 = entry(ORIGIN, SOA, 3600, soa_data(2))
NS_ENTRY = entry(ORIGIN, NS, 3600, name("ns.example.org."))


class Server:
    """Prints the zones of a server, then what is sent to it."""

    def __init__(self, comment, *zones, zone=U, kind="primary", setting="on"):
        print(*(f"# {line}" for line in comment.split("\n")), sep="\n")
        self.zone = zone  # the zone of the origin's chain, as it is now
        for it in zones or [(ORIGIN, kind, setting, zone)]:
            print("zone", *it[:3], it[3].text(), sep="\t")

    def send(self, request, reply, after=None, keys="Good", protocol="tcp", chain=ORIGIN, source=SOURCE):
        if after is not None:
            self.zone = after
        print("send", source, protocol, NOW, keys, request.hex(), reply.hex(), chain, self.zone.text(), sep="\t")
        return self

    def end(self):
        print()


def one(comment, request, reply, after=None, keys="Good", protocol="tcp", **zone):
    """One message to zone U, or another."""
    Server(comment, **zone).send(request, reply, after, keys, protocol).end()


# The rows.

def first():
    """An add, a removal of all sets, and what they are refused for."""
    added = U.plus(ADDED).serial(2)
    (Server("A signed add: the zone has it, and the serial number rises once (RFC 2136 3.6). A repeated one changes nothing.")
     .send(update(records=[ADD_B]), signed_reply(0), added)
     .send(query(B, A), answer(0x8400, B, A, [entry(B, A, 60, address(9))]))
     .send(query(ORIGIN, SOA), answer(0x8400, ORIGIN, SOA, [SOA_2], [NS_ENTRY]))
     .send(update(records=[ADD_B]), signed_reply(0), added)
     .send(query(ORIGIN, SOA), answer(0x8400, ORIGIN, SOA, [SOA_2], [NS_ENTRY])).end())
    one("A signature that isn't good: NotAuth, BADSIG 16, none of the request's MAC (RFC 8945 5.2.2, 5.3.2).",
        update(records=[ADD_B]), signed_reply(9, 16, b""), keys="BadSignature")
    one("No signature: Refused, and no TSIG.", update(records=[ADD_B], signature=None), plain_reply(5))
    clear = entry(ORIGIN, ANY, 0, b"", ANY_CLASS)
    cleared = U.minus(HELLO).serial(2)
    (Server("All sets of the origin go but SOA and NS (RFC 2136 3.4.2.3). Again: there are none, nothing changes.")
     .send(update(records=[clear]), signed_reply(0), cleared).send(update(records=[clear]), signed_reply(0), cleared).end())
    one("The serial number after 4294967295 is 0 (RFC 1982 3.1).", update(records=[clear]), signed_reply(0), U.minus(HELLO).serial(0),
        zone=U.serial(2**32 - 1))


def codes():
    """One prerequisite or record each."""
    def asks(kind, dns_class, owner=WWW, data=b"", ttl=0):
        return update([entry(owner, kind, ttl, data, dns_class)])

    one("Name in use: no set of nope.example.com. is stored, NXDomain (RFC 2136 3.2.5).",
        asks(ANY, ANY_CLASS, "nope.example.com."), signed_reply(3))
    one("Set exists: www has no TXT, NXRRSet.", asks(TXT, ANY_CLASS), signed_reply(8))
    one("Set doesn't exist: www has an A, YXRRSet.", asks(A, NONE), signed_reply(7))
    one("Name not in use: www owns a set, YXDomain.", asks(ANY, NONE), signed_reply(6))
    one("The set by value: the stored one has another address, NXRRSet.", asks(A, IN, data=address(2)), signed_reply(8))
    one("The same with a time to live: FormErr.", asks(A, IN, data=address(2), ttl=1), signed_reply(1))
    one("A good add, then one outside the zone: NotZone, and the first one isn't made (the prescan is before all, RFC 2136 3.4.1).",
        update(records=[ADD_B, entry("x.example.org.", A, 60, address(9))]), signed_reply(10))
    one("An add without data: FormErr.", update(records=[entry(WWW, A, 60)]), signed_reply(1))
    one("No key is known, nothing can be signed: ServFail in place of NotAuth, without TSIG.", update(records=[ADD_B]),
        plain_reply(2), keys="UnknownKey fails")
    (Server("The last record of a set goes, and the name with it: NXDomain behind it.")
     .send(update(records=[entry(WWW, A, 0, address(1), NONE)]), signed_reply(0), U.minus(HOST).serial(2))
     .send(query(WWW, A), answer(0x8403, WWW, A, authorities=[SOA_2])).end())
    one("The reply can't be signed: ServFail without TSIG, and what was accepted stays.", update(records=[ADD_B]), plain_reply(2),
        U.plus(ADDED).serial(2), keys="Good fails")
    opt = entry(".", OPT, 0, b"", 1232)
    one("That ServFail is an error reply: it copies RD and CD, and has the options.", update(records=[ADD_B], flags=0x2930, additionals=[opt]),
        plain_reply(2, options=[opt], flags=0xA910), U.plus(ADDED).serial(2), keys="Good fails")


def prerequisites():
    """Which refusal is first, and what counts (RFC 2136, sections 2.4, 3.2)."""
    outside, absent = "x.example.org.", "nope.example.com."

    def told(comment, code, *entries, zone=U):
        one(comment, update(entries), signed_reply(code), zone=zone)

    told("Of one prerequisite the time to live is looked at first: FormErr, though it lies outside and has a class of its own.", 1,
         entry(outside, A, 1, address(1), CH))
    told("Then the zone: NotZone, though of another class.", 10, entry(outside, A, 0, address(1), CH))
    told("Then the class: FormErr.", 1, entry(WWW, A, 0, address(1), CH))
    told("Of class ANY with data: FormErr, though there is no such set.", 1, entry(WWW, TXT, 0, b"\1x", ANY_CLASS))
    told("Of class NONE with data: FormErr, though there is such a set.", 1, entry(WWW, A, 0, address(1), NONE))
    told("One by one: the first is refused, NXDomain, before the form of the second.", 3,
         entry(absent, ANY, 0, b"", ANY_CLASS), entry(WWW, A, 1, address(1)))
    told("Values are compared after all: the second one's form is refused first, FormErr.", 1,
         entry(WWW, A, 0, address(2)), entry(WWW, A, 1, address(1)))
    told("And so is a name in use: YXDomain before NXRRSet.", 6, entry(WWW, A, 0, address(2)), entry(WWW, ANY, 0, b"", NONE))
    two = U.plus((WWW, 3600, A, "192.0.2.2"))
    told("A set by value, no more and no less: of two addresses one is asked for, NXRRSet.", 8, entry(WWW, A, 0, address(1)), zone=two)
    told("Both, in another order and case of the owner: met.", 0, entry("WWW.example.com.", A, 0, address(2)),
         entry(WWW, A, 0, address(1)), zone=two)
    told("One more than there are: NXRRSet.", 8, *(entry(WWW, A, 0, address(it)) for it in (1, 2, 3)), zone=two)
    told("A record asked for twice is one member of the set: met.", 0, entry(WWW, A, 0, address(1)), entry(WWW, A, 0, address(1)))
    told("Names in data are compared up to case: met.", 0, entry(ORIGIN, NS, 0, name("NS.example.ORG.")))
    told("By value without data: no record has none, NXRRSet.", 8, entry(WWW, A, 0))
    deep = U.plus(("x.y.example.com.", 3600, A, "192.0.2.1"), ("*.w.example.com.", 3600, A, "192.0.2.1"))
    told("A name that only has names below it isn't in use (RFC 2136 2.4.4): NXDomain.", 3,
         entry("y.example.com.", ANY, 0, b"", ANY_CLASS), zone=deep)
    told("A wildcard's names aren't in use: not in use is met.", 0, entry("a.w.example.com.", ANY, 0, b"", NONE), zone=deep)
    told("Nor is a set that a wildcard has for it: NXRRSet.", 8, entry("a.w.example.com.", A, 0, b"", ANY_CLASS), zone=deep)
    alias = U.plus(("c.example.com.", 3600, CNAME, WWW))
    told("The target of an alias isn't asked: NXRRSet.", 8, entry("c.example.com.", A, 0, b"", ANY_CLASS), zone=alias)
    one("Prerequisites come before the records: NXDomain before NotZone.",
        update([entry(absent, ANY, 0, b"", ANY_CLASS)], [entry(outside, A, 60, address(9))]), signed_reply(3))


def forms():
    """Records that the prescan refuses (RFC 2136, section 3.4.1.2): a good add before each isn't made."""
    def told(comment, code, *entries):
        one(comment, update(records=[ADD_B, *entries]), signed_reply(code))

    told("Of class CH: FormErr.", 1, entry(WWW, A, 60, address(1), CH))
    told("Outside the zone and of class CH: NotZone is first.", 10, entry("x.example.org.", A, 60, address(1), CH))
    told("The first refused record decides: FormErr before NotZone.", 1, entry(WWW, A, 60, address(1), CH),
         entry("x.example.org.", A, 60, address(9)))
    for kind in (ANY, AXFR, IXFR):
        told(f"An add of type {kind}: FormErr.", 1, entry(WWW, kind, 60))
        if kind != ANY:
            told(f"A removal of a set of type {kind}: FormErr.", 1, entry(WWW, kind, 0, b"", ANY_CLASS))
        told(f"A removal of a record of type {kind}: FormErr.", 1, entry(WWW, kind, 0, b"", NONE))
    told("A removal of a set with a time to live: FormErr.", 1, entry(WWW, A, 1, b"", ANY_CLASS))
    told("A removal of a set with data: FormErr.", 1, entry(WWW, A, 0, address(1), ANY_CLASS))
    told("A removal of a record with a time to live: FormErr.", 1, entry(WWW, A, 1, address(1), NONE))


def changes():
    """The four cases, one or two records each (RFC 2136, section 3.4.2)."""
    def told(comment, records, after, zone=U):
        one(comment, update(records=records), signed_reply(0), after, zone=zone)

    alias = ("c.example.com.", 3600, CNAME, WWW)
    with_alias = U.plus(alias)
    told("An alias beside an address is passed over: code 0, nothing changes (RFC 2136 3.4.2.2).",
         [entry(WWW, CNAME, 60, name(B))], U)
    told("An address beside an alias is passed over.", [entry("c.example.com.", A, 60, address(1))], with_alias, with_alias)
    told("Another alias takes the place of the alias.", [entry("c.example.com.", CNAME, 60, name(B))],
         U.plus(("c.example.com.", 60, CNAME, B)).serial(2), with_alias)
    denial = name(WWW) + bytes([0, 1, 64])
    denied = ("c.example.com.", 60, NSEC, f"\\# {len(denial)} {denial.hex()}")
    told("A denial of its name may be beside an alias (RFC 4035 2.5).", [entry("c.example.com.", NSEC, 60, denial)],
         with_alias.plus(denied).serial(2), with_alias)
    told("And the alias beside it.", [entry("c.example.com.", CNAME, 3600, name(WWW))], U.plus(alias, denied).serial(2), U.plus(denied))
    other = ("c.example.com.", 3600, ANAME, WWW)
    told("Of ANAME an owner has one: another takes its place, beside an address.", [entry("c.example.com.", ANAME, 60, name(B)),
         entry("c.example.com.", A, 60, address(1))],
         U.plus(("c.example.com.", 60, A, "192.0.2.1"), ("c.example.com.", 60, ANAME, B)).serial(2), U.plus(other))
    told("An alias beside an ANAME is passed over.", [entry("c.example.com.", CNAME, 60, name(B))], U.plus(other), U.plus(other))
    told("The alias goes and an address comes, in one message: each record meets what those before it left.",
         [entry("c.example.com.", CNAME, 0, b"", ANY_CLASS), entry("c.example.com.", A, 60, address(1))],
         U.plus(("c.example.com.", 60, A, "192.0.2.1")).serial(2), with_alias)
    told("Equal data with another time to live take the place of the record.", [entry(WWW, A, 60, address(1))],
         U.minus(HOST).plus((WWW, 60, A, "192.0.2.1")).serial(2))
    told("An SOA with a lower serial number is passed over.", [entry(ORIGIN, SOA, 60, soa_data(6))], U.serial(7), U.serial(7))
    told("So is one with the same (RFC 2136 3.4.2.2: lower than or equal).", [entry(ORIGIN, SOA, 60, soa_data(7))], U.serial(7), U.serial(7))
    told("One with a greater one takes its place, and the serial number rises once more.", [entry(ORIGIN, SOA, 3600, soa_data(9))],
         U.serial(10), U.serial(7))
    told("Serial numbers are compared as numbers, not by RFC 1982: behind the greatest comes none.", [entry(ORIGIN, SOA, 60, soa_data(1))],
         U.serial(2**32 - 1), U.serial(2**32 - 1))
    told("And one that RFC 1982 has below is above.", [entry(ORIGIN, SOA, 3600, soa_data(3000000000))], U.serial(3000000001))
    told("An SOA is taken where the owner has none, below the origin (RFC 2136 3.4.2.2 would pass it over).",
         [entry(WWW, SOA, 60, soa_data(5))], U.plus((WWW, 60, SOA, soa_text(5))).serial(2))
    told("SOA stays where it is removed, by its data and as a set.",
         [entry(ORIGIN, SOA, 0, soa_data(1), NONE), entry(ORIGIN, SOA, 0, b"", ANY_CLASS)], U)
    three = U.plus((WWW, 3600, A, "192.0.2.2"), (WWW, 3600, A, "192.0.2.3"))
    told("One address of three goes, the others stay in order.", [entry(WWW, A, 0, address(2), NONE)],
         U.plus((WWW, 3600, A, "192.0.2.3")).serial(2), three)
    told("Another time to live of one of three: it keeps its place.", [entry(WWW, A, 60, address(2))],
         U.plus((WWW, 60, A, "192.0.2.2"), (WWW, 3600, A, "192.0.2.3")).serial(2), three)
    told("The last record of a set goes by its data, and no set stays: an alias may come.",
         [entry(WWW, A, 0, address(1), NONE), entry(WWW, CNAME, 60, name(B))], U.minus(HOST).plus((WWW, 60, CNAME, B)).serial(2))
    (Server("Behind it neither the name nor the set is in use.")
     .send(update(records=[entry(WWW, A, 0, address(1), NONE)]), signed_reply(0), U.minus(HOST).serial(2))
     .send(update([entry(WWW, ANY, 0, b"", NONE), entry(WWW, A, 0, b"", NONE)]), signed_reply(0))
     .send(update([entry(WWW, ANY, 0, b"", ANY_CLASS)]), signed_reply(3))
     .send(update([entry(WWW, A, 0, b"", ANY_CLASS)]), signed_reply(8)).end())
    told("One that isn't there: nothing changes.", [entry(WWW, A, 0, address(9), NONE)], U)
    told("A set goes.", [entry(WWW, A, 0, b"", ANY_CLASS)], U.minus(HOST).serial(2))
    told("A set that isn't there: nothing changes.", [entry(WWW, TXT, 0, b"", ANY_CLASS)], U)
    told("The last name server of the origin stays (RFC 2136 3.4.2.4), and so does its set.",
         [entry(ORIGIN, NS, 0, name("ns.example.org."), NONE), entry(ORIGIN, NS, 0, b"", ANY_CLASS)], U)
    second = (ORIGIN, 3600, NS, "ns2.example.org.")
    told("Of two name servers one goes, and the last stays.",
         [entry(ORIGIN, NS, 0, name("ns.example.org."), NONE), entry(ORIGIN, NS, 0, name("ns2.example.org."), NONE)],
         U.minus(SERVER).plus(second).serial(2), U.plus(second))
    cut = ("sub.example.com.", 3600, NS, "ns.example.org.")
    told("The last name server of a cut stays where it is removed by its data (RFC 2136 3.4.2.7; 3.4.2.4 says so of the origin alone).",
         [entry("sub.example.com.", NS, 0, name("ns.example.org."), NONE)], U.plus(cut), U.plus(cut))
    told("It goes as a set.", [entry("sub.example.com.", NS, 0, b"", ANY_CLASS)], U.serial(2), U.plus(cut))
    told("And with all sets of the name.", [entry("sub.example.com.", ANY, 0, b"", ANY_CLASS)], U.serial(2), U.plus(cut))
    told("Added and removed again: the records are as before, and the serial number rises, since something changed.",
         [ADD_B, entry(B, A, 0, address(9), NONE)], U.serial(2))
    told("Several changes raise it once.", [ADD_B, entry(WWW, A, 0, b"", ANY_CLASS), entry(ORIGIN, TXT, 0, b"\5hello", NONE)],
         U.minus(HOST, HELLO).plus(ADDED).serial(2))
    told("No record at all: code 0, nothing changes.", [], U)
    told("Owners are one up to case; the record that comes keeps its own.", [entry("WWW.example.com.", A, 60, address(1))],
         U.minus(HOST).plus(("WWW.example.com.", 60, A, "192.0.2.1")).serial(2))
    no_start = Zone(SERVER, HOST)
    one("Without an SOA no serial number can rise: ServFail, nothing changes.", update(records=[ADD_B]), signed_reply(2), zone=no_start)
    one("Nor does it help that the message brings one.", update(records=[entry(ORIGIN, SOA, 3600, soa_data(1)), ADD_B]), signed_reply(2),
        zone=no_start)
    one("Where nothing changes there is nothing to raise: code 0.", update(records=[entry(WWW, A, 3600, address(1))]), signed_reply(0),
        zone=no_start)


def who():
    """Signatures, and zones that take no messages (RFC 2136, sections 3.1 and 3.3; RFC 8945, section 5)."""
    add = update(records=[ADD_B])
    absent = [entry("nope.example.com.", ANY, 0, b"", ANY_CLASS)]
    one("Another time: NotAuth, BADTIME 18, signed over the request's MAC (RFC 8945 5.2.3).", add, signed_reply(9, 18), keys="BadTime")
    one("An unknown key: NotAuth, BADKEY 17, none of the request's MAC (RFC 8945 5.2.1).", add, signed_reply(9, 17, b""), keys="UnknownKey")
    one("The signature is looked at before the prerequisites.", update(absent, [ADD_B]), signed_reply(9, 16, b""), keys="BadSignature")
    one("That there is one, too.", update(absent, [ADD_B], signature=None), plain_reply(5))
    one("A zone that takes no messages now: Refused, and no TSIG.", add, plain_reply(5), setting="off")
    one("So without signature.", update(records=[ADD_B], signature=None), plain_reply(5), setting="off")
    one("A zone that never takes any: NotImp, and no TSIG.", add, plain_reply(4), setting="none")
    one("A copy of another server's zone: NotImp.", add, plain_reply(4), kind="secondary")
    one("Another server's zone: NotAuth, and no TSIG.", add, plain_reply(9), kind="external")


def sections():
    """The zone section, flags, options and limits (RFC 2136, sections 2.2, 2.3, 3.1 and 3.8)."""
    (Server("One question of type SOA, or FormErr: the errors copy RD and CD.")
     .send(bytes.fromhex("123428000000000000000000"), bytes.fromhex("1234a8010000000000000000"))
     .send(update(records=[ADD_B], questions=()), plain_reply(1, ()))
     .send(update(records=[ADD_B], questions=(question(),) * 2, flags=0x2910), plain_reply(1, (question(),) * 2, flags=0xA910))
     .send(update(records=[ADD_B], questions=(question(ORIGIN, A),)), plain_reply(1, (question(ORIGIN, A),)))
     .send(update(records=[ADD_B], questions=(question(ORIGIN, ANY),)), plain_reply(1, (question(ORIGIN, ANY),))).end())
    other_class = (name(ORIGIN) + struct.pack(">HH", SOA, CH),)
    one("The class of the question isn't looked at.", update(records=[ADD_B], questions=other_class),
        signed_reply(0, questions=other_class), U.plus(ADDED).serial(2))
    above = (question("com."),)
    one("A zone above: no such one is here, ServFail.", update(records=[ADD_B], questions=above), plain_reply(2, above))
    below = (question(WWW),)
    one("A name below the origin: the longest name above it that is registered is the zone.", update(records=[ADD_B], questions=below),
        signed_reply(0, questions=below), U.plus(ADDED).serial(2))
    cased = (question("EXAMPLE.com."),)
    one("The zone's name up to case.", update(records=[ADD_B], questions=cased), signed_reply(0, questions=cased), U.plus(ADDED).serial(2))
    one("What the zone decides copies the identifier alone: RD, CD and AD don't come back.", update(records=[ADD_B], flags=0x2930),
        signed_reply(0), U.plus(ADDED).serial(2))
    one("A response is none (QR): FormErr, as for every operation.", update(records=[ADD_B], flags=0xA800), plain_reply(1))
    opt = entry(".", OPT, 0, b"", 1232)
    one("Options come back before the signature, which is over them too.", update(records=[ADD_B], additionals=[opt]),
        signed_reply(0, options=[opt]), U.plus(ADDED).serial(2))
    one("Options of version 1: BADVERS, nothing is looked at.", update(records=[ADD_B], additionals=[entry(".", OPT, 0x10000, b"", 1232)]),
        plain_reply(0, options=[entry(".", OPT, 0x01000000, b"", 1232)]))
    key = ".".join(["k" * 63] * 3 + ["k" * 61]) + "."
    algorithm = key.replace("k", "a")
    one("A signature of 544 octets doesn't fit a datagram of 512: TC, no TSIG, and what was accepted stays.",
        update(records=[ADD_B], signature=tsig(MAC, key, algorithm)), plain_reply(0, flags=0xAA00), U.plus(ADDED).serial(2), protocol="udp")
    one("Over TCP it does.", update(records=[ADD_B], signature=tsig(MAC, key, algorithm)), signed_reply(0, key=key, algorithm=algorithm),
        U.plus(ADDED).serial(2))


def chains():
    """Which zone of which chain."""
    sub = "sub.example.com."
    child = Zone((sub, 3600, SOA, soa_text(7)), (sub, 3600, NS, "ns.example.org."))
    in_child, asked = entry("b.sub.example.com.", A, 60, address(9)), (question(sub),)
    after = Zone((sub, 3600, SOA, soa_text(8)), (sub, 3600, NS, "ns.example.org."), ("b.sub.example.com.", 60, A, "192.0.2.9"))
    parent_after = U.plus(("b.sub.example.com.", 60, A, "192.0.2.9")).serial(2)
    both = (ORIGIN, "primary", "on", U), (sub, "primary", "on", child)
    Server("Two chains: the one of the longer name changes.", *both).send(
        update(records=[in_child], questions=asked), signed_reply(0, questions=asked), after, chain=sub).end()
    Server("And the other doesn't.", *both).send(update(records=[in_child], questions=asked), signed_reply(0, questions=asked)).end()
    Server("A record of the zone above: NotZone.", *both).send(
        update(records=[ADD_B], questions=asked), signed_reply(10, questions=asked), child, chain=sub).end()
    Server("A zone may hold a record that lies below another's name.", *both).send(
        update(records=[in_child]), signed_reply(0), parent_after).end()
    Server("Of a chain the first zone alone decides and changes, though the second would take it.",
           (ORIGIN, "secondary", "on", U), (ORIGIN, "primary", "on", U)).send(update(records=[ADD_B]), plain_reply(4)).end()
    Server("The first zone of two changes.", (ORIGIN, "primary", "on", U), (ORIGIN, "primary", "on", U)).send(
        update(records=[ADD_B]), signed_reply(0), U.plus(ADDED).serial(2)).end()


for part in (first, codes, prerequisites, forms, changes, who, sections, chains):
    part()
