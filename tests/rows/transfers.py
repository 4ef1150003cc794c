#!/usr/bin/python3
"""Rows of transfers: replies to AXFR questions, and the zones that they give, or why they give none.

    tests/rows/transfers.py            prints each row: a comment, the question and the answer
    tests/rows/transfers.py compare    compares the rows with those of `vectors`

The layouts are those of RFC 1035, section 4.1, RFC 6891, section 6.1, and RFC 8945, section 4.2, and the answers are those of
RFC 5936, sections 2.2 and 3, all written here by hand and independent of the libraries. Names are uncompressed but in the rows
that say so. The zones are those of ROWS.md; each zone of a row is shown record by record, by owner and type."""
import os
import struct
import sys

VECTORS = os.path.join(os.path.dirname(os.path.realpath(__file__)), "vectors")

ID, ORIGIN, WWW = 0x1234, "example.com.", "www.example.com."
A, NS, CNAME, SOA, MX, TXT, SIG, AAAA, OPT, RRSIG, NSEC, NSEC3, NSEC3PARAM, TSIG, AXFR, ANAME = (
    1, 2, 5, 6, 15, 16, 24, 28, 41, 46, 47, 50, 51, 250, 252, 65305)
IN, CH, ANY = 1, 3, 255
REPLY = 0x8400


def name(text):
    return b"".join(bytes([len(label)]) + label.encode() for label in text.split(".") if label) + b"\0"


def header(flags, counts, ident=ID):
    return struct.pack(">HHHHHH", ident, flags, *counts)


def question(text=ORIGIN, kind=AXFR):
    return name(text) + struct.pack(">HH", kind, IN)


def entry(owner, kind, data, ttl=3600, dns_class=IN):
    return name(owner) + struct.pack(">HHIH", kind, dns_class, ttl, len(data)) + data


def soa(owner=ORIGIN, serial=1, ttl=3600, dns_class=IN, mname="ns.example.com."):
    data = name(mname) + name("admin.example.com.") + struct.pack(">IIIII", serial, 3600, 1800, 604800, 86400)
    return entry(owner, SOA, data, ttl, dns_class)


def address(owner=WWW, last=1, ttl=3600, dns_class=IN):
    return entry(owner, A, bytes([192, 0, 2, last]), ttl, dns_class)


def opt(ttl=0):
    return name(".") + struct.pack(">HHIH", OPT, 1232, ttl, 0)


def tsig():
    data = name("hmac-sha256.") + bytes(6) + struct.pack(">HH", 300, 32) + bytes(32) + struct.pack(">HHH", ID, 0, 0)
    return entry("key.example.com.", TSIG, data, 0, ANY)


def sig():
    data = struct.pack(">HBBIIIH", 0, 5, 0, 0, 0, 0, 1) + name(ORIGIN) + bytes(4)
    return entry(".", SIG, data, 0, ANY)


def message(answers, flags=REPLY, questions=(question(),), authorities=(), additionals=(), counts=None, behind=b""):
    counts = counts or (len(questions), len(answers), len(authorities), len(additionals))
    return header(flags, counts) + b"".join([*questions, *answers, *authorities, *additionals]) + behind


Z = [soa(), address(), soa()]
SOA_SHOWN = "example.com. 3600 SOA ns.example.com. admin.example.com. 1 3600 1800 604800 86400"
WWW_SHOWN = "www.example.com. 3600 A 192.0.2.1"
Z_SHOWN = f"{SOA_SHOWN}; {WWW_SHOWN}"


def between(*records):
    return message([soa(), *records, soa()])


def shown(*records):
    return "; ".join([SOA_SHOWN, *records])


def pointed():
    """The transfer of Z as a server writes it that points to earlier names: the origin's at 12 of the question."""
    start = b"\xc0\x0c" + struct.pack(">HHIH", SOA, IN, 3600, 33)
    start += b"\x02ns\xc0\x0c" + b"\x05admin\xc0\x0c" + struct.pack(">IIIII", 1, 3600, 1800, 604800, 86400)
    www = b"\x03www\xc0\x0c" + struct.pack(">HHIH", A, IN, 3600, 4) + bytes([192, 0, 2, 1])
    return header(REPLY, (1, 3, 0, 0)) + question() + start + www + start


def transfers():
    """The comment, the reply and the answer of each row."""
    # The whole reply, by the first cause.
    yield "no octets", b"", "NotAMessage"
    yield "eleven octets of a header", header(REPLY, (0, 0, 0, 0))[:11], "NotAMessage"
    yield "a record less than counted", message(Z, counts=(1, 4, 0, 0)), "NotAMessage"
    yield "a question less than counted", message([], questions=(), counts=(1, 0, 0, 0)), "NotAMessage"
    yield "the last octet is missing", message(Z)[:-1], "NotAMessage"
    yield "OPT among the answers (RFC 6891, section 6.1.1)", message([soa(), opt(), soa()]), "NotAMessage"
    yield "a record without data, outside an update", between(entry(WWW, A, b"")), "NotAMessage"
    yield "no message, and QR unset", message(Z, flags=0, counts=(1, 4, 0, 0)), "NotAMessage"
    yield "no message, and TC", message(Z, flags=0x8600, counts=(1, 4, 0, 0)), "NotAMessage"
    yield "the transfer of Z", message(Z), Z_SHOWN
    yield "the same, with pointers", pointed(), Z_SHOWN
    yield "octets after the message are ignored", message(Z, behind=b"\0\1\2"), Z_SHOWN
    yield "without AA, with RD, RA, AD and CD", message(Z, flags=0x81b0), Z_SHOWN
    yield "without a question (RFC 5936, section 2.2.1)", message(Z, questions=()), Z_SHOWN
    yield "of another question", message(Z, questions=(question(WWW, A),)), Z_SHOWN
    yield "with records of authority, and options", message(Z, authorities=(address("a."),), additionals=(opt(),)), Z_SHOWN
    yield "QR unset", message(Z, flags=0x0400), "NotAReply"
    yield "code 5", message(Z, flags=0x8405), "NotAReply"
    yield "code 1", message(Z, flags=0x8401), "NotAReply"
    yield "op code Notify", message(Z, flags=0xa400), "NotAReply"
    yield "op code 1", message(Z, flags=0x8c00), "NotAReply"
    yield "a code in the options, BADVERS (RFC 6891, section 6.1.3)", message(Z, additionals=(opt(0x01000000),)), "NotAReply"
    yield "a code in both, BADCOOKIE", message(Z, flags=0x8407, additionals=(opt(0x01000000),)), "NotAReply"
    yield "options with DO and no code", message(Z, additionals=(opt(0x00008000),)), Z_SHOWN
    yield "code 5, and TC", message(Z, flags=0x8605), "NotAReply"
    yield "QR unset, without answers", message([], flags=0x0400), "NotAReply"
    yield "TC", message(Z, flags=0x8600), "Truncated"
    yield "TC, and a TSIG", message(Z, flags=0x8600, additionals=(tsig(),)), "Truncated"
    yield "TC, without answers", message([], flags=0x8600), "Truncated"
    yield "a TSIG", message(Z, additionals=(tsig(),)), "Signed"
    yield "a SIG", message(Z, additionals=(sig(),)), "Signed"
    yield "a SIG after another record", message(Z, additionals=(address(), opt(), sig())), "Signed"
    yield "a TSIG, without answers", message([], additionals=(tsig(),)), "Signed"
    yield "no answers", message([]), "NoFrame"
    yield "one SOA alone", message([soa()]), "NoFrame"
    yield "the last SOA is missing", message([soa(), address()]), "NoFrame"
    yield "the first SOA is missing", message([address(), soa()]), "NoFrame"
    yield "another serial at the end", message([soa(), address(), soa(serial=2)]), "NoFrame"
    yield "another class at the end", message([soa(), address(), soa(dns_class=CH)]), "NoFrame"
    yield "the SOA of another owner", message([soa(WWW), address(), soa(WWW)]), "NoFrame"
    yield "two addresses of the origin", message([address(ORIGIN), address(ORIGIN)]), "NoFrame"
    yield "two SOAs of the parent, and a record outside", message([soa("com."), address("a."), soa("com.")]), "NoFrame"
    yield "equal but for case and TTL (RFC 2181, section 5.2)", message([soa(), soa("EXAMPLE.com.", ttl=60, mname="NS.example.com.")]), SOA_SHOWN
    yield "the SOA twice, and nothing else", message([soa(), soa()]), SOA_SHOWN

    # Its records, each by the first cause.
    yield "outside the zone", between(address("www.example.org.")), "OutsideZone"
    yield "the parent", between(address("com.")), "OutsideZone"
    yield "outside the zone, and of class CH", between(address("www.example.org.", dns_class=CH)), "OutsideZone"
    yield "outside the zone, an RRSIG", between(entry("www.example.org.", RRSIG, bytes(18) + name(ORIGIN) + bytes(4))), "OutsideZone"
    yield "outside the zone, after a record that is refused", between(address(dns_class=CH), address("www.example.org.")), "Record 1"
    yield "RRSIG", between(entry(WWW, RRSIG, bytes(18) + name(ORIGIN) + bytes(4))), "DnssecRecord"
    yield "NSEC", between(entry(WWW, NSEC, name(ORIGIN) + bytes([0, 1, 64]))), "DnssecRecord"
    yield "NSEC3", between(entry(WWW, NSEC3, bytes([1, 0, 0, 0, 0, 1, 0]))), "DnssecRecord"
    yield "NSEC3PARAM", between(entry(WWW, NSEC3PARAM, bytes([1, 0, 0, 0, 0]))), "DnssecRecord"
    yield "NSEC of class CH", between(entry(WWW, NSEC, name(ORIGIN), dns_class=CH)), "DnssecRecord"
    yield "class CH", between(address(dns_class=CH)), "Record 1"
    yield "class ANY", between(address(dns_class=ANY)), "Record 1"
    yield "class CH, the second", between(address(), address("a.example.com.", dns_class=CH)), "Record 2"
    yield "the frame of class CH", message([soa(dns_class=CH), soa(dns_class=CH)]), "Record 0"
    a, b = "a.example.com.", "b.example.com."
    yield "an address beside an alias", between(entry(a, CNAME, name(b)), address(a)), "Record 2"
    yield "an alias beside an address", between(address(a), entry("A.example.com.", CNAME, name(b))), "Record 2"
    yield "an alias of the origin", between(entry(ORIGIN, CNAME, name(b))), "Record 1"
    yield "a second alias", between(entry(a, CNAME, name(b)), entry(a, CNAME, name(WWW))), "Record 2"
    yield "the same alias again", between(entry(a, CNAME, name(b)), entry(a, CNAME, name("B.example.com."), 60)), \
        shown("a.example.com. 60 CNAME B.example.com.")
    yield "a second SOA of the origin", between(soa(serial=2)), "Record 1"
    yield "the SOA a third time", message([soa(), address(), soa(), soa()]), "Record 2"
    yield "an SOA below the origin", between(soa("sub.example.com.", 7)), \
        shown("sub.example.com. 3600 SOA ns.example.com. admin.example.com. 7 3600 1800 604800 86400")
    yield "two SOAs below the origin, of one owner", between(soa("sub.example.com.", 7), soa("SUB.example.com.", 7)), "Record 2"
    yield "two SOAs below the origin", between(soa("t.example.com.", 7), soa("sub.example.com.", 8)), shown(
        "sub.example.com. 3600 SOA ns.example.com. admin.example.com. 8 3600 1800 604800 86400",
        "t.example.com. 3600 SOA ns.example.com. admin.example.com. 7 3600 1800 604800 86400")

    # The zone.
    yield "records in any order", between(address("b.example.com."), address(WWW, 2), address(a), address(WWW)), shown(
        "a.example.com. 3600 A 192.0.2.1", "b.example.com. 3600 A 192.0.2.1", "www.example.com. 3600 A 192.0.2.2", WWW_SHOWN)
    yield "the same record twice, with the later TTL", between(address(), address(WWW, 2), address("WWW.example.com.", 1, 60)), \
        shown("WWW.example.com. 60 A 192.0.2.1", "www.example.com. 3600 A 192.0.2.2")
    yield "of two ANAMEs the last", between(entry(a, ANAME, name(b)), entry(a, ANAME, name(WWW), 60)), \
        shown("a.example.com. 60 ANAME www.example.com.")
    yield "a wildcard, a delegation with glue, a text", between(
        entry("*.example.com.", TXT, b"\1x"), entry("sub.example.com.", NS, name("ns.sub.example.com.")),
        address("ns.sub.example.com.", 3)), shown(
        "*.example.com. 3600 TXT x", "sub.example.com. 3600 NS ns.sub.example.com.", "ns.sub.example.com. 3600 A 192.0.2.3")
    yield "a type without a name (RFC 3597)", between(entry(WWW, 65400, b"\1\2\3")), \
        shown("www.example.com. 3600 TYPE65400 AQID")


def lookup(qname, kind):
    return header(0, (1, 0, 0, 0)) + question(qname, kind)


def pointer(place):
    return struct.pack(">H", 0xc000 | place)


def point(place, kind, data, ttl=3600):
    """A record whose owner is written as a pointer."""
    return pointer(place) + struct.pack(">HHIH", kind, IN, ttl, len(data)) + data


def served():
    """The comment, the reply, a question and its answer of each row. In answers names point to earlier ones."""
    www = bytes([192, 0, 2, 1])
    yield "the zone of the transfer of Z, and row 1", message(Z), lookup(WWW, A), \
        header(0x8400, (1, 1, 0, 0)) + question(WWW, A) + point(12, A, www)
    # sub has an SOA of its own: it is no delegation. x.sub.example.com. begins at 12, example.com. at 18.
    sub = between(entry("sub.example.com.", NS, name("ns.example.com.")), soa("sub.example.com.", 7), address())
    start = b"\x02ns" + pointer(18) + b"\x05admin" + pointer(18) + struct.pack(">IIIII", 1, 3600, 1800, 604800, 86400)
    yield "an SOA below the origin beside an NS (RFC 1034, section 4.2.1)", sub, lookup("x.sub.example.com.", A), \
        header(0x8403, (1, 0, 1, 0)) + question("x.sub.example.com.", A) + point(18, SOA, start)
    # The question ends at 29; the names of the two servers are at 41 and 59.
    v6 = bytes([0x20, 1, 0xd, 0xb8]) + bytes(11) + b"\1"
    servers = between(
        entry(ORIGIN, NS, name("ns1.example.com.")), entry(ORIGIN, NS, name("ns2.example.com.")), address("ns1.example.com.", 2),
        address("ns2.example.com.", 3), entry("ns2.example.com.", AAAA, v6))
    yield "the addresses of both servers", servers, lookup(ORIGIN, NS), \
        header(0x8400, (1, 2, 0, 3)) + question(ORIGIN, NS) + point(12, NS, b"\3ns1" + pointer(12)) \
        + point(12, NS, b"\3ns2" + pointer(12)) + point(41, A, bytes([192, 0, 2, 2])) + point(59, A, bytes([192, 0, 2, 3])) \
        + point(59, AAAA, v6)
    # The exchange of the first record is at 43.
    mail = between(entry(ORIGIN, MX, b"\0\x0a" + name(WWW)), entry(ORIGIN, MX, b"\0\x14" + name(WWW)), address())
    yield "the addresses of an exchange that two records have, once", mail, lookup(ORIGIN, MX), \
        header(0x8400, (1, 2, 0, 1)) + question(ORIGIN, MX) + point(12, MX, b"\0\x0a\3www" + pointer(12)) \
        + point(12, MX, b"\0\x14" + pointer(43)) + point(43, A, www)


def rows():
    for comment, octets, answer in transfers():
        yield comment, f"transfer\t{ORIGIN}\t{octets.hex() or '-'}", answer
    for comment, octets, asked, answer in served():
        yield comment, f"transferred\t{ORIGIN}\t{octets.hex()}\ttcp\t{asked.hex()}", answer.hex()


def compare(rows):
    def lines(file):
        with open(os.path.join(VECTORS, file), encoding="utf-8") as it:
            return it.read().split("\n")
    asked, answers = lines("stdin"), lines("stdout")
    there = dict(zip(asked, answers[len(answers) - len(asked) :]))
    wrong = [row for _, row, answer in rows if there.get(row) != answer]
    print(f"transfers: {len(rows)} rows, {len(wrong)} differ from those of vectors")
    for row in wrong:
        print(row)
    return 1 if wrong else 0


if __name__ == "__main__":
    if sys.argv[1:] == ["compare"]:
        sys.exit(compare(list(rows())))
    for comment, asked, answer in rows():
        print(f"# {comment}\n{asked}\n{answer}")
