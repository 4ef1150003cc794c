#!/usr/bin/python3
"""Rows of replies in which names point to earlier ones (RFC 1035, section 4.1.4), or don't.

    tests/rows/pointers.py    prints each row: a comment, the question and the answer; first those of the encoder alone

The records of each reply are told here by hand, in full, and laid out by `compress.py`; `plain_lookup/rows.py` finds the same
records. Beside a reply stand octets that are to be in it, written by hand, with each pointer (`c0 0c` is one to the question's
name). dnspython reads the same records in both."""
from messages import A, NS, SOA, entry, header, name, question, show

import compress

PTR, HINFO, MX, SRV, NAPTR, HTTPS, NULL, ANY, ANAME = 12, 13, 15, 33, 35, 65, 10, 255, 65305
ID, WWW, ORIGIN = 0x1234, "www.example.com.", "example.com."


def number(value):
    return value.to_bytes(2, "big")


def string(text):
    return bytes([len(text)]) + text.encode()


def mail(host, preference, owner=WWW):
    """The line of an MX record, and the record."""
    return f"{owner} 60 IN MX {preference} {host}", entry(owner, MX, 60, number(preference) + name(host))


def address(owner, last, ttl=60):
    return f"{owner} {ttl} IN A 192.0.2.{last}", entry(owner, A, ttl, bytes([192, 0, 2, last]))


def start(server="ns.example.com.", mailbox="admin.example.com.", origin=ORIGIN):
    data = name(server) + name(mailbox) + b"".join(n.to_bytes(4, "big") for n in (1, 3600, 1800, 604800, 86400))
    return f"{origin} 3600 IN SOA {server} {mailbox} 1 3600 1800 604800 86400", entry(origin, SOA, 3600, data)


class Row:
    """A zone of its start and other records, and the replies to questions about them."""

    def __init__(self, comment, transport="tcp", begins=None, origin=ORIGIN):
        self.comment, self.transport, self.origin = comment, transport, origin
        self.lines, self.pairs = [(begins or start(origin=origin))[0]], []

    def holds(self, *records):
        """Puts records into the zone, given by their lines and octets; these are answered."""
        self.lines += [line for line, _ in records]
        return [octets for _, octets in records]

    def told(self, text, kind, answers=(), authorities=(), additionals=(), octets=(), is_cut=False, ident=ID, asked=None):
        """A question for a name or of octets, and its reply, in which these octets stand in order."""
        asked = asked or question(text, kind)
        maximum = 512 if self.transport == "udp" else 65535
        reply = compress.laid_out(ident, 0x8400, 1, asked, [answers, authorities, additionals], maximum)
        place = 0
        for part in octets:
            place = reply.index(part, place) + len(part)
        assert bool(reply[2] & 2) == is_cut
        if asked == question(text, kind):
            full = compress.in_full(reply)
            assert compress.same_by_dnspython(reply, full)
            assert is_cut or full == header(0x8400, [1, *map(len, (answers, authorities, additionals))]) + asked + b"".join(
                [*answers, *authorities, *additionals])
        self.pairs.append((header(0, [1, 0, 0, 0], ident) + asked, reply))

    def show(self):
        show(self.comment, ["answers", self.origin, "- " + "\\n".join(self.lines), self.transport], self.pairs)


def suffixes_and_case():
    row = Row("a name points as a whole, or behind labels of its own, to a suffix that stands there, also to one in the middle of a name")
    found = row.holds(mail("mail.sub.example.com.", 1), mail("mail.sub.example.com.", 2), mail("sub.example.com.", 3),
                      mail("x.sub.example.com.", 4), mail("ub.example.com.", 5), mail("com.", 6))
    # The question's name stands at 12, and its suffixes at 16 and 24; the first record's host at 47, and `sub` at 52.
    row.told(WWW, MX, found, octets=[
        b"\xc0\x0c" + found[0][17:25] + number(13) + number(1) + b"\4mail\3sub\xc0\x10", number(4) + number(2) + b"\xc0\x2f",
        number(4) + number(3) + b"\xc0\x34", number(6) + number(4) + b"\1x\xc0\x34", number(7) + number(5) + b"\2ub\xc0\x10",
        number(4) + number(6) + b"\xc0\x18"])
    yield row
    row = Row("letters of another case are another name, up to the suffix that has the same")
    found = row.holds(mail("Mail.example.com.", 1), mail("mail.example.com.", 2), mail("mail.Example.com.", 3),
                      mail("mail.example.COM.", 4), mail("Mail.example.com.", 5))
    row.told(WWW, MX, found, octets=[b"\4Mail\xc0\x10", b"\4mail\xc0\x10", b"\4mail\7Example\xc0\x18", b"\4mail\7example\3COM\0",
                                     number(4) + number(5) + b"\xc0\x2f"])
    yield row
    row = Row("nothing points to the end of a name alone", origin=".")
    servers = row.holds(*((f". 60 IN NS {host}", entry(".", NS, 60, name(host))) for host in ("a.", "b.a.", "c.")))
    row.told(".", NS, servers, octets=[b"\0\0\2\0\1\0\0\0\x3c\0\3\1a\0" + b"\0\0\2\0\1\0\0\0\x3c\0\4\1b\xc0\x1c", number(3) + b"\1c\0"])
    yield row
    row = Row("a question whose name has a pointer, here into the header, is none to point to", origin="a.")
    found = row.holds(address("b.a.", 1), address("b.a.", 2))
    row.told("b.a.", A, found, ident=0x0161, asked=b"\1b\xc0\0" + number(A) + number(1), octets=[b"\1b\1a\0" + number(A), b"\xc0\x14" + number(A)])
    yield row


def other_data():
    host = "host.example.com."
    full = name(host)
    row = Row("names in the data of PTR and MX point, those of SRV, NAPTR, HTTPS and ANAME stand in full")
    found = row.holds(
        (f"{WWW} 60 IN PTR {host}", entry(WWW, PTR, 60, full)), mail(host, 1),
        (f"{WWW} 60 IN SRV 1 2 3 {host}", entry(WWW, SRV, 60, number(1) + number(2) + number(3) + full)),
        (f'{WWW} 60 IN NAPTR 1 2 "s" "x" "" {host}', entry(WWW, NAPTR, 60, number(1) + number(2) + b"\1s\1x\0" + full)),
        (f"{WWW} 60 IN HTTPS 1 {host}", entry(WWW, HTTPS, 60, number(1) + full)),
        (f"{WWW} 60 IN ANAME {host}", entry(WWW, ANAME, 60, full)))
    row.told(WWW, ANY, found, octets=[b"\4host\xc0\x10", number(4) + number(1) + b"\xc0\x2d", number(3) + full, b"\1s\1x\0" + full,
                                      number(1) + full, number(18) + full])
    yield row
    row = Row("and no later name points to one in such data, nor to octets that spell it in data of strings")
    service = row.holds((f"{WWW} 60 IN SRV 1 2 3 {host}", entry(WWW, SRV, 60, number(1) + number(2) + number(3) + full)))
    near = row.holds(address(host, 1), address(host, 2))
    row.told(WWW, SRV, service, additionals=near, octets=[number(3) + full, b"\4host\xc0\x10" + number(A), b"\xc0\x45" + number(A)])
    spelled = f"{WWW.replace('www', 'null')}"
    found = row.holds(
        (f"{spelled} 60 IN NULL \\# {len(full)} {full.hex()}", entry(spelled, NULL, 60, full)),
        (f"{spelled} 60 IN HINFO host example", entry(spelled, HINFO, 60, string("host") + string("example"))),
        mail(host, 1, spelled))
    row.told(spelled, ANY, found, octets=[number(18) + full, b"\4host\7example\xc0\x0c", number(9) + number(1) + b"\4host\xc0\x11"])
    yield row


def limits():
    row = Row("of sixty-five names sixty-four are kept: two of the question, and those of sixty-two records; the last isn't pointed to")
    hosts = [f"m{n}.example.com." for n in range(10, 73)]
    found = row.holds(*(mail(host, n, ORIGIN) for n, host in enumerate([*hosts, hosts[62], hosts[61]])))
    row.told(ORIGIN, MX, found, octets=[
        number(8) + number(61) + b"\3m71\xc0\x0c", number(8) + number(62) + b"\3m72\xc0\x0c", number(8) + number(63) + b"\3m72\xc0\x0c",
        number(4) + number(64) + b"\xc4\xef"])
    assert row.pairs[0][1].index(b"\3m71\xc0\x0c") == 0x4EF
    yield row

    row = Row("a name at the place 16381 is kept, and its suffix at 16383 isn't: places have fourteen bits")
    # Header and question take 33 octets, each of 31 records 524, of which two strings have 255, the next one 90; an owner, the
    # fixed fields of an MX record and its preference, which stand before the name, take 14: in all 16381.
    strings = [(letter * 255, "s" * 255) for letter in "abcdefghijklmnopqrstuvwxyz01234"] + [("t" * 38, "s" * 38)]
    found = row.holds(*((f"{WWW} 60 IN HINFO {first} {second}", entry(WWW, HINFO, 60, string(first) + string(second)))
                        for first, second in strings))
    found += row.holds(*(mail(f"{labels}.example.com.", n) for n, labels in enumerate(("x.y", "z.y", "w.x.y", "z.y"))))
    row.told(WWW, ANY, found, octets=[
        number(8) + number(0) + b"\1x\1y\xc0\x10", number(8) + number(1) + b"\1z\1y\xc0\x10", number(6) + number(2) + b"\1w\xff\xfd",
        number(8) + number(3) + b"\1z\1y\xc0\x10"])
    assert row.pairs[0][1].index(b"\1x\1y\xc0\x10") == 16381
    yield row


def rolled_back():
    # Header and question take 29 octets, the owner and the fixed fields 12, the first name 244, the second 210, of 225 in full;
    # 20 more octets would pass 512.
    labels = lambda letter, *lengths: ".".join(letter * length for length in lengths) + ".sub.example.com."
    begins = start(labels("m", 63, 63, 63, 45), labels("r", 63, 63, 63, 15))
    row = Row("names of a record that is cut behind them aren't pointed to: a zone's start, whose names fit, and name servers behind it", "udp", begins)
    servers = row.holds(*((f"{ORIGIN} 60 IN NS {host}", entry(ORIGIN, NS, 60, name(host))) for host in ("ns.sub.example.com.", "sub.example.com.")))
    row.told(ORIGIN, SOA, [begins[1]], servers, octets=[b"\2ns\3sub\xc0\x0c", b"\xc0\x2c"], is_cut=True)
    yield row


def written(*steps):
    """A question `write`, and its answer."""
    encoder, told = compress.Encoder(), []
    for step in steps:
        what, value = step.split(" ")
        try:
            if what == "max":
                encoder.maximum = int(value)
            elif what == "name":
                encoder.name(name(value))
            else:
                encoder.put(bytes.fromhex(value))
            told.append(str(len(encoder.octets)))
        except compress.Full:
            told.append("refused")
    return "\t".join(["write", *steps]), " ".join([*told, encoder.octets.hex()])


def steps():
    yield "A name points to the longest of its suffixes that was written.", written("name ra.rb.rc.", "name rb.rc.", "name rc.", "name z.ra.rb.rc.")
    yield "It is refused where it doesn't fit in full, of 4 and of 12 octets, though it would with its pointer.", written(
        "name ra.rb.rc.", "name rb.rc.", "max 14", "name rc.", "max 16", "name rc.", "max 25", "name z.ra.rb.rc.", "max 26", "name z.ra.rb.rc.")
    yield "Names in another case, the end alone, and octets that spell a name are none to point to.", written(
        "name a.b.", "name A.b.", "name a.B.", "name .", "name .", "octets 01630164016200", "name c.d.b.", "name d.b.", "name c.D.b.")


def main():
    for comment, (asked, answer) in steps():
        print(f"# {comment}\n{asked}\n={answer}")
    for part in (suffixes_and_case, other_data, limits, rolled_back):
        for row in part():
            row.show()


if __name__ == "__main__":
    main()
