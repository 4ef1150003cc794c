#!/usr/bin/python3
"""Rows of servers of many zones: chains of zones and of lists of blocked names, who may ask, and a server's identifier.

    tests/rows/servers.py    prints each row: a comment, the question and the answer

The layouts are those of `messages.py`, written by hand from the RFCs, with the pointers of `compress.py`; the zones are those of
`vectors/data`. Each reply is read back by dnspython, which is to find the same records in it as in the reply in full."""
from messages import A, NS, OPT, SOA, WWW, address, entry, header, name, opt, question, reply, request, show, start

TXT, MX, AAAA, DS, ANY, AXFR = 16, 15, 28, 43, 255, 252
AA, RA, RD, TC = 0x8400, 0x8080, 0x0100, 0x0200
OTHER, LOCAL = "www.example.org.", "127.0.0.1"
HOST = "chain example.com. host.zone"


def asked(text=WWW, kind=A, flags=0, *additionals):
    return request(flags, [question(text, kind)], additionals=additionals)


def told(flags, text=WWW, kind=A, answers=(), authorities=(), additionals=()):
    return reply(flags, [question(text, kind)], answers, authorities, additionals)


def hit(text=WWW, last=1):
    """An address that a zone holds."""
    return told(AA, text, answers=[entry(text, A, 3600, bytes([192, 0, 2, last]))])


def sink(text=WWW, kind=A):
    """The record in place of a blocked name's."""
    return entry(text, kind, 86400, bytes(16 if kind == AAAA else 4))


def soa(origin, ttl, server, mailbox, serial):
    data = name(server) + name(mailbox) + b"".join(n.to_bytes(4, "big") for n in (serial, 3600, 1800, 604800, 86400))
    return entry(origin, SOA, ttl, data)


ROOT = soa(".", 3600, "ns.example.", "admin.example.", 1)
SUB = soa("sub.example.com.", 3600, "ns.example.com.", "admin.example.com.", 7)
SERVER = entry("example.com.", NS, 3600, name("ns.example.org."))


def nsid(octets=b""):
    return b"\0\3" + len(octets).to_bytes(2, "big") + octets


def no_zones():
    pointed = bytes.fromhex("080000000001000000000000c000")
    yield "no zones: names are nowhere, and so is one that a pointer spells in the header", "-", LOCAL, "tcp", [
        (pointed + bytes(34), bytes.fromhex("080080050001000000000000c00000000000")), (pointed, None),
        (asked(), told(0x8005)), (asked(flags=RD), told(0x8105)), (asked(".", NS), told(0x8005, ".", NS)),
        (asked(WWW, AXFR), told(0x8005, WWW, AXFR)), (asked(WWW, A, 0, opt()), told(0x8005, additionals=[opt()]))]
    yield "messages that no zone is asked for", "-", LOCAL, "tcp", [
        (bytes(11), None), (bytes(12), bytes.fromhex("000080010000000000000000")), (request(0x8000, []), reply(0x8001, [])),
        (request(0x2000, []), reply(0xA004, [])), (request(0x2800, []), reply(0xA801, [])),
        (request(0, [question()] * 2), request(0x8001, [question()] * 2)),
        (request(0, [], additionals=[opt(ttl=0x10000)]), reply(0x8000, [], additionals=[opt(ttl=0x01000000)])),
        (request(answers=[opt()]), None)]
    yield "questions without room for them", "-", LOCAL, "udp", [(request(0, [question(".")] * 110), header(0x8002, [0] * 4))]


def by_name():
    both = "chain example.com. cuts.zone; chain Sub.Example.com. sub.zone"
    yield "of two zones the one of the longer name answers, and for the rest the other (RFC 1034 4.3.2)", both, LOCAL, "tcp", [
        (asked("www.sub.example.com."), hit("www.sub.example.com.", 8)),
        (asked("host.sub.example.com."), told(0x8403, "host.sub.example.com.", authorities=[SUB])),
        (asked("SUB.example.com.", SOA), told(AA, "SUB.example.com.", SOA, [SUB])),
        (asked("ns.example.com."), hit("ns.example.com.", 53)),
        (asked("xsub.example.com."), told(0x8403, "xsub.example.com.", authorities=[start()])),
        (asked("example.com.", NS), told(AA, "example.com.", NS, [entry("example.com.", NS, 3600, name("ns.example.com."))], additionals=[
            entry("ns.example.com.", A, 3600, bytes([192, 0, 2, 53])),
            entry("ns.example.com.", AAAA, 3600, bytes.fromhex("20010db8000000000000000000000053"))])),
        (asked("com."), told(0x8005, "com.")), (asked(OTHER), told(0x8005, OTHER))]
    yield "for DS too, where the parent has the record (RFC 4035 3.1.4.1, and named, tell that one)", both, LOCAL, "tcp", [
        (asked("sub.example.com.", DS), told(AA, "sub.example.com.", DS, authorities=[SUB]))]
    yield "in the other order too", "; ".join(reversed(both.split("; "))), LOCAL, "udp", [
        (asked("www.sub.example.com."), hit("www.sub.example.com.", 8)), (asked("ns.example.com."), hit("ns.example.com.", 53))]
    yield "the root holds all names but those of longer ones", "chain . root.zone; " + HOST, LOCAL, "tcp", [
        (asked(), hit()), (asked("www.example."), hit("www.example.", 7)), (asked(".", SOA), told(AA, ".", SOA, [ROOT])),
        (asked(OTHER), told(0x8403, OTHER, authorities=[ROOT])), (asked("com."), told(0x8403, "com.", authorities=[ROOT])),
        (asked("z.example.com."), told(0x8403, "z.example.com.", authorities=[start()]))]
    yield "a zone is taken out, whatever the case of its name", HOST + "; remove EXAMPLE.com.", LOCAL, "tcp", [(asked(), told(0x8005))]
    yield "behind it is the zone above", "chain . root.zone; " + HOST + "; remove example.com.", LOCAL, "tcp", [
        (asked(), told(0x8403, authorities=[ROOT]))]
    yield "a chain takes the place of the one of its name", HOST + "; chain Example.COM. sub.zone", LOCAL, "tcp", [
        (asked("www.sub.example.com."), hit("www.sub.example.com.", 8)), (asked(), told(0x8405))]
    yield "a chain without handlers answers nobody, and hides the zone above", "chain . root.zone; chain example.com.", LOCAL, "tcp", [
        (asked(), told(0x8002)), (asked(flags=RD), told(0x8102)), (asked("www.example."), hit("www.example.", 7)),
        (asked(WWW, A, 0, opt()), told(0x8002, additionals=[opt()]))]
    yield "the first zone of a chain answers, a name error too", "chain example.com. host.zone forty.zone cuts.zone", LOCAL, "tcp", [
        (asked(), hit()), (asked("ns.example.com."), told(0x8403, "ns.example.com.", authorities=[start()]))]
    yield "a zone under a name above its own refuses what is outside it", "chain com. host.zone", LOCAL, "tcp", [
        (asked(), hit()), (asked("www.example2.com."), told(0x8405, "www.example2.com."))]
    yield "a copy of a zone answers as the zone does", "chain example.com. secondary:host.zone", LOCAL, "tcp", [
        (asked(), hit()), (asked("z.example.com."), told(0x8403, "z.example.com.", authorities=[start()]))]
    yield "a transfer, of a zone that is here and of one that isn't; options among the answers of a request", HOST, LOCAL, "tcp", [
        (asked("example.com.", AXFR), moved()), (asked(OTHER, AXFR), told(0x8005, OTHER, AXFR)), (request(answers=[opt()]), None)]


def external():
    yield "a zone of another server is forwarded to who asks for that (RD), and to nobody else", "chain example.com. external:host.zone", LOCAL, "tcp", [
        (asked(flags=RD), told(0x8180, answers=[address()])), (asked(), told(0x8085)),
        (asked("z.example.com.", A, RD), told(0x8183, "z.example.com.")), (asked("z.example.com."), told(0x8085, "z.example.com.")),
        (asked(WWW, AAAA, RD), told(0x8182, WWW, AAAA)), (asked("example.com.", SOA, RD), told(0x8180, "example.com.", SOA, [start()])),
        (asked("example.com.", NS, RD), told(0x8180, "example.com.", NS, [SERVER])),
        (asked(WWW, A, RD, opt(ttl=0x8000)), told(0x8180, answers=[address()], additionals=[opt(ttl=0x8000)]))]
    mail = [entry("example.com.", MX, 300, bytes([0, n * 10]) + name(f"mail{n}.example.com.")) for n in (1, 2)]
    yield "without addresses beside an answer", "chain example.com. external:hosts.zone", LOCAL, "tcp", [
        (asked("example.com.", MX, RD), told(0x8180, "example.com.", MX, mail))]
    sub = "sub.example.com."
    cut = entry(sub, NS, 60, name("ns.sub.example.com."))
    signer = entry(sub, DS, 60, bytes.fromhex("ec4505012bb183af5f22588179a53b0a98631fad1a292118"))
    yield "records of DNSSEC are for who asks for them, by DO or by their type", "chain example.com. external:cuts.zone", LOCAL, "tcp", [
        (asked(sub, ANY, RD), told(0x8180, sub, ANY, [cut])), (asked(sub, ANY, RD, opt()), told(0x8180, sub, ANY, [cut], (), [opt()])),
        (asked(sub, ANY, RD, opt(ttl=0x8000)), told(0x8180, sub, ANY, [cut, signer], (), [opt(ttl=0x8000)])),
        (asked(sub, DS, RD), told(0x8180, sub, DS, [signer]))]


def lists():
    upper, other = "WWW.example.com.", "z.example.com."
    missing = told(0x8403, other, authorities=[start()])
    yield "a list behind a zone, which is enforced", HOST + " enforce:2:www.example.com", LOCAL, "tcp", [
        (asked(), told(AA, answers=[sink()])), (asked(WWW, A, RD), told(0x8500, answers=[sink()])),
        (asked(WWW, AAAA), told(AA, WWW, AAAA, [sink(WWW, AAAA)])), (asked(WWW, MX), told(AA, WWW, MX, [sink()])),
        (asked(upper), told(AA, upper, answers=[sink()])), (asked(other), missing)]
    yield "a name that is blocked and doesn't exist", HOST + " enforce:2:*.example.com", LOCAL, "tcp", [
        (asked(other), told(AA, other, answers=[sink(other)])), (asked(OTHER), told(0x8005, OTHER))]
    for action in ("disabled", "log"):
        yield f"a list that is consulted and leaves the answer: {action}", f"{HOST} {action}:2:www.example.com", LOCAL, "tcp", [
            (asked(), hit()), (asked(other), missing)]
    for action in ("disabled", "enforce", "log"):
        yield f"a list before a zone breaks off, and its answer is another server's: {action}", HOST.replace(" host", f" {action}:2:www.example.com host"), LOCAL, "tcp", [
            (asked(), told(0x8085)), (asked(flags=RD), told(0x8180, answers=[sink()])), (asked(other), missing),
            (asked(other, A, RD), told(0x8503, other, authorities=[start()]))]
    yield "each list behind a zone is handed what the one before it made", HOST + " enforce:2:a.example.com:first enforce:2:www.example.com:second log:2:www.example.com:third", LOCAL, "tcp", [
        (asked(), told(AA, answers=[sink(), entry(WWW, TXT, 86400, b"\6second")]))]
    yield "of two lists that block the name the later one", HOST + " enforce:2:www.example.com:first enforce:2:*.example.com:second", LOCAL, "tcp", [
        (asked(), told(AA, answers=[sink(), entry(WWW, TXT, 86400, b"\6second")]))]
    foo, below = "foo.com.", "www.foo.com."
    yield "a list alone at the root: a wildcard blocks what is below it", "chain . disabled:2:*.foo.com", LOCAL, "tcp", [
        (asked(below, A, RD), told(0x8180, below, answers=[sink(below)])), (asked(below), told(0x8085, below)),
        (asked(foo, A, RD), told(0x8102, foo)), (asked(foo), told(0x8002, foo)),
        (asked("a.b.foo.com.", AAAA, RD), told(0x8180, "a.b.foo.com.", AAAA, [sink("a.b.foo.com.", AAAA)]))]
    yield "of one label where its depth is 0", "chain . disabled:0:*.com", LOCAL, "tcp", [
        (asked(below, A, RD), told(0x8180, below, answers=[sink(below)])), (asked("com.", A, RD), told(0x8102, "com.")),
        (asked(".", A, RD), told(0x8102, "."))]
    note = entry(foo, TXT, 86400, b"\7blocked")
    yield "with a message behind the address", "chain . disabled:2:foo.com:blocked", LOCAL, "udp", [
        (asked(foo, A, RD), told(0x8180, foo, A, [sink(foo), note])), (asked(foo, AAAA, RD), told(0x8180, foo, AAAA, [sink(foo, AAAA), note])),
        (asked(foo, A, RD, opt()), told(0x8180, foo, A, [sink(foo), note], (), [opt()]))]


def access():
    allowed = HOST + "; access allow:10.0.0.0/8"
    many = [question(".")] * 99
    for transport in ("tcp", "udp"):
        yield f"a source that isn't allowed is refused, without options, whatever it sends: {transport}", allowed, "192.0.2.9", transport, [
            (asked(), told(0x8005)), (asked(OTHER), told(0x8005, OTHER)), (asked(WWW, A, 0x0110), told(0x8115)),
            (asked(WWW, A, 0, opt()), told(0x8005)), (asked(WWW, A, 0, opt(ttl=0x10000)), told(0x8005)),
            (asked(WWW, A, 0, opt(data=nsid())), told(0x8005)), (asked(WWW, AXFR), told(0x8005, WWW, AXFR)),
            (request(0x8000), reply(0x8005)), (request(0x2000), reply(0xA005)), (request(0x2800), reply(0xA805)),
            (request(0, []), reply(0x8005, [])), (request(0, many), request(0x8005, many)),
            (request(0, many, additionals=[opt(4096)]), request(0x8005, many)),
            (bytes(11), None), (request(answers=[opt()]), None), (asked(WWW, A, 0, opt(), opt()), None)]
    yield "without options 512 octets bound a refusal", allowed, "192.0.2.9", "udp", [
        (request(0, [question(".")] * 101, additionals=[opt(4096)]), header(0x8002, [0] * 4))]
    for source in ("10.1.2.3", "::ffff:10.1.2.3", "2001:db8::1"):
        yield f"an allowed source: {source}", allowed, source, "tcp", [
            (asked(), hit()), (asked(WWW, A, 0, opt(ttl=0x10000)), told(0x8000, additionals=[opt(ttl=0x01000000)]))]
    inside = HOST + "; access deny:192.168.0.0/16 allow:192.168.1.0/24"
    for source, is_allowed in (("192.168.1.1", True), ("::ffff:192.168.1.1", True), ("10.0.0.1", True), ("192.168.2.1", False),
                               ("::ffff:192.168.2.1", False), ("::ffff:192.0.2.9", True)):
        yield f"{source} by the longest network that holds it", inside, source, "udp", [(asked(), hit() if is_allowed else told(0x8005))]
    yield "an address of IPv4 in one of IPv6 that isn't allowed", allowed, "::ffff:192.0.2.9", "tcp", [(asked(), told(0x8005))]
    yield "another list takes the place of the first", allowed + "; access", "192.0.2.9", "tcp", [(asked(), hit())]
    yield "networks of IPv6 say nothing of IPv4", HOST + "; access allow:fd00::/120", "192.0.2.9", "tcp", [(asked(), hit())]
    yield "and of IPv6 they do", HOST + "; access allow:fd00::/120", "fd00::1:1", "tcp", [(asked(), told(0x8005))]


def identifiers():
    ab = opt(data=nsid(b"ab"))
    yield "the server's identifier is told to who asks for it (RFC 5001), with each code but that of another version", HOST + "; nsid 6162", LOCAL, "tcp", [
        (request(0, [], additionals=[opt(data=nsid())]), reply(0x8001, [], additionals=[ab])),
        (request(0, [], additionals=[opt(data=b"\0\3")]), reply(0x8001, [], additionals=[opt()])),
        (request(0, [], additionals=[opt(data=b"\0")]), None),
        (asked(WWW, A, 0, opt(data=nsid())), told(AA, answers=[address()], additionals=[ab])),
        (asked(WWW, A, 0, opt(data=nsid(b"x"))), told(AA, answers=[address()], additionals=[ab])),
        (asked(WWW, A, 0, opt(data=b"\0\x0a\0\x08abcdefgh" + nsid())), told(AA, answers=[address()], additionals=[ab])),
        (asked(WWW, A, 0, opt(ttl=0x8000, data=nsid())), told(AA, answers=[address()], additionals=[opt(ttl=0x8000, data=nsid(b"ab"))])),
        (asked(OTHER, A, 0, opt(data=nsid())), told(0x8005, OTHER, additionals=[ab])),
        (asked(WWW, A, 0x8000, opt(data=nsid())), told(0x8001, additionals=[ab])),
        (asked(WWW, A, 0, opt(ttl=0x10000, data=nsid())), told(0x8000, additionals=[opt(ttl=0x01000000)])),
        (asked(WWW, A, 0, opt()), told(AA, answers=[address()], additionals=[opt()])), (asked(), hit())]
    yield "an identifier without octets", HOST + "; nsid -", LOCAL, "tcp", [
        (asked(WWW, A, 0, opt(data=nsid())), told(AA, answers=[address()], additionals=[opt(data=nsid())]))]
    yield "none any more", HOST + "; nsid 6162; nsid none", LOCAL, "tcp", [
        (asked(WWW, A, 0, opt(data=nsid())), told(AA, answers=[address()], additionals=[opt()]))]
    # The header and the question have 33 octets, the address 16, an OPT record with this option 15 beside the identifier.
    for length, fits in ((448, True), (449, False)):
        identifier = b"i" * length
        records = [opt(512, data=nsid(identifier))] if fits else []
        yield f"one of {length} octets in a datagram of 512", f"{HOST}; nsid {identifier.hex()}", LOCAL, "udp", [
            (asked(WWW, A, 0, opt(512, data=nsid())), told(AA if fits else AA | TC, answers=[address()], additionals=records))]


def moved(text="example.com.", flags=AA, *additionals):
    """host.zone as it is transferred."""
    return told(flags, text, AXFR, [start(), SERVER, address(), start()], (), additionals)


def transfers():
    yield "a transfer (RFC 5936 2.2): the SOA first and last, whatever name of the zone is asked, and whatever its kind", HOST, LOCAL, "tcp", [
        (asked(WWW, AXFR), moved(WWW)), (asked("z.EXAMPLE.com.", AXFR), moved("z.EXAMPLE.com.")),
        (asked("example.com.", AXFR, RD), moved(flags=0x8500)), (asked("example.com.", AXFR, 0x0010), moved(flags=0x8410)),
        (asked("example.com.", AXFR, 0, opt()), moved("example.com.", AA, opt())),
        (asked("example.com.", AXFR, 0, opt(ttl=0x8000)), moved("example.com.", AA, opt(ttl=0x8000)))]
    yield "not to a reply, another opcode, another version of EDNS, or two questions", HOST, LOCAL, "tcp", [
        (asked("example.com.", AXFR, 0x8000), told(0x8001, "example.com.", AXFR)),
        (asked("example.com.", AXFR, 0x2000), told(0xA004, "example.com.", AXFR)),
        (asked("example.com.", AXFR, 0, opt(ttl=0x10000)), told(0x8000, "example.com.", AXFR, additionals=[opt(ttl=0x01000000)])),
        (request(0, [question("example.com.", AXFR)] * 2), request(0x8001, [question("example.com.", AXFR)] * 2))]
    for kind in ("secondary", "external"):
        yield f"of a {kind} zone too", f"chain example.com. {kind}:host.zone", LOCAL, "tcp", [
            (asked("example.com.", AXFR), moved()), (asked("example.com.", AXFR, RD), moved(flags=0x8500))]
    servers = [entry("example.com.", NS, 3600, name("ns.example.com.")), entry("ns.example.com.", A, 3600, bytes([192, 0, 2, 53])),
               entry("ns.example.com.", AAAA, 3600, bytes.fromhex("20010db8000000000000000000000053"))]
    child, far, low, sub = (text + ".example.com." for text in ("child", "far", "low.sub", "sub"))
    below = [entry(child, NS, 60, name("ns." + child)), soa(child, 60, "ns." + child, "admin." + child, 7),
             entry("host." + child, A, 60, bytes([192, 0, 2, 57])),
             entry(far, NS, 60, name("ns.example.org.")), entry(far, NS, 60, name("ns.example.com."))]
    cuts = [entry(sub, NS, 60, name("ns." + sub)), entry(sub, DS, 60, bytes.fromhex("ec4505012bb183af5f22588179a53b0a98631fad1a292118")),
            entry("host." + sub, A, 60, bytes([192, 0, 2, 55])), entry(low, NS, 60, name("ns." + low)),
            entry(low, NS, 60, name("ns.example.com.")), entry("ns." + low, AAAA, 60, bytes.fromhex("20010db8000000000000000000000056")),
            entry("ns." + sub, A, 60, bytes([192, 0, 2, 54]))]
    yield "delegations and glue, and an SOA below the origin, by owner in canonical order, then by type", "chain example.com. cuts.zone", LOCAL, "tcp", [
        (asked("example.com.", AXFR), told(AA, "example.com.", AXFR, [start(), servers[0], *below, *servers[1:], *cuts, start()]))]
    yield "of the nearest zone", "chain example.com. cuts.zone; chain sub.example.com. sub.zone", LOCAL, "tcp", [
        (asked("www.sub.example.com.", AXFR), told(AA, "www.sub.example.com.", AXFR, [SUB, entry("www.sub.example.com.", A, 3600, bytes([192, 0, 2, 8])), SUB]))]
    yield "a blocklist has no zone: the next handler is asked, and the server failed without one", "chain example.com. enforce:2:www.example.com host.zone; chain . log:2:*.com; chain org.", LOCAL, "tcp", [
        (asked(WWW, AXFR), moved(WWW)), (asked("com.", AXFR), told(0x8002, "com.", AXFR)), (asked(OTHER, AXFR), told(0x8002, OTHER, AXFR))]
    yield "the first zone of a chain is transferred", "chain example.com. host.zone cuts.zone", LOCAL, "tcp", [(asked("example.com.", AXFR), moved())]
    forty = [entry(WWW, A, 3600, bytes([192, 0, 2, n + 1])) for n in range(40)]
    yield "a datagram holds what fits, and says that it isn't all (TC)", "chain example.com. forty.zone", LOCAL, "udp", [
        (asked("example.com.", AXFR), reply(AA, [question("example.com.", AXFR)], [start(), *forty, start()], maximum=512)),
        (asked("example.com.", AXFR, 0, opt(1232)), reply(AA, [question("example.com.", AXFR)], [start(), *forty, start()], additionals=[opt(1232)], maximum=1232))]


for part in (no_zones, by_name, external, lists, access, identifiers, transfers):
    for comment, setup, source, transport, pairs in part():
        show(comment, ["server", setup, source, transport], pairs)
