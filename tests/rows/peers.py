#!/usr/bin/python3
"""Rows of what named, Knot and NSD reply to questions for transfers: ../real_clients/axfr/peers.tsv.

    tests/rows/peers.py            prints each row: a comment, the question and the answer
    tests/rows/peers.py compare    compares the rows with those of `vectors`

A zone's records are those of the file that the server had, whose data dnspython reads, and what the zone answers is told by
../plain_lookup. Knot and NSD put owners in lower case. Why a reply gives no zone is told by its header and the types of its
records."""
import os
import sys
import tempfile

sys.dont_write_bytecode = True
HERE = os.path.dirname(os.path.realpath(__file__))
sys.path += [f"{HERE}/../plain_lookup", f"{HERE}/../real_clients"]
import compress
import lookup
import rules
import transfers
import trial
import wire
from lookup import A, ANY, AXFR, DS, NS, QR, SOA
from transfers import NSEC, NSEC3, NSEC3PARAM, RRSIG, SIG, TSIG, TXT

capture = trial.module(f"{HERE}/../real_clients/axfr/capture")
import dns.name
import dns.rdata
import dns.rdatatype

# The files of `vectors`; a zone without one stands in its row.
FILES = {it: f"{it}zone" for it in (capture.COMPANY, capture.EXAMPLE)}


def refusal(octets):
    """Why a reply gives no zone, or None."""
    _, flags, _, _, (answers, _, additionals) = compress.parts_of(octets)
    kinds = [compress.kind_of(it) for it in answers]
    if not flags & QR or flags & (lookup.OP_CODE | 15):
        return "NotAReply"
    if flags & compress.TC:
        return "Truncated"
    if {TSIG, SIG} & {compress.kind_of(it) for it in additionals}:
        return "Signed"
    if len(answers) < 2 or kinds[0] != SOA or answers[0] != answers[-1]:
        return "NoFrame"
    return "DnssecRecord" if {RRSIG, NSEC, NSEC3, NSEC3PARAM} & set(kinds) else None


# What a zone answers.

def record_of(owner, ttl, _class, kind, data):
    kind, data = dns.rdatatype.from_text(kind), dns.rdata.from_text("IN", kind, data, None, False).to_wire()
    return lookup.Record(dns.name.from_text(owner).labels[:-1], kind, rules.seconds(ttl), wire.data_at(data, 0, len(data), kind))


def name_order(record):
    """RFC 4034, section 6.1, then the types."""
    return lookup.lower(record.owner)[::-1], record.type


def asked(zone, origin):
    """Each owner's types and one that it has not; names below owners of NS and A, below wildcards, and above owners."""
    sets = dict.fromkeys((it.owner, it.type) for it in zone)
    owners = dict.fromkeys(owner for owner, _ in sets)
    yield from sets
    yield from ((tuple(map(bytes.upper, owner)), DS) for owner in owners)
    below = [(b"x", *owner) for owner in owners if {(owner, NS), (owner, A)} & sets.keys()]
    starred = [(*labels, *owner[1:]) for owner in owners if owner[0] == b"*" for labels in ((b"X",), (b"x", b"y"))]
    above = dict.fromkeys(owner[1:] for owner in owners if len(owner) > len(origin) + 1 and owner[1:] not in owners)
    yield from ((name, kind) for name in (*below, *starred, *above) for kind in (A, SOA, TXT))
    yield from ((origin, kind) for kind in (ANY, AXFR))
    yield from ((origin[1:], kind) for kind in (A, SOA))


def reply_of(zone, origin, request):
    """The reply to a request, with pointers. A transfer is the zone in order between its SOA and the same again."""
    if request.questions[0][1] == AXFR:
        start, = lookup.set_of(zone, origin, SOA)
        answers = [start, *(it for it in sorted(zone, key=name_order) if it != start), start]
        return wire.reply_octets(lookup.Reply(*lookup.header(request, 0, lookup.AA), answers, [], []))
    return wire.reply_octets(lookup.reply(zone, origin, request))


def roads(comment, origin, words, zone):
    """A row of two zones that have these records."""
    origin_name = dns.name.from_text(origin).labels[:-1]
    requests = [lookup.Request(transfers.ID, 0, [(name, kind, 1)]) for name, kind in asked(zone, origin_name)]
    messages = [wire.request_octets(it).hex() for it in requests]
    replies = [reply_of(zone, origin_name, it).hex() for it in requests]
    return comment, "\t".join(["roads", origin, "|".join(words), "tcp", *messages]), "\t".join(replies)


def rows():
    given = {}
    for line in open(capture.FILE, encoding="ascii").read().splitlines():
        if not line.startswith("#"):
            server, case, origin, octets = line.split("\t")
            cause = refusal(bytes.fromhex(octets))
            if cause:
                yield f"{server}, {case}", f"transfer\t{origin}\t{octets}", cause
            else:
                given.setdefault((case, origin), {})[server] = octets
    with tempfile.TemporaryDirectory(prefix="peers-") as folder:
        files = capture.write_zones(folder)
        for (case, origin), octets in given.items():
            records = rules.Zone(origin, files[origin]).records
            if case == "without an SOA below":
                records = [it for it in records if it[3] != "SOA" or it[0] == origin]
            if "named" in octets:
                yield roads(f"named and the file, {case}", origin, [FILES[origin], octets["named"]], [record_of(*it) for it in records])
                yield roads(f"knot and nsd, {case}", origin, [octets["knot"], octets["nsd"]], [record_of(it[0].lower(), *it[1:]) for it in records])
            else:
                text = "- " + "\\n".join(" ".join(it) for it in records)
                yield roads(f"knot and the file, {case}", origin, [text, octets["knot"]], [record_of(*it) for it in records])


if __name__ == "__main__":
    if sys.argv[1:] == ["compare"]:
        sys.exit(transfers.compare(list(rows())))
    for row in rows():
        print("# {}\n{}\n{}".format(*row))
