#!/usr/bin/python3
"""Rows of whole messages: requests with records, options and signatures, and the replies over host.zone and forty.zone.

    tests/rows/messages.py            prints each row: a comment, the question and the answer
    tests/rows/messages.py compare    compares every request of `vectors`, and each front of those of these rows, with the
                                      grammar and with dnspython: by hand, since the gate needs no dnspython

The layouts are those of RFC 1035, section 4.1, RFC 6891, section 6.1, and RFC 8945, section 4.2, written here by hand and
independent of the libraries; the pointers of replies, and which records are cut, are told by `compress.py`. Each reply, but to an
update or an operation that dnspython doesn't know, is read back by it, which is to find the same records as in the reply in full.
Which fronts of a request are requests is told by `grammar.py`.

To compare: a request has a reply exactly where `grammar.py` says that it is one, and dnspython reads it, or the difference has
one of the causes of ROWS.md (`CAUSES`). These are counted; the status is 1 where a difference has none, or where rows printed
here don't stand in `vectors`."""
import collections
import os
import struct
import sys

import dns.exception
import dns.flags
import dns.message
import dns.opcode

sys.dont_write_bytecode = True
import compress
import grammar

VECTORS = os.path.join(os.path.dirname(os.path.realpath(__file__)), "vectors")

ID, WWW = 0x1234, "www.example.com."
A, NS, SOA, SIG, OPT, TSIG, IXFR = 1, 2, 6, 24, 41, 250, 251
SOA_DATA = ("ns.example.com.", "admin.example.com.", 1, 3600, 1800, 604800, 86400)


def name(text):
    return b"".join(bytes([len(label)]) + label.encode() for label in text.split(".") if label) + b"\0"


def header(flags, counts, ident=ID):
    return struct.pack(">HHHHHH", ident, flags, *counts)


def question(text=WWW, kind=A):
    return name(text) + struct.pack(">HH", kind, 1)


def entry(owner, kind, ttl, data, dns_class=1):
    return name(owner) + struct.pack(">HHIH", kind, dns_class, ttl, len(data)) + data


def opt(payload=1232, ttl=0, data=b"", owner="."):
    return entry(owner, OPT, ttl, data, payload)


def address(last=1):
    return entry(WWW, A, 3600, bytes([192, 0, 2, last]))


def start():
    return entry("example.com.", SOA, 3600, name(SOA_DATA[0]) + name(SOA_DATA[1]) + struct.pack(">IIIII", *SOA_DATA[2:]))


def tsig(mac=b"\x01\x02"):
    data = name("hmac-sha256.") + struct.pack(">HIHH", 0, 1700000000, 300, len(mac)) + mac + struct.pack(">HHH", ID, 0, 0)
    return entry("key.example.", TSIG, 0, data, 255)


def request(flags=0, questions=(question(),), answers=(), authorities=(), additionals=()):
    parts = [questions, answers, authorities, additionals]
    return header(flags, [len(it) for it in parts]) + b"".join(b"".join(it) for it in parts)


def op_code_of(octets):
    return octets[2] >> 3 & 15


def is_update(octets):
    return op_code_of(octets) == grammar.UPDATE


def has_operation(octets):
    """Whether dnspython knows the operation."""
    return op_code_of(octets) in [it.value for it in dns.opcode.Opcode]


def reply(flags=0x8400, questions=(question(),), answers=(), authorities=(), additionals=(), maximum=65535):
    """The reply that holds these records, which are given in full, or as many as fit: then TC is set."""
    sections = [answers, authorities, additionals]
    octets = compress.laid_out(ID, flags, len(questions), b"".join(questions), sections, maximum)
    if is_update(octets) or not has_operation(octets):
        # (of an update dnspython asks that its first section be a zone's)
        return octets
    read = dns.message.from_wire(octets, one_rr_per_rrset=True)
    assert len(read.question) == (1 if questions else 0)
    if read.flags & dns.flags.TC:
        assert len(read.answer) <= len(answers)
        return octets
    assert (len(read.answer), len(read.authority)) == (len(answers), len(authorities))
    assert (read.edns >= 0) == any(it[:3] == b"\0\0\x29" for it in additionals)
    assert compress.same_by_dnspython(octets, request(flags, questions, *sections))
    return octets


def rows():
    """A comment, the zone, the transport, the requests and their replies, None for none."""
    plain, hit = request(), reply(answers=[address()])
    with_opt = lambda *records, **more: request(additionals=records, **more)
    found = lambda record: reply(answers=[address()], additionals=[record])
    yield "options: the payload is copied, 512 at least; version 0, no other flag than DO, no options", "host", "udp", [
        (with_opt(opt()), found(opt())), (with_opt(opt(100)), found(opt(512))), (with_opt(opt(65535)), found(opt(65535))),
        (with_opt(opt(ttl=0x8000)), found(opt(ttl=0x8000))), (with_opt(opt(ttl=0x0500FFFF)), found(opt(ttl=0x8000))),
        (with_opt(opt(data=b"\0\x0a\0\x08abcdefgh")), found(opt())), (with_opt(opt(data=b"\0\x03\0\0")), found(opt()))]
    yield "options that break off are none; data that end inside a code are no options", "host", "udp", [
        (with_opt(opt(data=b"\0\x03")), found(opt())), (with_opt(opt(data=b"\0\x03\0\x05ab")), found(opt())),
        (with_opt(opt(data=b"\0")), None), (with_opt(opt(data=b"\0\x03\0")), None)]
    yield "another version is told before all else: by the code 16, whose upper bits stand in the options", "host", "tcp", [
        (request(0, [], additionals=[opt(ttl=0x10000)]), reply(0x8000, [], additionals=[opt(ttl=0x01000000)])),
        (request(0x8000, additionals=[opt(ttl=0x20000)]), reply(0x8000, additionals=[opt(ttl=0x01000000)])),
        (request(0x2800, additionals=[opt(ttl=0xFF8000)]), reply(0xA800, additionals=[opt(ttl=0x01008000)]))]
    yield "errors and denials have options too", "host", "tcp", [
        (request(0x8000, additionals=[opt()]), reply(0x8001, additionals=[opt()])),
        (request(0x2000, additionals=[opt()]), reply(0xA004, additionals=[opt()])),
        (request(0, [], additionals=[opt()]), reply(0x8001, [], additionals=[opt()])),
        (request(0, [question("example.org.")], additionals=[opt()]), reply(0x8005, [question("example.org.")], additionals=[opt()])),
        (request(0, [question("z.example.com.")], additionals=[opt()]),
         reply(0x8403, [question("z.example.com.")], authorities=[start()], additionals=[opt()]))]
    many = [question(".")] * 99
    yield "ninety-nine questions leave no room for the options, and so none for the upper bits of the code", "host", "udp", [
        (request(0, many, additionals=[opt(512, 0x10000)]), request(0x8200, many))]
    yield "options stand once, in the additional section, and the root owns them", "host", "tcp", [
        (with_opt(opt(), opt()), None), (request(answers=[opt()]), None), (request(authorities=[opt()]), None),
        (with_opt(opt(owner="a.")), None), (with_opt(address(), opt()), found(opt())), (with_opt(opt(), address()), found(opt()))]
    yield "nothing stands behind a signature, by a shared key or a public one, and both only in the additional section", "host", "tcp", [
        (with_opt(tsig()), hit), (with_opt(opt(), tsig()), found(opt())), (with_opt(tsig(), opt()), None),
        (with_opt(tsig(), address()), None), (with_opt(tsig(), tsig()), None), (request(answers=[tsig()]), None),
        (with_opt(entry(".", SIG, 0, b"\0" * 20, 255)), hit), (with_opt(opt(), entry(".", SIG, 0, b"\0" * 20, 255)), found(opt())),
        (with_opt(entry(".", SIG, 0, b"\0" * 20, 255), opt()), None), (request(authorities=[entry(".", SIG, 0, b"\0", 255)]), None)]
    yield "a signature whose fields don't fill its data", "host", "tcp", [
        (with_opt(entry("key.", TSIG, 0, b"\0" * 10, 255)), None), (with_opt(entry("key.", TSIG, 0, b"\0" * 18, 255)), None),
        (with_opt(entry("key.", TSIG, 0, b"\0" * 17, 255)), hit)]
    empty = lambda kind: entry(WWW, kind, 0, b"", 255)
    updated = lambda *records: request(0x2800, additionals=records)
    denied = reply(0xA801)
    yield "records without data stand in updates alone, options aside; a signature by a shared key has data there too", "host", "tcp", [
        (with_opt(empty(A)), None), (request(answers=[empty(A)]), None), (updated(empty(A)), denied),
        (request(0x2800, answers=[empty(A)], authorities=[empty(255)]), denied), (updated(empty(SIG)), denied),
        (updated(empty(SIG), empty(A)), None), (updated(empty(TSIG)), None), (with_opt(empty(SIG)), None)]
    others = [op_code << 11 for op_code in (1, 2, 4, 15)]
    bare = entry(WWW, A, 0, b"")
    yield "in no other operation (1, 2, 4 and 15), of whatever class and in whatever section; with data such a record is read", "host", "tcp", [
        pair for flags in others for pair in (
            (request(flags, additionals=[empty(A)]), None), (request(flags, additionals=[bare]), None),
            (request(flags, answers=[bare]), None), (request(flags, authorities=[empty(A)]), None),
            (request(flags, additionals=[address()]), reply(0x8004 | flags)))]
    yield "of class IN too, in a query and in an update", "host", "tcp", [
        (with_opt(bare), None), (request(answers=[bare]), None), (updated(bare), denied), (request(0x2800, answers=[bare]), denied)]
    yield "records of every section are read, and data that are none of their type refused", "host", "tcp", [
        (request(answers=[address()]), hit), (request(authorities=[start()]), hit), (with_opt(address()), hit),
        (with_opt(entry(WWW, A, 0, b"\x01\x02\x03")), None), (request(answers=[entry(WWW, 255, 0, b"\x01")]), None),
        (request(0, [question("example.com.", IXFR)], authorities=[start()]),
         reply(0x8400, [question("example.com.", IXFR)], authorities=[start()]))]
    whole = request(0, [], additionals=[opt(ttl=0x10000)])
    yield "no front of a message is one", "host", "tcp", [(whole[:n], None) for n in range(len(whole))]
    yield "counts that nothing stands for", "host", "tcp", [
        (header(0, [65535] * 4), None), (header(0, [0, 1, 0, 0]), None), (header(0, [0, 0, 1, 0]), None), (header(0, [0, 0, 0, 1]), None)]
    yield "octets behind the last record are free", "host", "tcp", [(with_opt(opt()) + b"\xff", found(opt()))]
    forty = [address(n + 1) for n in range(40)]

    def cut(payload, count, flags=0x8600, options=1):
        told = reply(answers=forty, additionals=[opt(payload)], maximum=payload)
        assert struct.unpack(">6H", told[:12]) == (ID, flags, 1, count, 0, options)
        return with_opt(opt(payload)), told
    # The header and the question have 33 octets, each address 16, whose owner has 17 in full, and the options 11.
    yield "a datagram is as long as its sender takes: forty addresses, of which so many fit, and the options behind them", "forty", "udp", [
        cut(512, 29), cut(540, 31), cut(605, 35)]
    yield "an address is written where its owner fits in full, though it points; behind the last one the options fit, or not", "forty", "udp", [
        cut(529, 30), cut(530, 31, options=0), cut(539, 31, options=0), cut(673, 39), cut(674, 40, options=0),
        cut(683, 40, options=0), cut(684, 40, 0x8400)]


def requests():
    """The requests of these rows that have replies, each once."""
    told = (pair for *_, pairs in rows() for pair in pairs)
    return list(dict.fromkeys(octets for octets, answer in told if answer is not None))


def row_of(fields, pairs):
    """The question of requests, and its answer."""
    replies = ["none" if told is None else told.hex() for _, told in pairs]
    return "\t".join([*fields, *(octets.hex() for octets, _ in pairs)]), "\t".join(replies)


def show(comment, fields, pairs):
    """Prints a row: the comment, the question and the answer."""
    question, answer = row_of(fields, pairs)
    print(f"# {comment}\n{question}\n={answer}")


def fronts_row():
    """Which fronts of the requests are requests."""
    lengths = [",".join(str(count) for count in grammar.fronts(octets)) for octets in requests()]
    return "\t".join(["requests", *(octets.hex() for octets in requests())]), "\t".join(lengths)


def all_rows():
    """Each row as it stands in `vectors`: a comment, the question and the answer."""
    for comment, zone, transport, pairs in rows():
        yield comment, *row_of(["serve", "example.com.", f"{zone}.zone", transport], pairs)
    yield "of the requests of these rows, front by front, only the whole is one, or what stands before octets behind its last record", *fronts_row()


# What dnspython reads otherwise. Each cause is tested by amending the message, so that a difference of another cause isn't taken
# for it.

def is_read(octets, **options):
    """Whether dnspython reads a message."""
    try:
        dns.message.from_wire(octets, **options)
    except (dns.exception.DNSException, ValueError):
        return False
    return True


def lacks_key(octets):
    try:
        dns.message.from_wire(octets)
    except dns.message.UnknownTSIGKey:
        return True
    except (dns.exception.DNSException, ValueError):
        pass
    return False


def of_operation(octets, op_code):
    return octets[:2] + bytes([octets[2] & 0x87 | op_code << 3]) + octets[3:]


def with_type(octets, kind, other, behind):
    """The message with another type wherever these octets, of the class, stand behind it."""
    return octets.replace(struct.pack(">H", kind) + behind, struct.pack(">H", other) + behind)


def as_query(octets):
    """The message as a query, its addresses without data being of class ANY."""
    return of_operation(octets, 0).replace(b"\0\1\0\1" + bytes(6), b"\0\1\0\xff" + bytes(6))


NULL, OTHER = 10, 65000
# Behind a cause stands whether such messages are requests, and dnspython refuses them, or the other way; and the test.
CAUSES = {
    "octets behind the last record": (True, lambda octets: is_read(octets, ignore_trailing=True)),
    "options that break off": (True, lambda octets: is_read(with_type(octets, OPT, OTHER, b"\x04\xd0"))),
    "a signature by a key that isn't known": (True, lacks_key),
    "an update whose zone section isn't a zone's": (True, lambda octets: is_update(octets) and is_read(of_operation(octets, 0))),
    "a record of class IN without data, in an update": (True, lambda octets: is_update(octets) and is_read(as_query(octets))),
    "an operation without a name": (True, lambda octets: not has_operation(octets) and is_read(of_operation(octets, 0))),
    "a record without data, outside updates": (
        False, lambda octets: not is_update(octets) and grammar.is_request(of_operation(octets, grammar.UPDATE))),
    "SIG as a record like any other": (False, lambda octets: grammar.is_request(with_type(octets, SIG, NULL, b"\0\xff"))),
    "data of a type that only questions name": (False, lambda octets: grammar.is_request(with_type(octets, 255, OTHER, b"\0\1"))),
}


def cause_of(octets, is_request):
    """Why dnspython reads a message that is no request, or doesn't read one; None where it does as it should."""
    if is_read(octets) == is_request:
        return None
    for cause, (wanted, stands) in CAUSES.items():
        if wanted == is_request and stands(octets):
            return cause
    return "no cause that is known"


def stored():
    """The questions of `vectors` and their answers."""
    with open(f"{VECTORS}/stdin", encoding="utf-8") as asked, open(f"{VECTORS}/stdout", encoding="utf-8") as told:
        answers = told.read().split("\n")
        questions = asked.read().split("\n")
    return list(zip(questions, answers[len(answers) - len(questions) :]))


def served(pairs):
    """The requests of all rows, and whether each has a reply."""
    for question, answer in pairs:
        fields, replies = question.split("\t"), answer.split("\t")
        if fields[0] in ("serve", "answers", "server"):
            assert len(fields) == 4 + len(replies)
            for octets, told in zip(fields[4:], replies):
                yield bytes.fromhex(octets.strip("-")), told != "none"


def compare():
    """The number of rows, requests and fronts that aren't as they should be; these are shown."""
    wrong, causes, pairs = 0, collections.Counter(), stored()
    messages = list(served(pairs))
    for comment, *row in all_rows():
        if tuple(row) not in pairs:
            wrong += 1
            print(f"another row: {comment}")
    fronts = {octets[:count] for octets in requests() for count in range(len(octets))}
    for octets, has_reply in messages:
        if grammar.is_request(octets) != has_reply:
            wrong += 1
            print(f"{'has a' if has_reply else 'no'} reply: {octets.hex()}")
    for octets in [*(octets for octets, _ in messages), *sorted(fronts)]:
        cause = cause_of(octets, grammar.is_request(octets))
        causes[cause] += 1
        if cause and cause not in CAUSES:
            wrong += 1
            print(f"{cause}: {octets.hex()}")
    print(f"{len(messages)} requests and {len(fronts)} fronts; {causes.pop(None)} are to dnspython what they are here")
    for cause, count in causes.items():
        print(f"{count:5} {'read' if CAUSES.get(cause, [False])[0] else 'refused'} here alone: {cause}")
    return wrong


def main():
    if sys.argv[1:] == ["compare"]:
        sys.exit(1 if compare() else 0)
    if sys.argv[1:]:
        sys.exit(__doc__)
    for comment, question, answer in all_rows():
        print(f"# {comment}\n{question}\n={answer}")


if __name__ == "__main__":
    main()
