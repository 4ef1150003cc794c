#!/usr/bin/python3
"""Rows of what the NSEC records of replies deny: ../real_clients/denials/replies.tsv.

    tests/rows/denials.py            prints each row: a comment, the question and the answer
    tests/rows/denials.py compare    compares the rows with those of `vectors`

dnspython reads the replies and orders the names (RFC 4034, section 6.1)."""
import os
import sys

sys.dont_write_bytecode = True
HERE = os.path.dirname(os.path.realpath(__file__))
FILE = f"{HERE}/../real_clients/denials/replies.tsv"
import dns.message
import dns.name
import dns.rcode
import dns.rdatatype

# Asked of every reply: names that are there, that are not, that are empty, and another zone's.
NAMES = [dns.name.from_text(it) for it in r"example.com. a.example.com. b.example.com. c2.C.example.com. f.example.com. nr.example.com. z\001q.example.com. zzz.example.com. a.one.example. com.".split()]
TYPES = [dns.rdatatype.from_text(it) for it in ("A", "AAAA", "MX", "TXT", "DS", "NSEC")]


def replies():
    """Each question with the reply's octets."""
    with open(FILE, encoding="ascii") as file:
        for line in file:
            if not line.startswith("#"):
                name, kind, octets = line.rstrip("\n").split("\t")
                yield dns.name.from_text(name), dns.rdatatype.from_text(kind), bytes.fromhex(octets)


def proofs(octets):
    """The code, whether there is no answer, and owner, next name and types of each NSEC record; none where it is cut."""
    try:
        message = dns.message.from_wire(octets, ignore_trailing=True)
    except dns.exception.DNSException:
        return None, False, []
    sets = [it for it in message.authority if it.rdtype == dns.rdatatype.NSEC]
    return message.rcode(), not message.answer, [(it.name, data.next, types_of(data)) for it in sets for data in it]


def types_of(data):
    return {window * 256 + place * 8 + bit for window, octets in data.windows for place, octet in enumerate(octets) for bit in range(8) if octet & (128 >> bit)}


def is_between(owner, name, following):
    """Strictly between both, on a circle."""
    if owner < following:
        return owner < name < following
    if owner > following:
        return owner < name or name < following
    return name != owner


def denies(octets, name):
    code, _, found = proofs(octets)
    return code == dns.rcode.NXDOMAIN and any(is_between(owner, name, following) for owner, following, _ in found)


def lacks(octets, name, kind):
    code, empty, found = proofs(octets)
    return code == dns.rcode.NOERROR and empty and any(owner == name and kind not in types for owner, _, types in found)


def others(name, octets):
    """The question's name, in capitals too, those of the proofs, names right behind and below it, and the fixed ones."""
    names = [name, dns.name.Name([it.upper() for it in name.labels])]
    names += [it for owner, following, _ in proofs(octets)[2] for it in (owner, following)]
    names += [dns.name.Name([name.labels[0] + b"\0", *name.labels[1:]])] if len(name.labels) > 1 else []
    names += [dns.name.Name([b"x", *name.labels])]
    return list({it.to_text(): it for it in [*names, *NAMES]}.values())


def spelled(name):
    """As rows have names: those with octets that no text has without escapes, by their labels in hex."""
    text = name.to_text()
    return ":" + ".".join(it.hex() for it in name.labels[:-1]) if "\\" in text else text


def words(answers):
    return " ".join("yes" if it else "no" for it in answers)


def row_of(name, kind, octets, why):
    """The rows of one reply: of names, or of types where there is no error."""
    if dns.rcode.NOERROR != octets[3] & 15:
        names = others(name, octets)
        asked = words(denies(octets, it) for it in names)
        yield f"# {why}", "\t".join(["denied", octets.hex(), *map(spelled, names)]), asked
    else:
        pairs = [(name, it) for it in dict.fromkeys([kind, *TYPES])] + [(it, kind) for it in NAMES[:4]]
        asked = words(lacks(octets, it, of) for it, of in pairs)
        texts = [f"{spelled(it)}/{dns.rdatatype.to_text(of)}" for it, of in pairs]
        yield f"# {why}", "\t".join(["lacking", octets.hex(), *texts]), asked


def rows():
    for name, kind, octets in replies():
        yield from row_of(name, kind, octets, f"What named replied to {name} {dns.rdatatype.to_text(kind)}, by dnspython's order of names.")
    name, kind, octets = [it for it in replies() if it[0] == dns.name.from_text("b.example.com.")][0]
    for cut in (octets[:-1], octets[: len(octets) // 2], octets[:12], octets[:11], octets + b"\0"):
        yield from row_of(name, kind, cut, f"The first {len(cut)} octets of {len(octets)}." if len(cut) < len(octets) else "One octet behind the reply.")


def main(words):
    if words == ["compare"]:
        texts = [open(f"{HERE}/vectors/{it}", encoding="utf-8").read().split("\n") for it in ("stdin", "stdout")]
        behind = len(texts[1]) - len(texts[0])
        known = dict(zip(texts[0], texts[1][behind:]))
        wrong = [question for _, question, answer in rows() if known.get(question) != answer]
        print(f"{len(list(rows()))} rows, {len(wrong)} differ")
        return 1 if wrong else 0
    for row in rows():
        print("\n".join(row))
    return 0


if __name__ == "__main__":
    sys.exit(main(sys.argv[1:]))
