#!/usr/bin/env python3
"""Zone files and framed question streams for the measurements of this folder.

    generate.py zone NAMES                 a zone file with NAMES hosts under example.com.
    generate.py sorted NAMES               the same, in canonical order
    generate.py cuts NAMES                 one with as many cuts too, and a wildcard
    generate.py sets NAMES                 one with hosts of 28 addresses too, and a cut of name servers that share nearly all
    generate.py questions KIND NAMES COUNT a stream of COUNT questions for the zone of that kind
    generate.py all FOLDER [COUNT]         all of them, as files in FOLDER

KIND is one of hit, opt, miss, mixed, deep, short, empty; or, for the zone with cuts, of cuts.hit, cuts.miss,
cuts.delegation, cuts.referral, cuts.wildcard, cuts.deep, cuts.empty; or, for the zone with sets, of
sets.answers28, sets.adversarial, sets.empty; or sorted.empty. Everything is written to standard output, but for `all`. The same arguments give the same octets: each file has a
generator of random numbers of its own, seeded by its arguments.
"""

import os
import random
import struct
import sys

ORIGIN = "example.com."
SIZES = (2, 1000, 100000)
KINDS = ("empty", "hit", "opt", "miss", "mixed", "deep", "short")
# Those of the zone that has cuts and a wildcard beside its hosts.
CUTS = "cuts."
CUT_KINDS = tuple(CUTS + kind for kind in ("empty", "hit", "miss", "delegation", "referral", "wildcard", "deep"))
WILD = f"w.{ORIGIN}"
# Those of the zone that has large sets beside its hosts.
SETS = "sets."
SET_KINDS = tuple(SETS + kind for kind in ("empty", "answers28", "adversarial"))
# Of the zone whose hosts stand in canonical order only the loading is counted.
SORTED = "sorted."
ALL_KINDS = KINDS + CUT_KINDS + SET_KINDS + (SORTED + "empty",)

TYPE_A, TYPE_NS, TYPE_CNAME, TYPE_SOA, TYPE_AAAA, TYPE_OPT = 1, 2, 5, 6, 28, 41
CLASS_IN = 1

# A question of so many one-octet labels under the origin has 253 of the 255 octets of a name.
DEEP_LABELS = 120
LETTERS = "abcdefghijklmnopqrstuvwxyz"

# So many addresses, with pointers for their owners, fill most of a datagram of 512 octets.
ADDRESSES = 28
ALIKE = f"alike.{ORIGIN}"
# Name servers whose names differ in one octet, in the last of their labels: none has a suffix of another's, which is seen late.
ALIKE_SERVERS = ["a." * DEEP_LABELS + last + "." for last in LETTERS + "0123456789"]


def host(number):
    """The name of a host of the zone."""
    return f"h{number:05}.{ORIGIN}"


def zone(names):
    """The lines of a zone of so many hosts: the origin's SOA and NS, then one A for each host, shuffled."""
    lines = [
        f"{ORIGIN} 3600 IN SOA ns.example.org. admin.{ORIGIN} 1 3600 1800 604800 86400",
        f"{ORIGIN} 3600 IN NS ns.example.org.",
    ]
    numbers = list(range(names))
    random.Random(f"zone {names}").shuffle(numbers)
    for number in numbers:
        address = f"10.{number >> 16}.{number >> 8 & 255}.{number & 255}"
        lines.append(f"{host(number)} 3600 IN A {address}")
    return lines


def sorted_zone(names):
    """The lines of the same zone, its hosts in canonical order."""
    lines = zone(names)
    return lines[:2] + sorted(lines[2:])


def cut(number):
    """The name of a cut of the zone."""
    return f"d{number:05}.{ORIGIN}"


def cuts_zone(names):
    """The lines of a zone of so many hosts and so many cuts, shuffled, and of a wildcard. The name server of every second
    cut stands below it, with its address (RFC 1034 section 4.2.1); those of the others are elsewhere."""
    lines = zone(names)
    numbers = list(range(names))
    random.Random(f"cuts {names}").shuffle(numbers)
    for number in numbers:
        if number % 2:
            lines.append(f"{cut(number)} 3600 IN NS ns.example.org.")
        else:
            lines.append(f"{cut(number)} 3600 IN NS ns.{cut(number)}")
            lines.append(f"ns.{cut(number)} 3600 IN A 172.{16 | number >> 16}.{number >> 8 & 255}.{number & 255}")
    lines.append(f"*.{WILD} 3600 IN A 192.0.2.1")
    return lines


def many(number):
    """The name of a host of ADDRESSES addresses."""
    return f"m{number:05}.{ORIGIN}"


def sets_zone(names):
    """The lines of a zone of so many hosts, one more of ADDRESSES addresses for each hundred of them, shuffled, and a cut whose
    name servers are ALIKE_SERVERS."""
    lines = zone(names)
    numbers = list(range(names // 100 + 1))
    random.Random(f"sets {names}").shuffle(numbers)
    for number in numbers:
        lines += [f"{many(number)} 3600 IN A 172.{16 | number >> 8}.{number & 255}.{last}" for last in range(ADDRESSES)]
    return lines + [f"{ALIKE} 3600 IN NS {server}" for server in ALIKE_SERVERS]


def zone_prefix(kind):
    """What the kinds of questions for the same zone begin with."""
    return next((prefix for prefix in (CUTS, SETS, SORTED) if kind.startswith(prefix)), "")


def empty_of(kind):
    """The kind without questions for the same zone."""
    return zone_prefix(kind) + "empty"


def zone_of(names, kind):
    """The file of the zone that a kind of questions is for."""
    return f"{names}.{zone_prefix(kind)}zone"


def wire_name(name):
    """The octets of a fully qualified name, uncompressed."""
    labels = name[:-1].split(".") if name != "." else []
    return b"".join(bytes([len(label)]) + label.encode("ascii") for label in labels) + b"\0"


def question(number, name, record_type, flags=0):
    """A query for one name and type."""
    header = struct.pack("!6H", number & 0xFFFF, flags, 1, 0, 0, 0)
    return header + wire_name(name) + struct.pack("!2H", record_type, CLASS_IN)


def with_options(message, payload=1232):
    """A query without further records, with an OPT record behind its question (RFC 6891 section 6.1.2)."""
    options = struct.pack("!BHHIH", 0, TYPE_OPT, payload, 0, 0)
    return message[:10] + struct.pack("!H", 1) + message[12:] + options


def missing(dice, names):
    """A name of the zone that does not exist, as long as a host's, and spread among the hosts."""
    number = dice.randrange(names)
    return f"h{number // 10:04}{dice.choice(LETTERS)}.{ORIGIN}"


def deep(dice, below=ORIGIN):
    """A name of DEEP_LABELS one-octet labels under the origin, or under another name."""
    return "".join(dice.choice(LETTERS) + "." for _ in range(DEEP_LABELS)) + below


def below_cut(dice, names, odd):
    """A name one label below a cut of an even or an odd number."""
    return f"www.{cut(2 * dice.randrange(names // 2) + odd)}"


# The name that is asked for in the zone with cuts, by the kind.
CUT_NAMES = {
    "hit": lambda dice, names: host(dice.randrange(names)),
    "miss": lambda dice, names: missing(dice, names),
    "delegation": lambda dice, names: below_cut(dice, names, 1),
    "referral": lambda dice, names: below_cut(dice, names, 0),
    "wildcard": lambda dice, names: f"h{dice.randrange(names):05}.{WILD}",
    "deep": lambda dice, names: deep(dice, WILD),
}


# The same for the zone with sets.
SET_NAMES = {
    "answers28": lambda dice, names: many(dice.randrange(names // 100 + 1)),
    "adversarial": lambda dice, names: f"{dice.choice(LETTERS)}{dice.randrange(1000):03}.{ALIKE}",
}
NAMES_OF = {prefix + kind: name_of for prefix, names in ((CUTS, CUT_NAMES), (SETS, SET_NAMES)) for kind, name_of in names.items()}


def mixed(dice, names):
    """A name and a type: 50 in 100 a host's A, 25 a missing name, 10 a type that a host lacks, 5 each the
    origin's SOA, its NS, and a name outside the zone. Half of the names have letters of random case."""
    choice = dice.randrange(100)
    if choice < 50:
        name, record_type = host(dice.randrange(names)), TYPE_A
    elif choice < 75:
        name, record_type = missing(dice, names), TYPE_A
    elif choice < 85:
        name, record_type = host(dice.randrange(names)), TYPE_AAAA
    elif choice < 90:
        name, record_type = ORIGIN, TYPE_SOA
    elif choice < 95:
        name, record_type = ORIGIN, TYPE_NS
    else:
        name, record_type = f"h{dice.randrange(names):05}.example.org.", TYPE_A
    if dice.randrange(2) == 1:
        name = "".join(dice.choice((letter.lower(), letter.upper())) for letter in name)
    return name, record_type


def questions(kind, names, count):
    """So many questions of a kind for the zone of so many hosts; none for the kind empty."""
    dice = random.Random(f"questions {kind} {names}")
    if kind == empty_of(kind):
        return []
    if kind in NAMES_OF:
        return [question(n, NAMES_OF[kind](dice, names), TYPE_A) for n in range(count)]
    if kind == "hit":
        return [question(n, host(dice.randrange(names)), TYPE_A) for n in range(count)]
    if kind == "opt":
        return [with_options(question(n, host(dice.randrange(names)), TYPE_A)) for n in range(count)]
    if kind == "short":
        # One octet is missing of the header.
        return [question(n, host(dice.randrange(names)), TYPE_A)[:11] for n in range(count)]
    if kind == "miss":
        return [question(n, missing(dice, names), TYPE_A) for n in range(count)]
    if kind == "deep":
        return [question(n, deep(dice), TYPE_A) for n in range(count)]
    if kind == "mixed":
        # RD is set in every second question.
        return [question(n, *mixed(dice, names), flags=0x0100 * (n & 1)) for n in range(count)]
    raise ValueError(f"unknown kind of questions: {kind}")


def framed(messages):
    """Messages as on a TCP stream: each behind its length in two octets."""
    return b"".join(struct.pack("!H", len(message)) + message for message in messages)


def zone_text(names, lines_of=zone):
    """A zone file."""
    return "".join(line + "\n" for line in lines_of(names)).encode("ascii")


def stream(kind, names, count):
    """A question stream."""
    return framed(questions(kind, names, count))


def write_all(folder, count, sizes=SIZES):
    """Writes each zone and each stream into a folder, of these sizes."""
    os.makedirs(folder, exist_ok=True)
    for names in sizes:
        for prefix, lines_of in (("", zone), (CUTS, cuts_zone), (SETS, sets_zone), (SORTED, sorted_zone)):
            with open(os.path.join(folder, zone_of(names, prefix + "empty")), "wb") as out:
                out.write(zone_text(names, lines_of))
        for kind in ALL_KINDS:
            with open(os.path.join(folder, f"{names}.{kind}"), "wb") as out:
                out.write(stream(kind, names, count))


def main(words):
    try:
        if len(words) == 2 and words[0] == "zone":
            sys.stdout.buffer.write(zone_text(int(words[1])))
        elif len(words) == 2 and words[0] == "sorted":
            sys.stdout.buffer.write(zone_text(int(words[1]), sorted_zone))
        elif len(words) == 2 and words[0] == "cuts":
            sys.stdout.buffer.write(zone_text(int(words[1]), cuts_zone))
        elif len(words) == 2 and words[0] == "sets":
            sys.stdout.buffer.write(zone_text(int(words[1]), sets_zone))
        elif len(words) == 4 and words[0] == "questions":
            sys.stdout.buffer.write(stream(words[1], int(words[2]), int(words[3])))
        elif len(words) in (2, 3) and words[0] == "all":
            write_all(words[1], int(words[2]) if len(words) == 3 else 2000)
        else:
            sys.exit(__doc__)
    except ValueError as error:
        sys.exit(str(error))


if __name__ == "__main__":
    main(sys.argv[1:])
