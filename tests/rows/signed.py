#!/usr/bin/python3
"""Rows of zones that dnssec-signzone signed: what they answer, and which NSEC or NSEC3 sets deny beside it.

    tests/rows/signed.py            prints each row: a comment, the question and the answer
    tests/rows/signed.py compare    compares the rows with those of `vectors`
    tests/rows/signed.py named      asks named the same, over the same zones, and counts in what its replies differ
    tests/rows/signed.py sign       signs the zones anew, into data/signed.*; the keys are new, so the rows are others then

The plain lookup says what a zone answers. What denies is said here: by dnspython's order of names (RFC 4034, section 6.1) and a
hash of names of its own (RFC 5155, section 5). `compress.py` lays the replies out. `by_rfc` says what named shows: a reply of ours
that differs has one of the kinds of `WHY`."""
import base64
import bisect
import collections
import functools
import hashlib
import itertools
import os
import socket
import subprocess
import sys
import tempfile
import time

sys.dont_write_bytecode = True
HERE = os.path.dirname(os.path.realpath(__file__))
sys.path.append(f"{HERE}/../plain_lookup")
import dns.message
import dns.name
import dns.rdata
import dns.rdatatype
import dns.zone

import compress
import lookup
import wire
from messages import ID, opt

NS, SOA, DS, RRSIG, NSEC, NSEC3, NSEC3PARAM, ANY = 2, 6, 43, 46, 47, 50, 51, 255
DO = 0x8000
START = "$TTL 3600\n@ 300 SOA ns.example.com. admin.example.com. 1 7200 900 1209600 300\n@ NS ns.example.com.\n"
SAFE = "safe NS ns.safe\nsafe DS 60485 13 2 d4b7d520e7bb5f0f67674a0cceb1e3e0614b93c4f9e99b8383f6a1e4469da50a\nns.safe A 192.0.2.8\n"
COMMON = 'a A 192.0.2.1\na TXT first\n*.w TXT star\nx.w A 192.0.2.6\nd.e.f A 192.0.2.4\n' + SAFE + "sub NS ns.sub\nns.sub A 192.0.2.7\n"
ALIASES = "zz CNAME a\nzw CNAME q.w\nzn CNAME nowhere\n*.al CNAME a\n"
# The text of each zone, and how dnssec-signzone is to hash names.
ZONES = {
    "example.com": (START + COMMON + ALIASES + r"""@ MX 10 mail
ns A 192.0.2.53
mail A 192.0.2.25
c A 192.0.2.3
C2.c AAAA 2001:db8::2
M.N.o MX 10 mail
z\.q TXT odd
""", []),
    "one.example": (START, []),
    "hash.example": (START + COMMON + ALIASES, ["-3", "aabbccdd", "-H", "5"]),
    "optout.example": (START + COMMON, ["-3", "-", "-H", "0", "-A"]),
}  # fmt: skip
BASES = "A NS SOA MX TXT AAAA CNAME".split()


# ---- the zones

def file_of(origin):
    return f"{HERE}/vectors/data/signed.{origin}"


def sign():
    """Has each zone signed by one key, and writes its records, each set followed by its signatures."""
    for origin, (text, flags) in ZONES.items():
        with tempfile.TemporaryDirectory() as folder:
            run = functools.partial(subprocess.run, cwd=folder, check=True, capture_output=True)
            with open(f"{folder}/zone", "w", encoding="ascii") as file:
                file.write(text)
            run(["dnssec-keygen", "-a", "ED25519", origin])
            run(["dnssec-signzone", "-S", "-z", "-P", "-e", "20400101000000", *flags, "-o", origin, "-f", "signed", "zone"])
            zone = dns.zone.from_file(f"{folder}/signed", origin, relativize=False)
        with open(file_of(origin), "w", encoding="ascii") as file:
            file.writelines(lines_of(zone))


def lines_of(zone):
    for owner, node in sorted(zone.items()):
        for rdataset in sorted(node, key=lambda it: (it.covers or it.rdtype, it.rdtype == RRSIG)):
            for data in rdataset:
                kind, octets = dns.rdatatype.to_text(rdataset.rdtype), data.to_wire()
                text = data.to_text().replace('"', "") if kind in BASES else rf"\# {len(octets)} {octets.hex()}"
                yield f"{owner} {rdataset.ttl} IN {kind} {text}\n"


class Zone:
    """The records of a file, without signatures; those of each owner and type beside."""

    def __init__(self, origin, proof=None):
        self.text, self.origin = origin, labels_of(dns.name.from_text(origin))
        self.records, self.signatures = [], collections.defaultdict(list)
        with open(file_of(origin), encoding="ascii") as file:
            for line in file:
                self.put(*line.rstrip("\n").split(" ", 4))
        parameters = [it.data for it in self.records if it.type == NSEC3PARAM]
        if parameters:
            self.iterations, self.salt = int.from_bytes(parameters[0][2:4], "big"), parameters[0][5:]
            opts_out = any(it.data[1] & 1 for it in self.records if it.type == NSEC3)
            self.proof = f"nsec3 {self.iterations} {self.salt.hex() or '-'}" + (" opt-out" if opts_out else "")
        else:
            self.proof = "nsec"
        self.proof = proof or self.proof
        self.by_hash, self.denies = bool(parameters), self.proof != "none"

    def put(self, owner, ttl, _, word, text):
        kind, owner = dns.rdatatype.from_text(word), labels_of(dns.name.from_text(owner))
        octets = dns.rdata.from_text("IN", kind, text).to_wire()
        record = lookup.Record(owner, int(kind), int(ttl), wire.data_at(octets, 0, len(octets), kind))
        if kind == RRSIG:
            self.signatures[lookup.lower(owner), int.from_bytes(octets[:2], "big")].append(record)
        else:
            self.records.append(record)

    def set(self, name, kind):
        return lookup.set_of(self.records, name, kind)


def labels_of(name):
    return name.labels[:-1]


def name_of(labels):
    return dns.name.Name([*labels, b""])


# ---- which sets deny (RFC 4035, section 3.1.3; RFC 5155, section 7.2)

def preceding(zone, kind, labels):
    """The owner of a type that a name is, or the last before it in the order, or else the last of all."""
    owners = sorted({name_of(it.owner) for it in zone.records if it.type == kind})
    return [labels_of(owners[bisect.bisect_right(owners, name_of(labels)) - 1])] if owners else []


def is_existing(zone, name):
    return lookup.exists(zone.records, name) and lookup.is_at_or_below(name, zone.origin)


def encloser(zone, name):
    return next((it for it in lookup.ancestors(name) if is_existing(zone, it)), None)


def hashed(zone, name):
    digest = wire.name_octets(lookup.lower(name))
    for _ in range(zone.iterations + 1):
        digest = hashlib.sha1(digest + zone.salt).digest()
    return (base64.b32hexencode(digest), *zone.origin)


def by_names(zone, name):
    above = encloser(zone, name)
    star = [] if above is None else preceding(zone, NSEC, lookup.star_under(above))
    return preceding(zone, NSEC, name) + star


def by_hashes(zone, name, kind, is_wild):
    if zone.set(name, kind) and not is_wild:
        return []
    if zone.set(hashed(zone, name), NSEC3):
        return [hashed(zone, name)]
    above = encloser(zone, name)
    if above is None:
        return []
    closer = name[len(name) - len(above) - 1 :]
    return [it for asked in (above, closer, lookup.star_under(above)) for it in preceding(zone, NSEC3, hashed(zone, asked))]


def denial(zone, name, kind, is_wild):
    """The sets, each owner's once."""
    if not zone.denies:
        return []
    owners = by_hashes(zone, name, kind, is_wild) if zone.by_hash else by_names(zone, name)
    once = list({lookup.lower(it): it for it in owners}.values())
    return [record for owner in once for record in zone.set(owner, NSEC3 if zone.by_hash else NSEC)]


# ---- replies

def signatures_of(zone, record):
    """Those of the record's set, or of the wildcard whose set is shown under its owner."""
    owners = [record.owner, *map(lookup.star_under, lookup.ancestors(record.owner))]
    own = next((it for it in owners if zone.set(it, record.type)), None)
    found = zone.signatures[lookup.lower(own), record.type]
    return found if own is record.owner else [it._replace(owner=record.owner) for it in found]


def shown(zone, records, dnssec):
    """The sets of records, each followed by its signatures."""
    if not dnssec:
        return records
    sets = [list(it) for _, it in itertools.groupby(records, lambda it: (lookup.lower(it.owner), it.type))]
    return [record for records in sets for record in [*records, *signatures_of(zone, records[0])]]


def is_expanded(records):
    """A signature counts fewer labels than its owner has, a first star aside (RFC 4034, section 3.1.3)."""
    return any(it.type == RRSIG and it.data[3] < len(it.owner) - (it.owner[:1] == (b"*",)) for it in records)


def sections(zone, name, kind, dnssec):
    """The response code and the three sections."""
    found = lookup.lookup(zone.records, zone.origin, name, kind)
    at_origin = lambda kind: shown(zone, zone.set(zone.origin, kind), dnssec)
    if not isinstance(found, lookup.Found):
        code = lookup.NX_DOMAIN if found == lookup.NO_SUCH_NAME else lookup.NO_ERROR
        return code, [], shown(zone, denial(zone, name, kind, False) if dnssec else [], dnssec) + at_origin(SOA), []
    answers, additionals = shown(zone, found.answers, dnssec), shown(zone, found.additionals, dnssec)
    is_wild, beside = is_expanded(answers), []
    if kind == SOA:
        beside = at_origin(NS)
    elif dnssec and (is_wild or zone.by_hash):
        beside = shown(zone, denial(zone, name, kind, is_wild), dnssec)
    if found.answers[0].type == NS and kind not in (NS, ANY):
        answers, beside = [], answers + beside
    return lookup.NO_ERROR, answers, beside, additionals


def reply(zone, question, payload, flags, limit):
    code, *lists = sections(zone, *question[:2], flags is DO)
    lists = [list(map(wire.record_octets, it)) for it in lists]
    if flags is not None:
        lists[2].append(opt(max(payload, 512), flags))
    return compress.laid_out(ID, 0x8400 | code, 1, wire.question_octets([question]), lists, limit)


def request(question, payload, flags):
    head = wire.request_octets(lookup.Request(ID, 0, [question]))
    return head if flags is None else head[:11] + b"\1" + head[12:] + opt(payload, flags)


# ---- questions

ERRORS = "0 A0 b aa.a B.C c1.c c3.c d e.e.f g MAIL0 nr safe0 sub0 v z zzz a.a.a.a ZZZZ.zzz".split() + [r"z\001q", r"z\.r", r"z\.q.a", r"\000.a"]
STARS = "y.w/TXT YY.w/TXT a.b.w/TXT x.w/TXT *.w/TXT q.al/A q.al/TXT q.al/CNAME".split()
UNMATCHED = "y.w/A w/A w/TXT x.w/AAAA *.w/A a.x.w/A".split()
LACKING = "a/AAAA @/AAAA @/A e.f/A f/TXT d.e.f/MX zz/TXT ns/MX c2.C/A n.O/A m.n.o/TXT".split() + [r"z\.q/A"]
CUTS = "sub/A sub/NS sub/DS www.sub/A ns.sub/A safe/A safe/NS safe/DS www.safe/A a.b.safe/DS ns.safe/AAAA".split()
ALIASED = "zz/A zz/AAAA zz/CNAME zw/TXT zw/A zn/A q.al/AAAA".split()
PRESENT = "a/A A/TXT @/SOA @/NS @/MX @/DNSKEY a/NSEC @/NSEC d.e.f/A".split()
ALL = "a/ANY @/ANY w/ANY b/ANY sub/ANY x.w/ANY y.w/ANY".split()


def question_of(zone, text):
    name, _, kind = text.partition("/")
    below = dns.name.from_text(zone.text)
    labels = labels_of(below if name == "@" else dns.name.from_text(name, below))
    return labels, int(dns.rdatatype.from_text(kind or "A")), 1


def subjects():
    """A comment, the zone, and the questions."""
    for origin in ("example.com", "hash.example", "optout.example"):
        zone = Zone(origin)
        yield "name errors", zone, ERRORS
        yield "missing types", zone, LACKING
        yield "wildcards", zone, STARS
        yield "wildcards without the type, and names at and below them", zone, UNMATCHED
        yield "delegations with and without DS", zone, CUTS
        yield "aliases", zone, ALIASED
        yield "answers", zone, PRESENT
        yield "all sets of a name", zone, ALL
    hashes = Zone("hash.example")
    owners = [it.owner[0].decode() for it in hashes.records if it.type == NSEC3][:2]
    yield "owners of NSEC3 sets", hashes, [f"{owners[0]}/NSEC3", f"{owners[1]}/A", f"a.{owners[0]}/A", "@/NSEC3PARAM"]
    one = ["a/A", "b.c/A", r"\000/A", "@/A", "@/SOA", "@/NSEC", "*/A", "@/ANY", "A.B.C.D.E/MX"]
    yield "a zone of its origin alone", Zone("one.example"), one
    for proof in ("none", "nsec3 5 aabbccdd"):
        yield f"a zone with NSEC sets whose kind is {proof}", Other("example.com", proof), ["b/A", "a/AAAA", "y.w/TXT", "@/SOA", "sub/A"]
    yield "a zone with NSEC3 sets whose kind is nsec", Other("hash.example", "nsec"), ["b/A", "a/AAAA", "y.w/TXT", "sub/A"]


class Other(Zone):
    """A zone that is said to prove otherwise than its sets do: by sets that it doesn't have it proves nothing."""

    def __init__(self, origin, proof):
        super().__init__(origin, proof)
        self.denies, self.by_hash = False, proof.startswith("nsec3")


def rows():
    """A comment, the question and the answer of each row."""
    for why, zone, texts in subjects():
        asked = [question_of(zone, it) for it in texts]
        ways = [("with DO", "tcp", 4096, DO)]
        if why in ("name errors", "wildcards", "delegations with and without DS", "answers", "all sets of a name"):
            ways += [("without DO", "tcp", 4096, 0)]
        if why == "name errors":
            ways += [("with DO, in 1,232 octets", "udp", 1232, DO), ("with DO, in 512 octets", "udp", 512, DO), ("without EDNS", "udp", 512, None)]
        for how, protocol, payload, flags in ways:
            some = asked if protocol == "tcp" else asked[:4]
            limit = 65535 if protocol == "tcp" else payload
            replies = "\t".join(reply(zone, it, payload, flags, limit).hex() for it in some)
            octets = (request(it, payload, flags).hex() for it in some)
            row = "\t".join(["signed", f"{zone.text}.", f"signed.{zone.text}", zone.proof, protocol, *octets])
            yield f"# {zone.text}, {zone.proof}: {why}, {how}.", row, replies


# ---- named

# In what a reply of ours shows other sets than named's, which shows those of RFC 4035, section 3.1.3, and RFC 5155, section 7.2.
WHY = {
    "referral": "named denies DS at a delegation without; ours shows no NSEC there, and NSEC3 sets for the name that was asked",
    "missing type": "beside the name's own set, ours shows the one for the wildcard at its closest encloser",
    "wildcard": "named shows what covers the name alone; ours the set for the wildcard too, and with NSEC3 the closest encloser's",
    "wildcard without the type": "a name error here, with the sets of one",
    "wildcard beside an existing name": "it answers for names that exist, and past such names",
    "alias": "named denies what its target lacks; ours shows the sets for the name that was asked",
    "answer by hash": "the set of a name that doesn't own the type: of an alias, or of all types",
    "hashed owner": "the owner of an NSEC3 set exists here",
    "opt-out": "an empty name above delegations that are left out is the closest encloser here, though it has no set",
}  # fmt: skip
CONFIG = """options {{ directory "{folder}"; listen-on port {port} {{ 127.0.0.1; }}; listen-on-v6 {{ none; }}; recursion no;
dnssec-validation no; pid-file none; session-keyfile none; minimal-responses yes; }};
controls {{ }};
"""


class ByRfc:
    """The response code and the owners of the sets that deny, as RFC 4035 and RFC 5155 have them; and why ours may show others."""

    def __init__(self, zone):
        self.zone, self.plain = zone, [it for it in zone.records if it.type != NSEC3]

    def exists(self, name):
        return lookup.exists(self.plain, name) and lookup.is_at_or_below(name, self.zone.origin)

    def is_provable(self, name):
        return bool(self.zone.set(hashed(self.zone, name), NSEC3)) if self.zone.by_hash else self.exists(name)

    def for_name(self, name):
        """What covers the name or is its own: with NSEC3 the closest encloser's set, and the one for the next closer name."""
        if not self.zone.by_hash:
            return preceding(self.zone, NSEC, name)
        if self.zone.set(hashed(self.zone, name), NSEC3):
            return [hashed(self.zone, name)]
        above = next(it for it in lookup.ancestors(name) if self.is_provable(it))
        return [hashed(self.zone, above), *self.closer(name, above)]

    def closer(self, name, above):
        return preceding(self.zone, NSEC3, hashed(self.zone, name[len(name) - len(above) - 1 :]))

    def for_star(self, star):
        return preceding(self.zone, NSEC3, hashed(self.zone, star)) if self.zone.by_hash else preceding(self.zone, NSEC, star)

    def shown(self, name, kind):
        """Of each alias in turn."""
        is_proper = lambda it: len(it) > len(self.zone.origin) and lookup.is_at_or_below(it, self.zone.origin)
        cuts = [it for it in (lookup.ancestors(name) if kind == DS else lookup.suffixes(name)) if is_proper(it) and self.zone.set(it, NS)]
        if cuts:
            return 0, [] if self.zone.set(cuts[-1], DS) else self.for_name(cuts[-1]), "referral"
        if self.exists(name):
            alias = lookup.set_of(self.plain, name, lookup.CNAME)
            if kind == ANY and lookup.all_sets(self.plain, name) or lookup.set_of(self.plain, name, kind):
                return 0, [], None
            return self.followed(alias, kind) if alias else (0, self.for_name(name), "missing type")
        above = next(it for it in lookup.ancestors(name) if self.is_provable(it))
        star = lookup.star_under(above)
        if not self.exists(star):
            return 3, self.for_name(name) + self.for_star(star), None
        if kind == ANY or lookup.set_of(self.plain, star, kind):
            return 0, self.expanded(name, above), "wildcard"
        alias = lookup.set_of(self.plain, star, lookup.CNAME)
        if alias:
            code, owners, _ = self.followed(alias, kind)
            return code, self.expanded(name, above) + owners, "wildcard"
        return 0, self.for_name(name) + self.for_star(star), "wildcard without the type"

    def expanded(self, name, above):
        return self.closer(name, above) if self.zone.by_hash else preceding(self.zone, NSEC, name)

    def followed(self, alias, kind):
        code, owners, _ = self.shown(alias[0].data, kind)
        return code, owners, "alias"


def reason(zone, name, kind, why):
    """Why ours may differ where the RFCs' own case doesn't say it."""
    if any(it.type == NSEC3 and lookup.is_at_or_below(name, it.owner) for it in zone.records):
        return "hashed owner"
    if why in ("missing type", None) and lookup.from_wildcard(zone.records, name, kind):
        return "wildcard beside an existing name"
    above = encloser(zone, name)
    if zone.by_hash and above is not None and not zone.set(hashed(zone, above), NSEC3) and why != "referral":
        return "opt-out"
    return "answer by hash" if why is None and zone.by_hash else why


def owners_in(octets):
    message = dns.message.from_wire(octets, one_rr_per_rrset=True)
    sets = [it.name for it in message.authority if it.rdtype in (NSEC, NSEC3)]
    assert len(set(sets)) == len(sets)
    return int(message.rcode()), set(sets)


def asked_of(port, octets):
    with socket.create_connection(("127.0.0.1", port), 5) as peer:
        peer.sendall(len(octets).to_bytes(2, "big") + octets)
        with peer.makefile("rb") as said:
            return said.read(int.from_bytes(said.read(2), "big"))


def compare_with(port):
    counts, wrong, same = collections.Counter(), 0, 0
    for _, zone, texts in subjects():
        for question in [] if isinstance(zone, Other) else (question_of(zone, it) for it in texts):
            name, kind, _ = question
            theirs = owners_in(asked_of(port, request(question, 4096, DO)))
            ours = owners_in(reply(zone, question, 4096, DO, 65535))
            code, owners, why = ByRfc(zone).shown(name, kind)
            expected = code, {name_of(it) for it in owners}
            why = reason(zone, name, kind, why)
            if ours == theirs:
                same += 1
            elif why and theirs == expected:
                counts[why] += 1
            else:
                wrong += 1
                print(f"{name_of(name)} {dns.rdatatype.to_text(kind)} ({why}): ours {ours}, named's {theirs}, by the RFCs {expected}")
    for why, count in counts.most_common():
        print(f"{count:5} {why}: {WHY[why]}")
    others = sum(counts.values())
    print(f"{same + others + wrong} questions with DO: {same} replies show the same sets as named's, "
          f"{others} others by these rules, {wrong} differ otherwise")
    return 1 if wrong else 0


def named():
    with socket.socket() as probe:
        probe.bind(("127.0.0.1", 0))
        port = probe.getsockname()[1]
    with tempfile.TemporaryDirectory() as folder:
        with open(f"{folder}/named.conf", "w", encoding="ascii") as file:
            file.write(CONFIG.format(folder=folder, port=port))
            file.writelines(f'zone "{it}" {{ type primary; file "{file_of(it)}"; }};\n' for it in ZONES)
        with open(f"{folder}/log", "w", encoding="utf-8") as log:
            server = subprocess.Popen(["named", "-g", "-n", "1", "-c", f"{folder}/named.conf"], stdout=log, stderr=log)
            try:
                for _ in range(100):
                    time.sleep(0.1)
                    with open(f"{folder}/log", encoding="utf-8") as file:
                        if "all zones loaded" in file.read():
                            break
                return compare_with(port)
            finally:
                server.terminate()
                server.wait()


def compare():
    texts = [open(f"{HERE}/vectors/{it}", encoding="utf-8").read().split("\n") for it in ("stdin", "stdout")]
    known = dict(zip(texts[0], texts[1][len(texts[1]) - len(texts[0]) :]))
    made = list(rows())
    wrong = [why for why, question, answer in made if known.get(question) != answer]
    print(f"signed: {len(made)} rows, {len(wrong)} differ from those of vectors", *wrong, sep="\n")
    return 1 if wrong else 0


def main(words):
    if words:
        return {"compare": compare, "named": named, "sign": sign}[words[0]]()
    for row in rows():
        print("\n".join(row))
    return 0


if __name__ == "__main__":
    sys.exit(main(sys.argv[1:]))
