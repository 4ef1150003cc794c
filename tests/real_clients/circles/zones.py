"""Random zones: empty names, cuts with and without DS, cuts below cuts, glue above and below, wildcards, names that differ in case,
in a first octet below and above `*`, and by a label's end."""
import random

import dns.name
import dns.rdata
import dns.rdatatype

TTL = 300
ORIGINS = ("example.com.", "one.", "A.Test.", "sub.example.com.", ".")
LABELS = [b"a", b"A", b"b", b"B", b"aa", b"ab", b"a\0", b"a\0\0", b"\0", b"\1", b"!", b")", b"*", b"+", b"-", b"@", b"[", b"_x", b"0", b"9",
          b"Z", b"zz", b"\x7f", b"\x80", b"\xff", b"w", b"mail", b"ns", b"a.b", b"\xe9", b"x" * 25]  # fmt: skip
DIGEST = "d4b7d520e7bb5f0f67674a0cceb1e3e0614b93c4f9e99b8383f6a1e4469da50a"


class Zone:
    """A zone by its number under a seed; `records` are owner, type and data."""

    def __init__(self, seed, number):
        self.random, self.number = random.Random(f"{seed}/{number}"), number
        self.origin = dns.name.from_text(self.random.choice(ORIGINS[:-1] * 5 + ORIGINS[-1:]))
        self.records, self.kinds, self.cuts = [], {}, set()
        self.choose_proof()
        self.put(self.origin, "SOA", f"ns.example. admin.example. {self.random.randrange(1, 2**31)} 7200 900 1209600 {TTL}")
        self.put(self.origin, "NS", "ns.example.")
        self.fill()

    def choose_proof(self):
        pick, self.salt, self.iterations, self.opt_out = self.random, b"", 0, False
        self.by_hash = pick.random() < 0.55
        self.proof = "nsec"
        if self.by_hash:
            self.salt = pick.randbytes(pick.choice((0, 0, 1, 4, 8, 20)))
            self.iterations = pick.choice((0, 0, 0, 1, 2, 5, 12))
            self.opt_out = pick.random() < 0.5
            self.proof = f"nsec3 {self.iterations} {self.salt.hex() or '-'}" + " opt-out" * self.opt_out

    def add(self, owner, kind, data):
        """Adds a record, unless it is there already."""
        if (owner, kind, data) not in self.records:
            self.records.append((owner, int(kind), data))
            self.kinds.setdefault(owner, set()).add(dns.rdatatype.to_text(kind))

    def put(self, owner, kind, text):
        """Adds the record of a text, unless its owner is an alias."""
        if "CNAME" in self.kinds.get(owner, ()):
            return
        kind = dns.rdatatype.from_text(kind)
        self.add(owner, kind, dns.rdata.from_text("IN", kind, text))

    def name(self):
        """A name below the origin, often one that shares a suffix with another."""
        pick = self.random
        below = pick.choice([it for it in self.kinds]) if pick.random() < 0.5 else self.origin
        for _ in range(pick.choice((1, 1, 1, 1, 2, 2, 3, 4))):
            if len(below.labels) < 8:
                below = dns.name.Name([pick.choice(LABELS), *below.labels])
        return below

    def fill(self):
        pick = self.random
        for _ in range(pick.choice((0, 1, 2, 3, 5, 8, 13, 21, 30))):
            name = self.name()
            if pick.random() < 0.3:
                name = self.respelled(name)
            self.fill_name(name, pick.random())

    def respelled(self, name):
        """The same name in other letters."""
        change = self.random.choice((bytes.upper, bytes.lower, bytes.swapcase))
        return dns.name.Name([change(it) for it in name.labels])

    def fill_name(self, name, dice):
        kinds, is_wild = self.kinds.get(name, set()), b"*" in name.labels[0:1]
        if dice < 0.25 and not is_wild and name != self.origin and "CNAME" not in kinds:
            self.cut(name)
        elif dice < 0.35 and not kinds:
            self.put(name, "CNAME", "a.example.com.")
        else:
            for _ in range(self.random.choice((1, 1, 1, 2, 3))):
                self.put(name, *self.data())

    def data(self):
        pick = self.random
        return pick.choice((
            ("A", f"192.0.2.{pick.randrange(256)}"), ("A", f"192.0.2.{pick.randrange(256)}"), ("AAAA", f"2001:db8::{pick.randrange(99)}"),
            ("MX", f"{pick.randrange(9)} Mail.Example."), ("TXT", f'"{pick.randrange(9)}"'), ("SRV", "0 0 53 ns.example."),
            ("CAA", '0 issue "ca.example"'), ("TYPE65280", r"\# 2 0102"), ("TYPE1234", r"\# 1 ff"), ("TYPE300", r"\# 1 01"),
        ))  # fmt: skip

    def cut(self, name):
        """A delegation: its servers, perhaps DS, other types at its own name, and glue, some of it below empty names."""
        pick = self.random
        self.cuts.add(name)
        server = dns.name.Name([b"ns", *name.labels])
        self.put(name, "NS", server.to_text())
        if pick.random() < 0.4:
            self.put(name, "DS", f"{pick.randrange(65536)} 13 2 {DIGEST}")
        if pick.random() < 0.2:
            self.put(name, "A", "192.0.2.99")
        if pick.random() < 0.6:
            self.put(self.respelled(server), "A", "192.0.2.53")
        if pick.random() < 0.3:
            self.put(dns.name.Name([b"a", b"b", *name.labels]), "AAAA", "2001:db8::53")

    # ---- what RFC 5155 leaves open

    def is_below_cut(self, name):
        return any(name != it and name.is_subdomain(it) for it in self.cuts)

    def insecure_delegations(self):
        """Those without DS, which may be left out with opt-out (RFC 5155, section 6)."""
        return {it for it in self.cuts if "DS" not in self.kinds[it] and not self.is_below_cut(it)}

    def names_above_insecure_alone(self):
        """The empty names that are above nothing but delegations without DS, which may be left out (RFC 5155, section 7.1)."""
        found, kept = set(), set()
        for name, kinds in self.kinds.items():
            if self.is_below_cut(name):
                continue
            is_insecure = name in self.cuts and "DS" not in kinds
            while name != self.origin:
                name = name.parent()
                (found if is_insecure else kept).add(name)
        return {it for it in found - kept if it not in self.kinds}
