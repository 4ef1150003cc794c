"""Where other servers answer otherwise than ours on purpose (docs/DIFFERENCES.md): rules, each of which changes their reply to ours."""

import collections

UNITS = {"s": 1, "m": 60, "h": 3600, "d": 86400, "w": 604800}

Reply = collections.namedtuple("Reply", "code flags question answers authorities additionals")


def reply_of(lines):
    """A reply as `run` has it, owners in lower case. named gives addresses of all hosts before wider ones, so the order of
    the additional records is left out."""
    code, _, flags = lines[0].partition("; ")
    sections = {"question": [], "answer": [], "authority": [], "additional": []}
    for line in lines[1:]:
        section, _, record = line.partition(": ")
        owner, _, rest = record.partition(" ")
        sections[section].append(f"{owner.lower()} {rest}")
    question, answers, authorities, additionals = sections.values()
    return Reply(code, flags, question, answers, authorities, sorted(additionals))


def type_of(line):
    return line.split(" ", 4)[3]


def seconds(text):
    total, digits = 0, ""
    for sign in text.lower():
        total, digits = (total, digits + sign) if sign.isdigit() else (total + int(digits) * UNITS[sign], "")
    return total + int(digits or 0)


class Zone:
    """The lines of a zone file that have a record, as owner, time to live, class, type and data."""

    def __init__(self, origin, file):
        self.origin = origin
        with open(file, encoding="ascii") as lines:
            self.records = [line.strip().split(None, 4) for line in lines if line.strip() and not line.startswith(";")]
        self.owners = list(dict.fromkeys(record[0] for record in self.records))

    def lines(self, is_wanted):
        """The records of these owners, in lower case, and types, as dig prints them."""
        return [f"{owner.lower()} {seconds(ttl)} IN {kind} {data}" for owner, ttl, _, kind, data in self.records if is_wanted(owner.lower(), kind)]

    def is_owner(self, name):
        return name.lower() in (owner.lower() for owner in self.owners)

    def exists(self, name):
        """An owner equals the name or is below it."""
        return any(f".{owner}".lower().endswith(f".{name}".lower()) for owner in self.owners)

    def starred(self, name, kind):
        """The records of a type of the nearest wildcard above the name that owns some, as those of the name."""
        labels = name.lower().split(".")
        stars = (".".join(["*", *labels[at:]]) for at in range(1, len(labels) - 1))
        found = (self.lines(lambda owner, its: owner == star and its == kind) for star in stars)
        return [f"{name.lower()} {line.partition(' ')[2]}" for line in next(filter(None, found), [])]


def is_referral(reply):
    return not reply.answers and any(type_of(line) == "NS" for line in reply.authorities)


def aa_on_a_referral(zone, reply, name, kind):
    """The zone's reply has AA, whatever it holds (DIFFERENCES)."""
    return reply._replace(flags="qr aa") if is_referral(reply) else reply


def name_servers_of_a_cut(zone, reply, name, kind):
    """Name servers that were asked for are the answer (DIFFERENCES)."""
    return reply._replace(answers=reply.authorities, authorities=[]) if kind == "NS" and is_referral(reply) else reply


def name_servers_beside_an_answer(zone, reply, name, kind):
    """No other answer than that to a question for SOA has the zone's name servers as authority (DIFFERENCES)."""
    others = [line for line in reply.authorities if type_of(line) != "NS"]
    return reply._replace(authorities=others) if reply.answers and kind != "SOA" else reply


def name_servers_with_soa(zone, reply, name, kind):
    """An answer or a referral to a question for SOA has the zone's name servers as authority (DIFFERENCES)."""
    servers = zone.lines(lambda owner, its: owner == zone.origin and its == "NS")
    others = [line for line in servers if line not in reply.authorities]
    is_found = bool(reply.answers) or is_referral(reply)
    return reply._replace(authorities=reply.authorities + others) if kind == "SOA" and is_found else reply


def wildcard_without_the_type(zone, reply, name, kind):
    """A name that no owner equals and none lies below doesn't exist, whatever its wildcards own (DIFFERENCES)."""
    is_none = reply.code == "NOERROR" and not reply.answers and "aa" in reply.flags and not zone.exists(name)
    is_none = is_none and any(type_of(line) == "SOA" for line in reply.authorities)
    return reply._replace(code="NXDOMAIN") if is_none else reply


def star_past_a_name_that_exists(zone, reply, name, kind):
    """A wildcard answers for a name that exists without the type too, and below it (DIFFERENCES)."""
    answers = zone.starred(name, kind)
    return reply._replace(code="NOERROR", answers=answers, authorities=[]) if answers and not reply.answers and not is_referral(reply) else reply


def nothing_after_an_alias(zone, reply, name, kind):
    """A reply with answers is a success, without an SOA (DIFFERENCES)."""
    is_alias = bool(reply.answers) and kind != "CNAME" and type_of(reply.answers[-1]) == "CNAME"
    return reply._replace(code="NOERROR", authorities=[]) if is_alias else reply


def additionals_of_first_set(zone, reply, name, kind):
    """The addresses of the targets of NS, MX and SRV, wherever they are stored, where that is the reply's first set; no TLSA, and
    none for NAPTR, SVCB and HTTPS."""
    first = (reply.answers or reply.authorities)[:1]
    if not first or type_of(first[0]) not in ("NS", "MX", "SRV"):
        return reply._replace(additionals=[])
    owner = first[0].split(" ")[0]
    its = [line for line in reply.answers or reply.authorities if line.startswith(f"{owner} ") and type_of(line) == type_of(first[0])]
    targets = {line.split(" ")[-1].lower() for line in its}
    return reply._replace(additionals=sorted(zone.lines(lambda owner, its: its in ("A", "AAAA") and owner in targets)))


NAMED = [aa_on_a_referral, name_servers_of_a_cut, name_servers_with_soa, star_past_a_name_that_exists, wildcard_without_the_type,
         nothing_after_an_alias, additionals_of_first_set]
KNOT = NAMED
NSD = [name_servers_beside_an_answer, *NAMED]


def as_here(rules, zone, reply, name, kind):
    """Another server's reply as our rules have it, and the rules that change it."""
    used = []
    for rule in rules:
        changed = rule(zone, reply, name, kind)
        used += [rule] if changed != reply else []
        reply = changed
    return reply, used


def print_counts(counts):
    for rule, count in counts.most_common():
        print(f"{count:5} {rule.__name__.replace('_', ' ')}: {' '.join(rule.__doc__.split())}")
