"""What one stored zone answers to one question, written from the rules, to be read aloud beside them.

A zone is a plain list of records in the order in which they were stored. Nothing is indexed and nothing is fast: each rule is
one function that looks at all records. A name is a tuple of labels, the leftmost first, without the root's empty label."""

from functools import lru_cache
from typing import NamedTuple

A, NS, CNAME, SOA, MX, AAAA, SRV, DS, AXFR, ANY, ANAME = 1, 2, 5, 6, 15, 28, 33, 43, 252, 255, 65305
NO_ERROR, FORM_ERR, NX_DOMAIN, NOT_IMP, REFUSED = 0, 1, 3, 4, 5
QR, AA, RD, CD, OP_CODE = 0x8000, 0x0400, 0x0100, 0x0010, 0x7800
LONGEST_CHAIN = 8


class Record(NamedTuple):
    owner: tuple
    type: int
    ttl: int
    data: object  # a name (CNAME, NS, ANAME), numbers and names in a tuple (MX, SOA, SRV), or octets


class Request(NamedTuple):
    id: int
    flags: int
    questions: list  # of (name, type, class)


class Reply(NamedTuple):
    id: int
    flags: int
    questions: list
    answers: list
    authorities: list
    additionals: list


class Found(NamedTuple):
    answers: list
    additionals: list


# What a lookup answers where it finds nothing.
NAME_EXISTS, NO_SUCH_NAME, NOT_OURS = "the name exists", "no such name", "not in the zone"


# Names.

@lru_cache(maxsize=None)
def lower(name):
    """Case is that of ASCII letters alone (RFC 4343, section 3)."""
    return tuple(label.lower() for label in name)


def same(name, other):
    return lower(name) == lower(other)


def is_at_or_below(name, top):
    """A name is at or below those that its own labels end with (RFC 1034, section 3.1)."""
    return len(name) >= len(top) and same(name[len(name) - len(top):], top)


def suffixes(name):
    """The name and the names above it, the longest first and the root last."""
    return [name[at:] for at in range(len(name) + 1)]


def ancestors(name):
    return suffixes(name)[1:]


def star_under(name):
    return (b"*", *name)


# Sets.

def set_of(zone, name, type):
    """The records that share an owner and a type, in order (RFC 2181, section 5)."""
    return [record for record in zone if record.type == type and same(record.owner, name)]


def lower_data(data):
    """Names in data are compared as names are (RFC 4034, section 6.2 lists the types)."""
    if isinstance(data, tuple):
        return tuple(part.lower() if isinstance(part, bytes) else lower_data(part) for part in data)
    return data


def stored(lines):
    """The zone that the lines of a zone file give: a record that comes again takes the place of the one that is there
    (RFC 2181, section 5), and of ANAME one record stays, the last."""
    zone = []
    for line in lines:
        for at, record in enumerate(zone):
            equal = record.type == line.type and same(record.owner, line.owner)
            if equal and (line.type == ANAME or lower_data(record.data) == lower_data(line.data)):
                zone[at] = line
                break
        else:
            zone.append(line)
    return zone


# The lookup.

def nearest_cut(zone, name, type):
    """The longest suffix that owns NS, if it owns no SOA: there another zone begins. DS is the parent's, so a question for it
    doesn't count the name itself (RFC 1034, section 4.3.2, step 3b; RFC 4035, section 3.1.4.1)."""
    for suffix in ancestors(name) if type == DS else suffixes(name):
        if set_of(zone, suffix, NS):
            return None if set_of(zone, suffix, SOA) else suffix
    return None


def at_owner(zone, owner, type):
    """The set of the type, else the alias (RFC 1034, section 4.3.2, step 3a), else for addresses the alias of addresses."""
    for wanted in [type, CNAME] + ([ANAME] if type in (A, AAAA) else []):
        if set_of(zone, owner, wanted):
            return set_of(zone, owner, wanted)
    return []


def renamed(records, name):
    """Records of a wildcard are given the name that was asked, here in lower case (RFC 1034, section 4.3.3)."""
    return [record._replace(owner=lower(name)) for record in records]


def from_wildcard(zone, name, type):
    """The nearest star above that has an answer (RFC 4592, section 2.1). Here no existing name stops it, neither the one that is
    asked nor one in between, unlike in section 3.3.1 there."""
    for ancestor in ancestors(name):
        if at_owner(zone, star_under(ancestor), type):
            return renamed(at_owner(zone, star_under(ancestor), type), name)
    return []


def found(zone, name, type):
    """One set, or none (RFC 1034, section 4.3.2, steps 3a to 3c)."""
    cut = nearest_cut(zone, name, type)
    if cut is not None:
        return set_of(zone, cut, NS)
    return at_owner(zone, name, type) or from_wildcard(zone, name, type)


def alias_chain(zone, name, type):
    """The sets from the first to the last alias, and what stands at its end (RFC 1034, sections 3.6.2 and 4.3.2, step 3a)."""
    first = found(zone, name, type)
    if not first:
        return []
    sets, names = [first], [name]
    while sets[-1][0].type == CNAME and type != CNAME and len(sets) < LONGEST_CHAIN:
        target = sets[-1][0].data
        if any(same(target, seen) for seen in names) or not found(zone, target, type):
            break
        names.append(target)
        sets.append(found(zone, target, type))
    return sets


def flattened(zone, name, type, aname):
    """The addresses behind an ANAME, under the asked name and living no longer than it, if the target has them."""
    addresses = found(zone, aname.data, type)
    if not addresses or addresses[0].type != type:
        return []
    return [record._replace(owner=lower(name), ttl=min(record.ttl, aname.ttl)) for record in addresses]


def target_of(record):
    """The host whose addresses go with the record (RFC 1035, section 3.3; RFC 2782)."""
    return {NS: lambda data: data, MX: lambda data: data[1], SRV: lambda data: data[3]}[record.type](record.data)


def additionals(zone, first):
    """The stored addresses, glue too, of the host that each record names, in order, of each host once (RFC 1034, section
    4.3.2, step 6)."""
    if first[0].type not in (NS, MX, SRV):
        return []
    hosts = [target_of(record) for record in first]
    return [
        address
        for at, host in enumerate(hosts)
        if not any(same(host, earlier) for earlier in hosts[:at])
        for address in set_of(zone, host, A) + set_of(zone, host, AAAA)
    ]


def all_sets(zone, name):
    """All that the name owns, by rising type (RFC 1035, section 3.2.3; RFC 8482, section 4 leaves free what is sent)."""
    types = sorted({record.type for record in zone if same(record.owner, name)})
    return [record for type in types for record in set_of(zone, name, type)]


def exists(zone, name):
    """A name exists where a record is owned by it or by a name below it (RFC 4592, section 2.2.2)."""
    return any(is_at_or_below(record.owner, name) for record in zone)


def nothing(zone, origin, name):
    """Why there is no answer (RFC 2308, section 2)."""
    if exists(zone, name):
        return NAME_EXISTS
    return NO_SUCH_NAME if is_at_or_below(name, origin) else NOT_OURS


def lookup(zone, origin, name, type):
    if type == ANY:
        sets = all_sets(zone, name)
        return Found(sets, []) if sets else nothing(zone, origin, name)
    sets = alias_chain(zone, name, type)
    if not sets:
        return nothing(zone, origin, name)
    if sets[0][0].type == ANAME and type in (A, AAAA):
        addresses = flattened(zone, name, type, sets[0][0])
        return Found(addresses, sets[0]) if addresses else Found(sets[0], [])
    return Found([record for records in sets for record in records], additionals(zone, sets[0]))


def exact_lookup(zone, origin, name, type):
    """The lookup of the first stage: the set of the type at the name, and nothing else."""
    records = set_of(zone, name, type)
    return Found(records, []) if records else nothing(zone, origin, name)


# The reply, before it is cut to a limit, for a request without EDNS.

def header(request, code, more=0):
    """Id, op code, RD and CD are copied, QR is set (RFC 1035, section 4.1.1; RFC 4035, section 3.1.6)."""
    return request.id, QR | request.flags & (OP_CODE | RD | CD) | more | code, request.questions


def error_reply(request, code):
    return Reply(*header(request, code), [], [], [])


def reply(zone, origin, request, look=lookup):
    if request.flags & QR:
        return error_reply(request, FORM_ERR)
    if request.flags & OP_CODE:
        return error_reply(request, NOT_IMP)
    if len(request.questions) != 1:
        return error_reply(request, FORM_ERR)
    name, type, _ = request.questions[0]
    if not is_at_or_below(name, origin):
        return error_reply(request, REFUSED)
    result = look(zone, origin, name, type)
    if isinstance(result, Found):
        return success(request, type, result, answers_of(look(zone, origin, origin, NS)))
    code = NX_DOMAIN if result == NO_SUCH_NAME else NO_ERROR
    return Reply(*header(request, code, AA), [], answers_of(look(zone, origin, origin, SOA)), [])


def answers_of(result):
    return result.answers if isinstance(result, Found) else []


def success(request, type, result, name_servers):
    """NS records that weren't asked for are a referral, and go to the authorities (RFC 1034, section 4.3.2, step 3b). A
    question for the zone's start is told its name servers too."""
    answers, authorities = result.answers, []
    if answers[0].type == NS and type not in (NS, ANY):
        answers, authorities = [], answers
    if type == SOA:
        authorities = authorities + name_servers
    return Reply(*header(request, NO_ERROR, AA), answers, authorities, result.additionals)
