"""What an update does to one stored zone, written from the rules, to be read aloud beside them: RFC 2136, sections 3.1 to 3.6, with
RFC 2181, section 10.1, and RFC 8945, sections 5.2 and 5.3, for who may ask and what the reply is signed with.

A zone is a dict from owner and type to a list of records. Nothing is fast: each rule is one function that looks at the records it
speaks of. A name is a tuple of labels, the leftmost first, without the root's empty label. RDATA are octets, names in them
uncompressed; a record of an update without octets has `None`."""

from typing import NamedTuple, Optional

A, NS, CNAME, SOA, PTR, MX, TXT, AAAA, SRV, TSIG, IXFR, AXFR, ANY, ANAME = 1, 2, 5, 6, 12, 15, 16, 28, 33, 250, 251, 252, 255, 65305
NSEC, NSEC3 = 47, 50
CLASS_IN, CLASS_NONE, CLASS_ANY = 1, 254, 255
NO_ERROR, FORM_ERR, SERV_FAIL, NX_DOMAIN, NOT_IMP, REFUSED, YX_DOMAIN, YX_RRSET, NX_RRSET, NOT_AUTH, NOT_ZONE = range(11)
BEHIND_GREATEST_SERIAL = 2**32


class Record(NamedTuple):
    owner: tuple
    type: int
    class_: int
    ttl: int
    data: Optional[bytes]


class Zone(NamedTuple):
    origin: tuple
    takes: Optional[bool]  # messages that change it: None never, False not now, True
    sets: dict  # of (owner in lower case, type): its records, in order


class Signed(NamedTuple):
    """What a message's TSIG names."""
    key_name: tuple
    algorithm: tuple
    mac: bytes


class Update(NamedTuple):
    id: int
    signed: Optional[Signed]
    verdict: str  # on its TSIG: "Good", "BadSignature", "UnknownKey" or "BadTime"
    prerequisites: list
    records: list


class Context(NamedTuple):
    """What the reply is signed with."""
    id: int
    now: int
    key_name: tuple
    algorithm: tuple
    request_mac: bytes
    error: int


class Answer(NamedTuple):
    code: int
    changed: bool
    zone: Zone
    context: Optional[Context]


# Names and data.

def lower(name):
    return tuple(label.lower() for label in name)


def is_at_or_below(name, top):
    return len(name) >= len(top) and lower(name[len(name) - len(top):]) == lower(top)


def key(record):
    return lower(record.owner), record.type


# Where names stand in the RDATA of a type: from this octet on, and so many octets before the end.
NAMES_IN = {NS: (0, 0), CNAME: (0, 0), PTR: (0, 0), ANAME: (0, 0), SOA: (0, 20), MX: (2, 0), SRV: (6, 0)}


def canonical(record):
    """RDATA are equal where these octets are: names in them are compared up to case (RFC 4034, section 6.2). The length of a label
    is below the octet of `A`, so lower case leaves it."""
    if record.data is None or record.type not in NAMES_IN:
        return record.data
    first, after = NAMES_IN[record.type]
    end = len(record.data) - after
    return record.data[:first] + record.data[first:end].lower() + record.data[end:]


def has_equal(records, record):
    return any(canonical(it) == canonical(record) for it in records)


def serial(soa):
    return int.from_bytes(soa.data[-20:-16], "big")


def with_serial(soa, number):
    return soa._replace(data=soa.data[:-20] + number.to_bytes(4, "big") + soa.data[-16:])


# Zones.

def zone_of(origin, records, takes=True):
    sets = {}
    for record in records:
        sets.setdefault(key(record), []).append(record)
    return Zone(origin, takes, sets)


def records_of(zone):
    """All records, by owner and type, the origin's SOA first."""
    ordered = sorted(zone.sets, key=lambda at: (at != (lower(zone.origin), SOA), at[0][::-1], at[1]))
    return [record for at in ordered for record in zone.sets[at]]


def types_at(zone, owner):
    return {type for name, type in zone.sets if name == lower(owner)}


def start_of(zone):
    """The SOA set of the origin."""
    return zone.sets.get((lower(zone.origin), SOA), [])


def is_start(zone, record):
    return lower(record.owner) == lower(zone.origin)


# Who may ask (RFC 2136, section 3.3; RFC 8945, section 5.2).

def permission_refused(zone, update):
    if zone.takes is None:
        return NOT_IMP
    if not zone.takes or update.signed is None:
        return REFUSED
    return None if update.verdict == "Good" else NOT_AUTH


TSIG_ERRORS = {"Good": 0, "BadSignature": 16, "UnknownKey": 17, "BadTime": 18}


def context_of(zone, update, now):
    """Where a signature was looked at the reply is signed, whatever its code. Errors of key and MAC are answered without a MAC, so
    none of the request is needed (RFC 8945, section 5.3.2)."""
    if not zone.takes or update.signed is None:
        return None
    key_name, algorithm, mac = update.signed
    error = TSIG_ERRORS[update.verdict]
    return Context(update.id, now, key_name, algorithm, b"" if error in (16, 17) else mac, error)


# Prerequisites (RFC 2136, sections 2.4 and 3.2).

def is_in_use(zone, record):
    """Stored sets alone count: no wildcard, no alias, no empty name above others (RFC 2136, section 2.4.4)."""
    if record.type == ANY:
        return bool(types_at(zone, record.owner))
    return key(record) in zone.sets


def prerequisite_refused(zone, record):
    """Why one is refused; those of class IN wait for the others of their set."""
    if record.ttl != 0:
        return FORM_ERR
    if not is_at_or_below(record.owner, zone.origin):
        return NOT_ZONE
    if record.class_ == CLASS_IN:
        return None
    if record.class_ not in (CLASS_ANY, CLASS_NONE) or record.data is not None:
        return FORM_ERR
    if record.class_ == CLASS_ANY and not is_in_use(zone, record):
        return NX_DOMAIN if record.type == ANY else NX_RRSET
    if record.class_ == CLASS_NONE and is_in_use(zone, record):
        return YX_DOMAIN if record.type == ANY else YX_RRSET
    return None


def prerequisites_refused(zone, prerequisites):
    for record in prerequisites:
        code = prerequisite_refused(zone, record)
        if code is not None:
            return code
    wanted = {}
    for record in prerequisites:
        if record.class_ == CLASS_IN:
            wanted.setdefault(key(record), set()).add(canonical(record))
    for at, data in wanted.items():
        if {canonical(it) for it in zone.sets.get(at, [])} != data:
            return NX_RRSET
    return None


# The prescan (RFC 2136, section 3.4.1). Data of a record that is added may not be absent.

def prescan_refused(zone, records):
    for record in records:
        if not is_at_or_below(record.owner, zone.origin):
            return NOT_ZONE
        if not is_well_formed(record):
            return FORM_ERR
    return None


def is_well_formed(record):
    transfer = record.type in (AXFR, IXFR)
    if record.class_ == CLASS_IN:
        return record.data is not None and record.type != ANY and not transfer
    if record.class_ == CLASS_ANY:
        return record.ttl == 0 and record.data is None and not transfer
    if record.class_ == CLASS_NONE:
        return record.ttl == 0 and record.type != ANY and not transfer
    return False


# The four cases (RFC 2136, section 3.4.2). Each changes `sets`, and says whether it did.

def put(sets, at, records):
    """A set without records is none."""
    if records:
        sets[at] = records
    else:
        sets.pop(at, None)


def may_stand(zone, record):
    """Beside an alias are denials of its name alone (RFC 2181, section 10.1)."""
    others = types_at(zone, record.owner) - {CNAME, NSEC, NSEC3}
    if record.type == CNAME:
        return not others
    return record.type in (NSEC, NSEC3) or CNAME not in types_at(zone, record.owner)


def add(zone, record):
    stored = zone.sets.get(key(record), [])
    if not may_stand(zone, record):
        return False
    if any(canonical(it) == canonical(record) and it.ttl == record.ttl for it in stored):
        return False
    if record.type == SOA and any(serial(it) >= serial(record) for it in stored):
        return False
    if record.type in (CNAME, ANAME, SOA):
        after = [record]
    elif has_equal(stored, record):
        after = [record if canonical(it) == canonical(record) else it for it in stored]
    else:
        after = [*stored, record]
    put(zone.sets, key(record), after)
    return True


def delete_sets(zone, record):
    """One set, or all of the owner; SOA and NS stay at the start of the zone (RFC 2136, section 3.4.2.3)."""
    types = types_at(zone, record.owner) if record.type == ANY else types_at(zone, record.owner) & {record.type}
    if is_start(zone, record):
        types -= {SOA, NS}
    for type in types:
        del zone.sets[lower(record.owner), type]
    return bool(types)


def delete_record(zone, record):
    """The record with these data, but no SOA, and no last NS (RFC 2136, section 3.4.2.7)."""
    stored = zone.sets.get(key(record), [])
    if record.type == SOA or (record.type == NS and len(stored) == 1) or not has_equal(stored, record):
        return False
    put(zone.sets, key(record), [it for it in stored if canonical(it) != canonical(record)])
    return True


def apply_one(zone, record):
    case = {CLASS_IN: add, CLASS_ANY: delete_sets, CLASS_NONE: delete_record}[record.class_]
    return case(zone, record)


def copied(zone):
    return zone._replace(sets={at: list(records) for at, records in zone.sets.items()})


def applied(zone, records):
    """The zone after all records, before its serial number rises, and whether one of them changed what those before it left."""
    after, changed = copied(zone), False
    for record in records:
        changed = apply_one(after, record) or changed
    return after, changed


def raise_serial(zone):
    """One more, and 0 after the greatest (RFC 1982, section 3.1)."""
    first, *others = start_of(zone)
    zone.sets[lower(zone.origin), SOA] = [with_serial(first, (serial(first) + 1) % BEHIND_GREATEST_SERIAL), *others]


# All together (RFC 2136, section 3): the first refusal answers, and then nothing changes.

def refused(zone, update):
    code = permission_refused(zone, update)
    if code is None:
        code = prerequisites_refused(zone, update.prerequisites)
    if code is None:
        code = prescan_refused(zone, update.records)
    if code is None and applied(zone, update.records)[1] and not start_of(zone):
        code = SERV_FAIL  # there is no serial number to raise
    return code


def answer(zone, update, now):
    context = context_of(zone, update, now)
    code = refused(zone, update)
    if code is not None:
        return Answer(code, False, zone, context)
    after, changed = applied(zone, update.records)
    if changed:
        raise_serial(after)
    return Answer(NO_ERROR, changed, after, context)


# The zone section, and who is asked (RFC 2136, sections 2.3 and 3.1).

def answer_of_chain(chain, questions, update, now):
    """The answer of the first zone of a chain, each a pair of "Primary", "Secondary" or "External" and a zone; `None` where no name
    above the question's is registered. `Answer.zone` is `None` where no zone is asked."""
    if len(questions) != 1 or questions[0][1] != SOA:
        return Answer(FORM_ERR, False, None, None)
    if not chain:
        return Answer(SERV_FAIL, False, None, None)
    kind, zone = chain[0]
    if kind != "Primary":
        return Answer(NOT_IMP if kind == "Secondary" else NOT_AUTH, False, None, None)
    return answer(zone, update, now)
