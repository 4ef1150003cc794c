"""Which octets are a request: the grammar of RFC 1035, sections 3.1, 3.3, 4.1 and 4.1.4, RFC 6891, section 6.1, and RFC 8945,
section 4.2, with what the server asks beyond them: where OPT, SIG and TSIG may stand, and records without data in updates alone
(RFC 2136, section 2.4). Written here from the RFCs, independent of the libraries and of dnspython."""

UPDATE = 5
OPT, SIG, TSIG = 41, 24, 250
# Types that only questions name: no data are of them.
ASKED_ALONE = (0, 251, 252, 255)
# The fields of data by type: so many octets, a name, a string, strings to the end, or all to the end. Other types than those here
# and those of NO_ROWS have any octets.
FIELDS = {
    1: [4], 28: [16], 2: ["name"], 5: ["name"], 12: ["name"], 65305: ["name"], 6: ["name", "name", 20], 13: ["string", "string"],
    15: [2, "name"], 16: ["strings"], 33: [6, "name"], 37: [5, "rest"], 44: [2, "rest"], 52: [3, "rest"], 53: [3, "rest"],
    OPT: ["options"], TSIG: ["name", 8, "counted", 4, "counted"],
}
# Types with rules of their own that no request of a row has: NAPTR, CSYNC, SVCB, HTTPS, CAA.
NO_ROWS = (35, 62, 64, 65, 257)


class Refused(Exception):
    """Octets that aren't a request."""


def taken(octets, place, count):
    """So many octets from a place on."""
    if place + count > len(octets):
        raise Refused("octets are missing")
    return octets[place : place + count]


def number(octets, place):
    return int.from_bytes(taken(octets, place, 2), "big")


def behind_name(octets, place):
    """The place behind a name. Each pointer leads to before where its run of labels begins, and no later run reaches that place."""
    start, end, behind, length = place, len(octets), None, 1
    while True:
        if place >= end:
            raise Refused("a name goes on where an earlier part of it stands, or the message ends")
        first = octets[place]
        if first == 0:
            return place + 1 if behind is None else behind
        if first < 64:
            taken(octets, place, 1 + first)
            length += 1 + first
            if length > 255:
                raise Refused("a name is longer than 255 octets")
            place += 1 + first
        elif first >= 192:
            target = number(octets, place) & 0x3FFF
            if target >= start:
                raise Refused("a pointer doesn't lead back")
            behind = place + 2 if behind is None else behind
            start, end, place = target, start, target
        else:
            raise Refused("a label of another kind")


def behind_options(octets, place, end):
    """The end of data of OPT. What breaks off behind a code or inside an option's octets is no option, and no fault."""
    while place < end:
        if end - place == 2:
            return end
        if end - place < 4:
            raise Refused("options end inside a code or a length")
        place += 4 + number(octets, place + 2)
    return end


def behind_field(octets, place, end, field):
    """The place behind one field of data that end there."""
    if field == "name":
        return behind_name(octets, place)
    if field == "string":
        return place + 1 + taken(octets, place, 1)[0]
    if field == "counted":
        return place + 2 + number(octets, place)
    if field == "strings":
        while place < end:
            place = behind_field(octets, place, end, "string")
        return place
    if field == "options":
        return behind_options(octets, place, end)
    return max(place, end) if field == "rest" else place + field


def read_data(octets, kind, place, end):
    """Data of a type, of one octet at least, fill their length."""
    assert kind not in NO_ROWS, "data that no row has"
    if kind in ASKED_ALONE:
        raise Refused("data of a type that has none")
    for field in FIELDS.get(kind, ["rest"]):
        place = behind_field(octets, place, end, field)
        if place > end:
            break
    if place != end:
        raise Refused("data that don't fill their length")


def read_record(octets, place, op_code):
    """The type of the record at a place, whether the root owns it, and the place behind it."""
    is_root = taken(octets, place, 1) == b"\0"
    place = behind_name(octets, place)
    taken(octets, place, 10)
    kind, length = number(octets, place), number(octets, place + 8)
    end = place + 10 + length
    taken(octets, place, 10 + length)
    if length > 0:
        read_data(octets[:end], kind, place + 10, end)
    elif kind == TSIG or kind != OPT and op_code != UPDATE:
        raise Refused("a record without data")
    return kind, is_root, end


def read_request(octets):
    """Reads a message whole; Refused where it isn't one. What stands behind the last record is free."""
    taken(octets, 0, 12)
    op_code, place = octets[2] >> 3 & 15, 12
    counts = [number(octets, 4 + 2 * section) for section in range(4)]
    for _ in range(counts[0]):
        place = behind_name(octets, place)
        taken(octets, place, 4)
        place += 4
    has_options, is_signed = False, False
    for section in (1, 2, 3):
        for _ in range(counts[section]):
            kind, is_root, place = read_record(octets, place, op_code)
            if kind in (OPT, SIG, TSIG) and section != 3:
                raise Refused("a record that only the additional section has")
            if is_signed:
                raise Refused("a record behind a signature")
            if kind == OPT and (has_options or not is_root):
                raise Refused("options that stand twice, or that another name than the root owns")
            has_options, is_signed = has_options or kind == OPT, kind in (SIG, TSIG)


def is_request(octets):
    """Whether octets are a request."""
    try:
        read_request(octets)
    except Refused:
        return False
    return True


def fronts(octets):
    """The lengths of those fronts of octets, themselves among them, that are requests."""
    return [count for count in range(len(octets) + 1) if is_request(octets[:count])]
