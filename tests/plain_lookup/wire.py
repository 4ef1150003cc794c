"""Messages as octets: both kinds are written, replies with the pointers of `rows/compress.py`, and read (RFC 1035, section 4.1)."""

import os
import struct
import sys

sys.path.append(os.path.join(os.path.dirname(os.path.dirname(os.path.realpath(__file__))), "rows"))
import compress
from lookup import A, AAAA, ANAME, CNAME, MX, NS, SOA, SRV, Record, Reply, Request

PTR, NAPTR, HTTPS = 12, 35, 65
NAMES = {CNAME, NS, PTR, ANAME}
TYPE_WORDS = {A: "A", NS: "NS", CNAME: "CNAME", SOA: "SOA", 10: "NULL", PTR: "PTR", 13: "HINFO", MX: "MX", 16: "TXT",
              AAAA: "AAAA", SRV: "SRV", NAPTR: "NAPTR", 43: "DS", HTTPS: "HTTPS", 255: "ANY", ANAME: "ANAME"}


class Malformed(Exception):
    pass


# Writing.

def name_octets(name):
    return b"".join(bytes([len(label)]) + label for label in name) + b"\0"


def question_octets(questions):
    return b"".join(name_octets(name) + struct.pack(">HH", type, class_) for name, type, class_ in questions)


def request_octets(request):
    header = struct.pack(">6H", request.id, request.flags, len(request.questions), 0, 0, 0)
    return header + question_octets(request.questions)


def data_octets(type, data):
    if isinstance(data, bytes):
        return data
    if type in NAMES:
        return name_octets(data)
    number = ">I" if type == SOA else ">H"
    return b"".join(struct.pack(number, part) if isinstance(part, int) else name_octets(part) for part in data)


def record_octets(record):
    data = data_octets(record.type, record.data)
    return name_octets(record.owner) + struct.pack(">HHIH", record.type, 1, record.ttl, len(data)) + data


def reply_octets(reply, asked=None, limit=65535):
    """The reply up to a limit, behind the questions as they were sent, or in full."""
    asked = question_octets(reply.questions) if asked is None else asked
    sections = [list(map(record_octets, it)) for it in (reply.answers, reply.authorities, reply.additionals)]
    return compress.laid_out(reply.id, reply.flags, len(reply.questions), asked, sections, limit)


def reply_length(reply):
    return len(reply_octets(reply))


def framed(message):
    return struct.pack(">H", len(message)) + message


# Reading.

def unframed(octets):
    """The messages of a stream."""
    messages, at = [], 0
    while at < len(octets):
        length, = struct.unpack_from(">H", octets, at)
        if at + 2 + length > len(octets):
            raise Malformed("the last frame is cut")
        messages.append(octets[at + 2:at + 2 + length])
        at += 2 + length
    return messages


def name_at(octets, place):
    """The name that is spelled at the place, and where what follows it stands. A pointer leads back, before the labels that it
    ends, so that each name has an end (RFC 1035, section 4.1.4)."""
    labels, end, start = [], None, place
    while True:
        length = octets[place]
        if length == 0:
            end = place + 1 if end is None else end
            break
        if length < 64:
            labels.append(octets[place + 1:place + 1 + length])
            place += 1 + length
        elif length >= 192:
            target = (length & 63) << 8 | octets[place + 1]
            if target >= start:
                raise Malformed(f"the pointer at {place} leads to {target}")
            end = place + 2 if end is None else end
            place = start = target
        else:
            raise Malformed(f"a label of kind {length:#x} at {place}")
    if sum(len(label) + 1 for label in labels) + 1 > 255:
        raise Malformed("a name of more than 255 octets")
    return tuple(labels), end


def data_at(octets, place, end, type):
    """The record's data, as in `Record`; they fill their length."""
    data, at = octets[place:end], end
    if type in NAMES:
        data, at = name_at(octets, place)
    elif type == SOA:
        primary, at = name_at(octets, place)
        mailbox, at = name_at(octets, at)
        data, at = (primary, mailbox, *struct.unpack_from(">5I", octets, at)), at + 20
    elif type in (MX, SRV):
        numbers = struct.unpack_from(">H" if type == MX else ">3H", octets, place)
        host, at = name_at(octets, place + 2 * len(numbers))
        data = (*numbers, host)
    if at != end:
        raise Malformed(f"data of type {type} end at {at}, their length says {end}")
    return data


def record_at(octets, place):
    owner, at = name_at(octets, place)
    type, class_, ttl, length = struct.unpack_from(">HHIH", octets, at)
    if class_ != 1 or at + 10 + length > len(octets):
        raise Malformed(f"a record of class {class_} and length {length} at {place}")
    return Record(owner, type, ttl, data_at(octets, at + 10, at + 10 + length, type)), at + 10 + length


def questions_at(octets, at, count):
    questions = []
    for _ in range(count):
        name, at = name_at(octets, at)
        questions.append((name, *struct.unpack_from(">HH", octets, at)))
        at += 4
    return questions, at


def read_request(octets):
    """The request that the octets are, of questions alone."""
    id, flags, count, *_ = struct.unpack_from(">6H", octets)
    return Request(id, flags, questions_at(octets, 12, count)[0])


def read_reply(octets):
    """The reply that the octets are; nothing stands behind it."""
    try:
        id, flags, *counts = struct.unpack_from(">6H", octets)
        lists = ([], [], [])
        questions, at = questions_at(octets, 12, counts[0])
        for records, count in zip(lists, counts[1:]):
            for _ in range(count):
                record, at = record_at(octets, at)
                records.append(record)
    except (IndexError, struct.error) as error:
        raise Malformed(f"cut: {error}") from error
    if at != len(octets):
        raise Malformed(f"{len(octets) - at} octets behind the last record")
    return Reply(id, flags, questions, *lists)


# Texts.

def name_text(name):
    return b".".join(name).decode("latin-1").encode("unicode_escape").decode() + "." if name else "."


def type_text(type):
    return TYPE_WORDS.get(type, f"TYPE{type}")


def data_text(type, data):
    if type == A:
        return ".".join(str(octet) for octet in data)
    if type == AAAA:
        return ":".join(f"{data[at] << 8 | data[at + 1]:x}" for at in range(0, 16, 2))
    if type in NAMES:
        return name_text(data)
    if isinstance(data, tuple):
        return " ".join(str(part) if isinstance(part, int) else name_text(part) for part in data)
    return data.hex()


def record_text(record):
    return f"{name_text(record.owner)} {record.ttl} IN {type_text(record.type)} {data_text(record.type, record.data)}"


def reply_lines(reply):
    lines = [f"id {reply.id:04x} flags {reply.flags:04x}"]
    lines += [f"question: {name_text(name)} class {class_} {type_text(type)}" for name, type, class_ in reply.questions]
    for section in ("answers", "authorities", "additionals"):
        lines += [f"{section}: {record_text(record)}" for record in getattr(reply, section)]
    return lines
