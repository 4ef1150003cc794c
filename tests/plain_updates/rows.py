#!/usr/bin/env python3
"""Compares the rows `../rows/updates.tsv`, which were written by hand, with the plain model, and replies to queries with the plain
lookup. Prints each difference; the status is 1 if there is one."""

import os
import struct
import sys

sys.dont_write_bytecode = True
TESTS = os.path.dirname(os.path.dirname(os.path.realpath(__file__)))
sys.path += [f"{TESTS}/rows", f"{TESTS}/plain_lookup"]
import compress
import lookup
import messages
import model
import wire
from messages import OP_CODE_UPDATE, Tsig, message_octets, name_of, name_octets, record_octets, tsig_record
from model import ANAME, CLASS_IN, CNAME, FORM_ERR, NS, NSEC, SERV_FAIL, SOA, TXT, A, Record

OPT, QR, RD_CD, TC = 41, 0x8000, 0x0110, 0x0200
TYPES = {"A": A, "NS": NS, "CNAME": CNAME, "SOA": SOA, "TXT": TXT, "NSEC": NSEC, "ANAME": ANAME}


# Texts.

def data_of(type, words):
    if words[0] == "\\#":
        return bytes.fromhex(words[2])
    if type == A:
        return bytes(map(int, words[0].split(".")))
    if type == TXT:
        return b"".join(bytes([len(word) - 2]) + word[1:-1].encode() for word in words)
    if type == SOA:
        return messages.soa(name_of(words[0]), name_of(words[1]), *map(int, words[2:]))
    return name_octets(name_of(words[0]))


def zone_of(origin, setting, text):
    records = []
    for line in text.split("\\n"):
        owner, ttl, _, type, *words = line.split(" ")
        records.append(Record(name_of(owner), TYPES[type], CLASS_IN, int(ttl), data_of(TYPES[type], words)))
    return model.zone_of(name_of(origin), records, {"none": None, "off": False, "on": True}[setting])


def text_of(zone):
    """By owner, in name order, and by type."""
    ordered = sorted(zone.sets, key=lambda at: (at[0][::-1], at[1]))
    return "\\n".join(messages.record_text(record) for at in ordered for record in zone.sets[at])


# Replies.

def chain_of(chains, name):
    """That of the longest registered name at or above it."""
    found = [it for it in chains if model.is_at_or_below(name, it)]
    return max(found, key=len) if found else None


def options_of(message):
    return [it for it in message.additionals if it.type == OPT]


def is_error(message, answer):
    """An error reply copies RD and CD; what a handler decides doesn't."""
    return answer.zone is None and answer.code in (FORM_ERR, SERV_FAIL)


def reply_octets(message, flags, options, signature=None, limit=65535):
    questions = b"".join(name_octets(name) + struct.pack(">HH", type, class_) for name, type, class_ in message.questions)
    records = [record_octets(it) for it in [*options, *([signature] if signature else [])]]
    return compress.laid_out(message.id, flags, len(message.questions), questions, [[], [], records], limit)


def signature_of(context, signed):
    """The suite's: the context's identifier and error, the octets of its MAC, and how many octets are signed."""
    mac = struct.pack(">4H", context.id, context.error, len(context.request_mac), len(signed))
    return tsig_record(context.key_name, Tsig(context.algorithm, context.now, 300, mac, context.id, context.error, b""))


def updated(chains, message, keys, now, limit):
    """The reply's octets; the first zone of a chain takes the place of what it was."""
    copied = message.flags & RD_CD
    flags, options = QR | OP_CODE_UPDATE, options_of(message)
    if any(it.ttl >> 16 & 255 for it in options):
        return reply_octets(message, flags | copied, [it._replace(ttl=1 << 24) for it in options])
    if message.flags & QR:
        return reply_octets(message, flags | copied | FORM_ERR, options)
    verdict, *fails = keys.split(" ")
    name = chain_of(chains, message.questions[0][0]) if message.questions else None
    answer = model.answer_of_chain(chains.get(name), message.questions, messages.update_of(message, verdict), now)
    if answer.zone is not None:
        chains[name][0] = chains[name][0][0], answer.zone
    flags |= copied if is_error(message, answer) else 0
    if answer.context is None:
        return reply_octets(message, flags | answer.code, options)
    if fails:
        return reply_octets(message, flags | copied | SERV_FAIL, options)
    signed = reply_octets(message, flags | answer.code, options)
    return reply_octets(message, flags | answer.code, options, signature_of(answer.context, signed), limit)


def answered(chains, octets):
    """The reply to a query, by the plain lookup."""
    request = wire.read_request(octets)
    (_, zone), *_ = chains[chain_of(chains, request.questions[0][0])]
    records = [lookup.Record(it.owner, it.type, it.ttl, wire.data_at(it.data, 0, len(it.data), it.type)) for it in model.records_of(zone)]
    return wire.reply_octets(lookup.reply(records, zone.origin, request))


def differences(chains, fields):
    _, protocol, now, keys, request, reply, name, after = fields
    octets = bytes.fromhex(request)
    message = messages.read(octets)
    if message.flags & 0x7800 == OP_CODE_UPDATE:
        had = updated(chains, message, keys, int(now), 512 if protocol == "udp" else 65535)
    else:
        had = answered(chains, octets)
    left = text_of(chains[name_of(name)][0][1])
    if had.hex() != reply:
        yield f"reply {had.hex()}, expected {reply}"
    if left != after:
        yield f"left {left}, expected {after}"


def main():
    count = wrong = 0
    chains, comment = {}, []
    with open(f"{TESTS}/rows/updates.tsv", encoding="utf-8") as rows:
        for line in rows:
            verb, *fields = line.rstrip("\n").split("\t")
            if not verb:
                chains, comment = {}, []
            elif verb.startswith("#"):
                comment.append(verb)
            elif verb == "zone":
                origin, kind, setting, text = fields
                chains.setdefault(name_of(origin), []).append((kind.capitalize(), zone_of(origin, setting, text)))
            else:
                count += 1
                found = list(differences(chains, fields))
                wrong += bool(found)
                if found:
                    print(*comment, *found, sep="\n")
    print(f"{count} messages of rows, {wrong} differ")
    sys.exit(1 if wrong else 0)


if __name__ == "__main__":
    main()
