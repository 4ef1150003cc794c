#!/usr/bin/python3
"""Compares what the plain model answers to the messages of `captured.tsv` with what named answered, code and zone; and shows those
that differ. It needs python3-dnspython, for the texts of zones. The status is 1 if one differs.

    ./captured.py           compares
    ./captured.py --rows    prints them as rows for the server, in the form of ../rows/updates.tsv: ../rows/captured.tsv

An unsigned message, which named took from anybody there, is asked of the model as if a good key had signed it; for the server a TSIG
record is added behind it, and nothing else is changed of its octets."""

import os
import struct
import sys

import dns.name
import dns.rdata

sys.dont_write_bytecode = True
import messages
import model
import rows
from messages import ALGORITHM, KEY, Tsig, generic_zone_text, record_octets, tsig_record
from model import CLASS_IN, Record, Signed

FOLDER = os.path.dirname(os.path.realpath(__file__))
VERDICTS = {"-": "Good", "0": "Good", "16": "BadSignature", "17": "UnknownKey", "18": "BadTime"}
ORIGIN, NOW, LIMITS = "example.com.", 1700000000, {"udp": 512, "tcp": 65535}
ZONE = ("example.com. 3600 IN SOA ns.example.com. admin.example.com. 1 3600 1800 604800 86400\\nexample.com. 3600 IN NS ns.example.org."
        '\\nexample.com. 3600 IN TXT "hello"\\nwww.example.com. 3600 IN A 192.0.2.1')


def zone_of(text):
    records = []
    for line in text.split("\\n"):
        owner, ttl, _, type, data = line.split(" ", 4)
        data = dns.rdata.from_text("IN", type, data)
        records.append(Record(messages.name_of(owner), data.rdtype, CLASS_IN, int(ttl), data.to_wire()))
    return model.zone_of(messages.name_of(ORIGIN), records)


def plain(zone):
    return {at: sorted((it.ttl, model.canonical(it)) for it in records) for at, records in zone.sets.items()}


def captured():
    """Each line's fields, and whether its client begins with the zone as it was."""
    before = None
    with open(f"{FOLDER}/captured.tsv", encoding="utf-8") as lines:
        for line in lines:
            fields = line.rstrip("\n").split("\t")
            yield fields[:3] != before or fields[1].count("send") < 2, fields
            before = fields[:3]


def compare():
    count = wrong = 0
    zone = None
    for is_first, (command, text, _, octets, code, error, after) in captured():
        zone = zone_of(ZONE) if is_first else zone
        update = messages.update_of(messages.read(bytes.fromhex(octets)), VERDICTS[error])
        update = update._replace(signed=update.signed or Signed((), (), b""))
        answer = model.answer(zone, update, 0)
        count += 1
        if (answer.code, plain(answer.zone)) != (int(code), plain(zone_of(after))):
            wrong += 1
            print(command, text, f"code {answer.code}, named {code}", messages.zone_text(answer.zone), after, sep="\n")
        zone = answer.zone
    print(f"{count} messages, {wrong} differ")
    return wrong


def with_signature(octets):
    """The message with a TSIG record behind it, unless it has one."""
    message = messages.read(octets)
    if messages.update_of(message, "Good").signed is not None:
        return octets
    count = len(message.additionals) + 1
    signature = tsig_record(KEY, Tsig(ALGORITHM, NOW, 300, bytes(8), message.id, 0, b""))
    return octets[:10] + struct.pack(">H", count) + octets[12:] + record_octets(signature)


def print_rows():
    chains = {}
    for is_first, (command, text, protocol, octets, _, error, _) in captured():
        if is_first:
            zone = zone_of(ZONE)
            if chains:
                print()
            print(f"# {command}: {text}")
            print("zone", ORIGIN, "primary", "on", generic_zone_text(zone), sep="\t")
            chains = {zone.origin: [("Primary", zone)]}
        octets = with_signature(bytes.fromhex(octets))
        reply = rows.updated(chains, messages.read(octets), VERDICTS[error], NOW, LIMITS[protocol])
        [(_, zone)] = chains[messages.name_of(ORIGIN)]
        print("send", "127.0.0.1", protocol, NOW, VERDICTS[error], octets.hex(), reply.hex(), ORIGIN, generic_zone_text(zone), sep="\t")


def main():
    if sys.argv[1:] == ["--rows"]:
        return print_rows()
    sys.exit(1 if compare() else 0)


main()
