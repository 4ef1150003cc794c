#!/usr/bin/env python3
"""Rows of `tests/rows/vectors` that ask what a zone of any types answers, and what the plain lookup says to them.

    ./rows.py                              compares all rows `answers` with their answers; the status is 1 if one differs
    ./rows.py ZONE PROTOCOL NAME TYPE ..   prints a row, and its answer"""

import ipaddress
import os
import struct
import sys

sys.dont_write_bytecode = True
import lookup
import wire

ROWS = os.path.join(os.path.dirname(os.path.realpath(__file__)), "../rows/vectors")
LIMITS = {"udp": 512, "tcp": 65535}
NUMBERS = {word: type for type, word in wire.TYPE_WORDS.items()}
ORIGIN = "example.com."


def name_of(text):
    return tuple(label.encode() for label in text.split(".") if label)


def strings_of(words):
    return b"".join(bytes([len(word)]) + word.encode() for word in words)


def data_of(type, text):
    words = text.split(" ")
    if words[0] == "\\#":
        return bytes.fromhex(words[2])
    if type in (lookup.A, lookup.AAAA):
        return ipaddress.ip_address(text).packed
    if type in wire.NAMES:
        return name_of(text)
    if type in (lookup.SOA, lookup.MX, lookup.SRV, wire.HTTPS):
        return tuple(int(word) if word.isdigit() else name_of(word) for word in words)
    if type == wire.NAPTR:
        order, preference, *strings, replacement = words
        numbers = struct.pack(">HH", int(order), int(preference))
        return numbers + strings_of(word.strip('"') for word in strings) + wire.name_octets(name_of(replacement))
    return strings_of(words)  # HINFO, TXT


def records_of(lines):
    for line in lines:
        owner, ttl, _, word, data = line.split(" ", 4)
        yield lookup.Record(name_of(owner), NUMBERS[word], int(ttl), data_of(NUMBERS[word], data))


def zone_of(text):
    """The zone of a row: a file of `data/` or `-`, and more lines behind a blank."""
    file, _, more = text.partition(" ")
    lines = [] if file == "-" else open(f"{ROWS}/data/{file}").read().splitlines()
    return lookup.stored(records_of(lines + [line for line in more.split("\\n") if line]))


def answer(origin, zone, protocol, *messages):
    """The replies to messages, as their octets, with pointers, up to the transport's limit."""
    replies = []
    for message in map(bytes.fromhex, messages):
        reply = lookup.reply(zone_of(zone), name_of(origin), wire.read_request(message))
        # (the questions are all that stands behind the header of a message here)
        replies.append(wire.reply_octets(reply, message[12:], LIMITS[protocol]))
    return "\t".join(octets.hex() for octets in replies)


def row(zone, protocol, questions):
    requests = [lookup.Request(0x1234, 0, [(name_of(name), NUMBERS[type], 1)]) for name, type in questions]
    return ["answers", ORIGIN, zone, protocol, *(wire.request_octets(request).hex() for request in requests)]


def differing():
    """How many rows there are, and those whose answer is another. Before all answers stand some lines of the program's own."""
    asked, said = (open(f"{ROWS}/{file}").read().splitlines() for file in ("stdin", "stdout"))
    rows = [(line.split("\t")[1:], answered) for line, answered in zip(asked, said[len(said) - len(asked):])
            if line.startswith("answers\t")]
    return len(rows), [(fields, answered) for fields, answered in rows if answer(*fields) != answered]


def main():
    zone, protocol, *questions = sys.argv[1:] or [None, None]
    if zone:
        fields = row(zone, protocol, list(zip(questions[::2], questions[1::2])))
        print("\t".join(fields), answer(*fields[1:]), sep="\n")
        return
    count, wrong = differing()
    for fields, answered in wrong[:5]:
        print(*fields, f"answered: {answered}", f"expected: {answer(*fields)}", "", sep="\n")
    print(f"{count} rows, {len(wrong)} differ")
    sys.exit(1 if wrong else 0)


main()
