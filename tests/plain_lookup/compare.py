#!/usr/bin/env python3
"""Compares what the program answers with what the rules say, over random small zones and questions.

    ./compare.py [--seed N] [--pairs N] [--program COMMAND | --unproved] [--stage first|full] [--types WORDS] [--any-case]
                 [--show N]

Each zone is written as a zone file, and its questions are sent to one run of COMMAND ORIGIN ZONEFILE 0; or, with --unproved, all
are asked of the libraries, which needs no proof. Compared are the header, the questions as octets, each section's records in
order, and at last all octets. The status is 1 if a reply differs. README.md says more."""

import argparse
import collections
import os
import random
import shlex
import subprocess
import sys
import tempfile
import time
from typing import NamedTuple

sys.dont_write_bytecode = True
import lookup
import unproved
import wire
import zones

TOP = os.path.dirname(os.path.dirname(os.path.dirname(os.path.realpath(__file__))))
QUESTIONS_A_ZONE = 125
WORDS = {word: type for type, word in wire.TYPE_WORDS.items()}


class Asked(NamedTuple):
    """A zone, as the lines of its file, and what it is asked."""
    origin: tuple
    lines: list
    requests: list


def zone_text(lines):
    return "".join(wire.record_text(record) + "\n" for record in lines)


def served(command, asked):
    """The replies of one run of the program."""
    with tempfile.NamedTemporaryFile("w", suffix=".zone") as file:
        file.write(zone_text(asked.lines))
        file.flush()
        words = [*command, wire.name_text(asked.origin), file.name, "0"]
        sent = b"".join(wire.framed(wire.request_octets(request)) for request in asked.requests)
        ran = subprocess.run(words, input=sent, capture_output=True)
    if ran.returncode != 0:
        raise wire.Malformed(f"the program ended with status {ran.returncode}: {ran.stderr.decode(errors='replace').strip()}")
    replies = wire.unframed(ran.stdout)
    if len(replies) != len(asked.requests):
        raise wire.Malformed(f"{len(asked.requests)} questions, {len(replies)} replies")
    return replies


def answered(command, asked):
    """The replies of one run, or in the place of each why there are none."""
    try:
        return served(command, asked)
    except wire.Malformed as error:
        return [error] * len(asked.requests)


def without_case(reply):
    """The reply with all names of records in lower case: what `==` of records says."""
    def plain(records):
        return [record._replace(owner=lookup.lower(record.owner), data=lookup.lower_data(record.data)) for record in records]

    sections = ("answers", "authorities", "additionals")
    return reply._replace(**{section: plain(getattr(reply, section)) for section in sections})


def difference(request, expected, octets, any_case):
    """What differs, in lines, or none."""
    if isinstance(octets, wire.Malformed):
        return [str(octets)]
    try:
        reply = wire.read_reply(octets)
    except wire.Malformed as error:
        return [f"the reply can't be read: {error}: {octets.hex()}"]
    sent = wire.question_octets(request.questions)
    if octets[12:12 + len(sent)] != sent:
        return ["the question section isn't as it was sent"]
    if reply == expected:
        wanted = wire.reply_octets(expected)
        return [] if any_case or octets == wanted else [f"- {wanted.hex()}", f"+ {octets.hex()}"]
    if any_case and without_case(reply) == without_case(expected):
        return []
    wanted, had = wire.reply_lines(expected), wire.reply_lines(reply)
    return [*(f"- {line}" for line in wanted), *(f"+ {line}" for line in had)]


def kind_of(zone, request, reply):
    """How the rules answer, to count what the pairs reach."""
    code = reply.flags & 15
    if len(request.questions) != 1 or not reply.flags & lookup.AA:
        return {lookup.FORM_ERR: "FormErr", lookup.NOT_IMP: "NotImp", lookup.REFUSED: "outside"}[code]
    name, type, _ = request.questions[0]
    if code == lookup.NX_DOMAIN:
        return "name error"
    if not reply.answers:
        referral = reply.authorities and lookup.nearest_cut(zone, name, type) is not None
        return ("referral with glue" if reply.additionals else "referral") if referral else "no data"
    if type == lookup.ANY:
        return "all sets"
    first = reply.answers[0]
    if first.type == lookup.CNAME != type:
        return "alias"
    if type in (lookup.A, lookup.AAAA) and lookup.ANAME in [record.type for record in [first, *reply.additionals]]:
        return "alias for addresses"
    if first.type == lookup.NS and lookup.nearest_cut(zone, name, type) is not None:
        return "NS of a cut"
    return "set" if lookup.set_of(zone, name, type) else "wildcard"


def expected(words, asked):
    zone = lookup.stored(asked.lines)
    look = lookup.exact_lookup if words.stage == "first" else lookup.lookup
    return [lookup.reply(zone, asked.origin, request, look) for request in asked.requests]


def differences(words, every_asked):
    """For each zone and each request, the lines that say what differs, and the reply expected."""
    wanted = [expected(words, asked) for asked in every_asked]
    if words.unproved:
        had = unproved.served(every_asked, [sum(map(wire.reply_length, replies)) for replies in wanted])
    else:
        had = [answered(words.program, asked) for asked in every_asked]
    return [[(difference(request, reply, octets, words.any_case), reply)
             for request, reply, octets in zip(asked.requests, replies, every_octets, strict=True)]
            for asked, replies, every_octets in zip(every_asked, wanted, had, strict=True)]


def without_some(lines):
    """The lines without 1, 2, 4 or more that stand together; those with the fewest left come first."""
    counts = [1 << at for at in reversed(range(len(lines).bit_length()))]
    return [lines[:at] + lines[at + count:] for count in counts for at in range(0, len(lines) - count + 1)]


def shrunk(words, asked):
    """The zone without the lines that the difference doesn't need; the SOA at its origin stays."""
    start = [line for line in asked.lines if line.type == lookup.SOA and lookup.same(line.owner, asked.origin)]
    while True:
        smaller = [asked._replace(lines=lines) for lines in without_some(asked.lines) if all(it in lines for it in start)]
        found = [it for it, ((lines, _),) in zip(smaller, differences(words, smaller)) if lines]
        if not found:
            return asked
        asked = found[0]


def show(words, asked):
    """Prints a difference of one request over the smallest zone that has it, or over the whole zone where it needs the requests
    before it."""
    request, = asked.requests
    if differences(words, [asked])[0][0][0]:
        asked = shrunk(words, asked)
    lines = differences(words, [asked])[0][0][0]
    print(f"zone {wire.name_text(asked.origin)}", *(f"    {line}" for line in zone_text(asked.lines).splitlines()), sep="\n")
    for name, type, class_ in request.questions:
        print(f"asked: {wire.name_text(name)} class {class_} {wire.type_text(type)}; flags {request.flags:04x}")
    print(f"  {wire.request_octets(request).hex()}", "expected (-) and answered (+):", sep="\n")
    print(*(f"  {line}" for line in lines or ["no difference where it is asked alone"]), "", sep="\n")


def drawn(words):
    """Zones and requests, so many in all."""
    dice, every_asked, pairs = random.Random(words.seed), [], 0
    while pairs < words.pairs:
        maker = zones.ZoneMaker(dice, words.types)
        origin = maker.origin()
        lines = maker.make(origin)
        requests = zones.requests(dice, lookup.stored(lines), origin, QUESTIONS_A_ZONE)[:words.pairs - pairs]
        every_asked.append(Asked(origin, lines, requests))
        pairs += len(requests)
    return every_asked


def compared(words, every_asked):
    """How many pairs of each kind there are, and the differing ones, each request by itself."""
    kinds, differing = collections.Counter(), []
    for asked, found in zip(every_asked, differences(words, every_asked)):
        zone = lookup.stored(asked.lines)
        for request, (lines, reply) in zip(asked.requests, found):
            kinds[kind_of(zone, request, reply)] += 1
            if lines:
                differing.append(asked._replace(requests=[request]))
    return kinds, differing


def run(words):
    began, every_asked = time.time(), drawn(words)
    kinds, differing = compared(words, every_asked)
    for asked in differing[:words.show]:
        show(words, asked)
    if words.stage == "full":
        print("expected:", ", ".join(f"{kind} {number}" for kind, number in kinds.most_common()))
    print(f"seed {words.seed}, stage {words.stage}: {kinds.total()} pairs in {len(every_asked)} zones compared in "
          f"{time.time() - began:.0f} seconds, {len(differing)} differ")
    return 1 if differing else 0


def main():
    parser = argparse.ArgumentParser(description=__doc__, formatter_class=argparse.RawDescriptionHelpFormatter)
    parser.add_argument("--seed", type=int, default=1)
    parser.add_argument("--pairs", type=int, default=100_000)
    parser.add_argument("--program", type=shlex.split, default=[f"{TOP}/authority"])
    parser.add_argument("--unproved", action="store_true", help="ask the libraries, by tests/rows/vectors")
    parser.add_argument("--stage", choices=["first", "full"], default="full")
    parser.add_argument("--types", type=lambda text: [WORDS[word] for word in text.split(",")], default="A,NS,SOA")
    parser.add_argument("--any-case", action="store_true", help="names in records are compared up to case, and pointers not")
    parser.add_argument("--show", type=int, default=3, help="how many differences are printed")
    words = parser.parse_args()
    try:
        sys.exit(run(words))
    except wire.Malformed as error:
        sys.exit(f"compare: {error}")


main()
