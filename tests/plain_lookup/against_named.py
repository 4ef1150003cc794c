#!/usr/bin/env python3
"""Compares the plain lookup with BIND's named over random small zones, on a free port of 127.0.0.1.

    ./against_named.py [--seed N] [--zones N] [--questions N] [--show N]

Where the rules differ from named on purpose, `NamedLookup` says what named answers, and which rule is the other one. A reply of
named must be that of the rules, or that of `NamedLookup` with at least one such rule. The status is 1 if one is neither."""

import argparse
import collections
import os
import random
import shutil
import socket
import subprocess
import sys
import tempfile
import time

sys.dont_write_bytecode = True
import wire
import zones
from lookup import (A, AA, AAAA, ANY, CNAME, DS, LONGEST_CHAIN, MX, NO_ERROR, NS, NX_DOMAIN, RD, SOA, SRV, Reply, Request,
                    all_sets, ancestors, at_owner, exists, from_wildcard, header, is_at_or_below, lower, lower_data, renamed,
                    reply, same, set_of, star_under, stored, suffixes, target_of)

SERV_FAIL = 2
TYPES = [A, NS, SOA, CNAME, MX, AAAA, SRV]
CONF = """options {{ directory "{folder}"; pid-file none; session-keyfile none; listen-on port {port} {{ 127.0.0.1; }};
    listen-on-v6 {{ none; }}; recursion no; dnssec-validation no; check-names primary ignore; check-integrity no;
    check-wildcard no; check-mx ignore; check-mx-cname ignore; check-srv-cname ignore; check-sibling no; check-spf ignore;
    notify no; minimal-responses no-auth; rrset-order {{ order none; }}; empty-zones-enable no; max-records-per-type 0;
    zero-no-soa-ttl no; }};
controls {{ }};
"""


class NamedLookup:
    """What named answers: RFC 1034, section 4.3.2, with RFC 4592 and RFC 2308. `notes` are the rules of ours that differ."""

    FOLLOWED = 11  # aliases, behind the first

    def __init__(self, zone, origin):
        self.zone, self.origin, self.notes = zone, origin, set()

    def note_if(self, differs, rule):
        if differs:
            self.notes.add(rule)

    def highest_cut(self, name, type):
        """Below a cut all is another zone's, further cuts too (RFC 1034, section 4.2.1)."""
        names = [it for it in (ancestors(name) if type == DS else suffixes(name)) if len(it) > len(self.origin)]
        cuts = [it for it in names if set_of(self.zone, it, NS)]
        self.note_if(len(cuts) > 1, "cut below a cut")
        return cuts[-1] if cuts else None

    def closest(self, name):
        """The name, or the star that stands for it: that under its closest existing ancestor (RFC 4592, section 3.3.1)."""
        if exists(self.zone, name):
            return name
        star = star_under(next(it for it in ancestors(name) if exists(self.zone, it)))
        return star if exists(self.zone, star) else None

    def owner(self, name, type):
        owner = self.closest(name)
        answers = owner is not None and at_owner(self.zone, owner, type)
        is_other = type != ANY and not answers and from_wildcard(self.zone, name, type)
        self.note_if(is_other, "wildcard beside an existing name")
        return owner

    def reply(self, request):
        (name, type, _), = request.questions
        if not is_at_or_below(name, self.origin):
            return reply(self.zone, self.origin, request)
        answers, seen = [], []
        while is_at_or_below(name, self.origin):
            cut = self.highest_cut(name, type)
            if cut is not None:
                return self.referral(request, answers, set_of(self.zone, cut, NS))
            owner = self.owner(name, type)
            if owner is None:
                return self.negative(request, NX_DOMAIN, answers)
            sets, alias = self.sets_at(owner, name, type)
            if sets:
                if type == ANY and owner != name:
                    self.notes.add("ANY")
                    return Reply(*header(request, NO_ERROR, AA), sets, [], [])  # (without additionals)
                return self.made(request, NO_ERROR, answers + sets, [], AA)
            if not alias:
                self.note_if(owner != name, "wildcard without the type")
                return self.negative(request, NO_ERROR, answers)
            answers = answers + alias
            seen.append(name)
            name = alias[0].data
            if any(same(name, it) for it in seen) or len(seen) > self.FOLLOWED:
                self.notes.add("long chain or loop")
                return self.made(request, SERV_FAIL, answers, [], AA)
        return self.made(request, NO_ERROR, answers, [], AA)

    def sets_at(self, owner, name, type):
        """The set or sets that are asked, and the alias."""
        sets = all_sets(self.zone, owner) if type == ANY else set_of(self.zone, owner, type)
        alias = set_of(self.zone, owner, CNAME)
        return (sets, alias) if owner == name else (renamed(sets, name), renamed(alias, name))

    def referral(self, request, answers, name_servers):
        """Without AA, which speaks of the first owner's name (RFC 1035, section 4.1.1)."""
        type = request.questions[0][1]
        self.note_if(not answers, "AA on a referral")
        self.note_if(answers, "referral behind an alias")
        self.note_if(type == NS, "NS of a cut")
        self.note_if(type == ANY, "ANY")
        return self.made(request, NO_ERROR, answers, name_servers, AA if answers else 0)

    def negative(self, request, code, answers):
        """The SOA lives no longer than its MINIMUM says (RFC 2308, section 3); the code speaks of the last name (RFC 6604)."""
        self.note_if(answers, "nothing behind an alias")
        soa, = set_of(self.zone, self.origin, SOA)
        self.note_if(soa.ttl > soa.data[6], "SOA of a negative answer")
        return self.made(request, code, answers, [soa._replace(ttl=min(soa.ttl, soa.data[6]))], AA)

    def made(self, request, code, answers, authorities, aa):
        self.note_if(len({it.owner for it in answers}) > LONGEST_CHAIN, "long chain or loop")
        self.note_if(request.questions[0][1] == SOA and (answers or not aa), "name servers with SOA")
        hosts = {lower(target_of(it)): it in authorities for it in answers + authorities if it.type in (NS, MX, SRV)}
        more = [it for host, is_referral in hosts.items() for it in self.addresses(host, is_referral) if it not in answers]
        return Reply(*header(request, code, aa), answers, authorities, more)

    def addresses(self, host, is_referral):
        """In a referral glue, else what a question for the host would find."""
        if not is_at_or_below(host, self.origin):
            return []
        is_below_cut = any(set_of(self.zone, it, NS) for it in suffixes(host) if len(it) > len(self.origin))
        if is_referral != is_below_cut:
            return []
        owner = host if is_referral else self.closest(host)
        return [it for type in (A, AAAA) if owner is not None for it in self.sets_at(owner, host, type)[0]]


def plain(reply):
    """The reply up to case, and each section up to order."""
    def records(section):
        return sorted((lower(it.owner), it.type, it.ttl, repr(lower_data(it.data))) for it in section)

    return reply.id, reply.flags, reply.questions, records(reply.answers), records(reply.authorities), records(reply.additionals)


# named.

def start_named(folder, served):
    with socket.socket() as probe:
        probe.bind(("127.0.0.1", 0))
        port = probe.getsockname()[1]
    with open(f"{folder}/named.conf", "w") as conf:
        conf.write(CONF.format(folder=folder, port=port))
        for at, (origin, lines) in enumerate(served):
            conf.write(f'zone "{wire.name_text(origin)}" {{ type primary; file "{at}.zone"; }};\n')
            with open(f"{folder}/{at}.zone", "w") as file:
                soa_first = sorted(lines, key=lambda record: record.type != SOA)
                file.writelines(wire.record_text(record) + "\n" for record in soa_first)
    server = subprocess.Popen(["named", "-g", "-n", "1", "-c", f"{folder}/named.conf"], stderr=open(f"{folder}/log", "w"))
    for _ in range(600):
        log = open(f"{folder}/log").read()
        if "all zones loaded" in log or server.poll() is not None:
            break
        time.sleep(0.1)
    refused = [line for line in log.splitlines() if "not loaded due to errors" in line]
    if refused or "all zones loaded" not in log:
        server.kill()
        sys.exit("against_named: named did not load the zones:\n" + "\n".join(refused or log.splitlines()[-8:]))
    return server, port


def receive(stream, count):
    octets = b""
    while len(octets) < count:
        more = stream.recv(count - len(octets))
        if not more:
            sys.exit("against_named: named closed the connection")
        octets += more
    return octets


def ask(port, requests):
    """The reply to each; named may answer them in another order."""
    replies = {}
    with socket.create_connection(("127.0.0.1", port), 20) as stream:
        for at in range(0, len(requests), 20):
            some = requests[at:at + 20]
            stream.sendall(b"".join(wire.framed(wire.request_octets(it)) for it in some))
            for _ in some:
                octets = receive(stream, int.from_bytes(receive(stream, 2), "big"))
                replies[int.from_bytes(octets[:2], "big")] = wire.read_reply(octets)
    return [replies[it.id] for it in requests]


def compare(zone, origin, request, theirs):
    """The rules that make named's reply another one; none where it is the same, None where it is neither."""
    ours, other = reply(zone, origin, request), NamedLookup(zone, origin)
    if plain(ours) == plain(theirs):
        return set()
    expected = other.reply(request)
    if plain(ours)[5] != plain(expected)[5]:
        other.notes.add("additionals")
    return other.notes if other.notes and plain(expected) == plain(theirs) else None


def show(zone, origin, request, theirs):
    print(f"zone {wire.name_text(origin)}", *("    " + wire.record_text(it) for it in zone), sep="\n")
    replies = [("by the rules", reply(zone, origin, request)), ("named", theirs),
               ("expected of named", NamedLookup(zone, origin).reply(request))]
    for whose, it in replies:
        print(f"{whose}:", *("    " + line for line in wire.reply_lines(it)), sep="\n")


def main():
    parser = argparse.ArgumentParser(description=__doc__, formatter_class=argparse.RawDescriptionHelpFormatter)
    parser.add_argument("--seed", type=int, default=1)
    parser.add_argument("--zones", type=int, default=300)
    parser.add_argument("--questions", type=int, default=200, help="for each zone")
    parser.add_argument("--show", type=int, default=2, help="how many replies without a reason are printed")
    words = parser.parse_args()
    if not shutil.which("named"):
        sys.exit("against_named: named is missing: apt-get install bind9")
    dice, began = random.Random(words.seed), time.time()
    maker, served = zones.ZoneMaker(dice, TYPES, served_elsewhere=True), []
    for at in range(words.zones):
        origin = (b"z%d" % at, b"test")
        served.append((origin, stored(maker.make(origin))))
    asked = agreed = unexplained = 0
    reasons = collections.Counter()
    with tempfile.TemporaryDirectory(prefix="named.") as folder:
        os.chmod(folder, 0o755)
        server, port = start_named(folder, served)
        try:
            for origin, zone in served:
                requests = [Request(id, dice.choice([0, RD]), [zones.question(dice, zone, origin, 0)])
                            for id in range(words.questions)]
                for request, theirs in zip(requests, ask(port, requests)):
                    why = compare(zone, origin, request, theirs)
                    asked, agreed = asked + 1, agreed + (why == set())
                    reasons.update(why or ())
                    if why is None:
                        unexplained += 1
                        if unexplained <= words.show:
                            show(zone, origin, request, theirs)
        finally:
            server.terminate()
            server.wait()
    for reason, number in reasons.most_common():
        print(f"{number:7,} {reason}")
    print(f"seed {words.seed}: {asked} questions over {words.zones} zones in {time.time() - began:.0f} seconds, {agreed} agree, "
          f"{asked - agreed - unexplained} differ by these rules, {unexplained} differ otherwise")
    sys.exit(1 if unexplained else 0)


main()
