"""Zones that are transferred, named as their primary, and named, NSD and Knot as secondaries of them."""

import base64
import contextlib
import os
import subprocess
import tempfile
import time

import rules
import trial

HERE, TOP = trial.HERE, trial.TOP
clients = trial.module(f"{HERE}/run")
import dns.flags
import dns.message
import dns.opcode
import dns.query

KEY, SECRET = "transfer.example.", base64.b64encode(b"a secret of the tests").decode()
COMPANY, EXAMPLE, SIGNED, DENIED = "company.example.", "example.com.", "signed.example.", "denied.example."
BELOW, FULL, TIGHT, LARGE = "below.example.", "full.example.", "fits.example.", "large.example."
POLICIES = {COMPANY: "all", EXAMPLE: "all", SIGNED: "signed", DENIED: "deny", BELOW: "all", FULL: "all", TIGHT: "signed", LARGE: "all"}
# (secondaries of the others ask again and again, which keeps the program busy)
USUAL, TOO_LONG = (COMPANY, EXAMPLE, SIGNED, DENIED, BELOW, FULL), (TIGHT, LARGE)
FULL_COUNT = 1048
NEW, CHANGED = f"new.{COMPANY}", (COMPANY, SIGNED)
BELOW_TEXT = """below.example. 300 IN SOA ns.below.example. hostmaster.below.example. 1 7200 900 1209600 300
below.example. 300 IN NS ns.below.example.
ns.below.example. 300 IN A 192.0.2.53
sub.below.example. 300 IN SOA ns.below.example. hostmaster.below.example. 7 7200 900 1209600 300
sub.below.example. 300 IN A 192.0.2.1
"""


# The zones.

def name_in(origin, at):
    """One of names that share suffixes in two cases."""
    suffix = origin if at % 3 else origin.title()
    return f"{'hH'[at % 2]}ost-{at}.{'Net' if at % 5 else 'net'}{at % 7}.{'site.' * (at % 4)}{suffix}"


def full_zone(origin):
    """Records whose data have names, for a message of nearly 65,535 octets."""
    forms = ["NS {0}", "MX {1} {0}", "SRV 0 {1} 5060 {0}", "PTR {0}", "NAPTR 1 {1} \"u\" \"E2U+sip\" \"\" {0}", "SVCB {1} {0} port=53", "A 192.0.2.1"]
    lines = BELOW_TEXT.replace(BELOW, origin).splitlines()[:3]
    lines += [f"{name_in(origin, at)} 300 IN {forms[at % len(forms)].format(name_in(origin, at * 7 % FULL_COUNT), at)}" for at in range(FULL_COUNT)]
    return "\n".join([*lines, ""])


def write_zones(folder):
    """The files of the zones by their origins."""
    texts = {COMPANY: open(f"{TOP}/examples/company.example.zone").read(), EXAMPLE: open(f"{HERE}/example.com.zone").read()}
    texts[SIGNED] = texts[COMPANY].replace(COMPANY, SIGNED)
    texts[DENIED] = texts[EXAMPLE].replace(EXAMPLE, DENIED)
    texts[BELOW] = BELOW_TEXT
    texts[FULL], texts[TIGHT] = full_zone(FULL), full_zone(TIGHT)
    lines = BELOW_TEXT.replace(BELOW, LARGE).splitlines()[:3]
    texts[LARGE] = "\n".join([*lines, *(f'{at:04}.{LARGE} 300 IN TXT "{at:060}"' for at in range(1500)), ""])
    for origin, text in texts.items():
        with open(f"{folder}/{origin}zone", "w", encoding="ascii") as file:
            file.write(text)
    return {origin: f"{folder}/{origin}zone" for origin in texts}


# The servers: the ports where they serve.

NAMED = """options {{ directory "{folder}"; pid-file none; session-keyfile none; listen-on port {port} {{ 127.0.0.1; }};
    listen-on-v6 {{ none; }}; recursion no; dnssec-validation no; check-integrity no; check-names primary ignore; notify no;
    minimal-responses no-auth; rrset-order {{ order none; }}; empty-zones-enable no; zero-no-soa-ttl no; }};
controls {{ }};
key "{key}" {{ algorithm hmac-sha256; secret "{secret}"; }};
"""
NAMED_PRIMARY = """zone "{origin}" {{ type primary; file "{file}"; allow-transfer {{ {allowed}; }};
    allow-update {{ key "{key}"; }}; }};
"""
NAMED_SECONDARY = """zone "{origin}" {{ type secondary; file "{origin}second"; primaries {{ 127.0.0.1 port {primary}{key}; }}; }};
"""
ALLOWED = {"all": "any", "deny": "none", "signed": f'key "{KEY}"'}
NSD = """server:
  server-count: 1
  ip-address: 127.0.0.1
  port: {port}
  username: ""
  database: ""
  zonesdir: "{folder}"
  zonelistfile: "{folder}/zone.list"
  pidfile: ""
  xfrdfile: "{folder}/xfrd.state"
  xfrdir: "{folder}"
  logfile: "{folder}/log"
  verbosity: 2
  minimal-responses: no
  round-robin: no
remote-control:
  control-enable: no
key:
  name: "{key}"
  algorithm: hmac-sha256
  secret: "{secret}"
"""
NSD_ZONE = """zone:
  name: "{origin}"
  request-xfr: {way}127.0.0.1@{primary} {key}
  allow-notify: 127.0.0.1 NOKEY
"""
KNOT = """server:
  listen: 127.0.0.1@{port}
  rundir: "{folder}"
  tcp-remote-io-timeout: 20000
log:
  - target: "{folder}/log"
    any: info
database:
  storage: "{folder}"
key:
  - id: "{key}"
    algorithm: hmac-sha256
    secret: "{secret}"
remote:
  - id: plain
    address: 127.0.0.1@{primary}
  - id: signed
    address: 127.0.0.1@{primary}
    key: "{key}"
acl:
  - id: notify
    address: 127.0.0.1
    action: notify
template:
  - id: default
    storage: "{folder}"
    zonefile-sync: -1
    zonefile-load: none
    journal-content: none
    acl: notify
zone:
"""
KNOT_ZONE = """  - domain: "{origin}"
    master: {remote}
"""


def named_secondary(folder, port, primary, origins):
    with open(f"{folder}/conf", "w") as conf:
        conf.write(NAMED.format(folder=folder, port=port, key=KEY, secret=SECRET))
        for origin in origins:
            conf.write(NAMED_SECONDARY.format(origin=origin, primary=primary, key=f' key "{KEY}"' if POLICIES[origin] == "signed" else ""))
    return ["named", "-f", "-n", "1", "-L", f"{folder}/log", "-c", f"{folder}/conf"]


def nsd(folder, port, primary, origins):
    with open(f"{folder}/conf", "w") as conf:
        conf.write(NSD.format(folder=folder, port=port, key=KEY, secret=SECRET))
        for origin in origins:
            # (a signed question for IXFR gets an unsigned reply, after which NSD asks no more)
            its = {"way": "AXFR ", "key": KEY} if POLICIES[origin] == "signed" else {"way": "", "key": "NOKEY"}
            conf.write(NSD_ZONE.format(origin=origin, primary=primary, **its))
    return ["nsd", "-d", "-c", f"{folder}/conf"]


def knot(folder, port, primary, origins):
    with open(f"{folder}/conf", "w") as conf:
        conf.write(KNOT.format(folder=folder, port=port, primary=primary, key=KEY, secret=SECRET))
        for origin in origins:
            conf.write(KNOT_ZONE.format(origin=origin, remote="signed" if POLICIES[origin] == "signed" else "plain"))
    return ["knotd", "-c", f"{folder}/conf"]


@contextlib.contextmanager
def secondary(server, primary, origins):
    """The port where a secondary of these zones serves, and its folder."""
    with tempfile.TemporaryDirectory(prefix="transfers-") as folder:
        os.chmod(folder, 0o755)
        port = clients.free_port()
        with open(f"{folder}/said", "w") as said:
            run = subprocess.Popen(server(folder, port, primary, origins), stdout=said, stderr=said)
        try:
            yield port, folder
        finally:
            run.terminate()
            run.wait()


def has(port, origins):
    """The serial number of each zone that a server has, and the address that an update adds."""
    asked = [*([origin, "SOA", "norec"] for origin in origins), *[[NEW, "A", "norec"]] * (COMPANY in origins)]
    found = [next((line.split() for line in lines if line.startswith("answer: ")), None) for lines in clients.dig_keepopen(port, asked)]
    return [f"{name}: {'none' if words is None else words[7 if kind == 'SOA' else 5]}" for (name, kind, _), words in zip(asked, found)]


def settled(port, origins, wanted, with_named, seconds):
    """What a secondary has some seconds after it has what is expected, or after a minute."""
    for _ in range(300):
        time.sleep(0.2)
        if clients.agrees(has(port, origins), wanted, with_named):
            break
    time.sleep(seconds)
    return has(port, origins)


@contextlib.contextmanager
def named(folder, files):
    """The port where named serves all zones."""
    port = clients.free_port()
    os.chmod(folder, 0o755)
    with open(f"{folder}/conf", "w") as conf:
        conf.write(NAMED.format(folder=folder, port=port, key=KEY, secret=SECRET))
        for origin, file in files.items():
            conf.write(NAMED_PRIMARY.format(origin=origin, file=file, allowed=ALLOWED[POLICIES[origin]], key=KEY))
    with open(f"{folder}/log", "w") as log:
        run = subprocess.Popen(["named", "-g", "-n", "1", "-c", f"{folder}/conf"], stderr=log)
    try:
        clients.wait_for(f"{folder}/log", "all zones loaded")
        yield port
    finally:
        run.terminate()
        run.wait()


def notify(port):
    """Tells a secondary that two zones have changed (RFC 1996)."""
    for origin in CHANGED:
        told = dns.message.make_query(origin, "SOA", use_edns=False)
        told.set_opcode(dns.opcode.NOTIFY)
        told.flags |= dns.flags.AA
        dns.query.udp(told, "127.0.0.1", 20, port)


SECONDARIES = {"named": (named_secondary, rules.NAMED), "nsd": (nsd, rules.NSD), "knot": (knot, rules.KNOT)}
