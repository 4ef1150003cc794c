"""Other servers of a zone file, those that are installed, on free ports of 127.0.0.1."""

import contextlib
import os
import shutil
import socket
import struct
import subprocess
import tempfile
import time

import counts
import generate
import replies

PATHS = os.environ.get("PATH", "") + ":/usr/sbin:/usr/local/sbin"

NSD = """server:
  ip-address: 127.0.0.1
  port: {port}
  username: ""
  chroot: ""
  zonesdir: "{folder}"
  database: ""
  pidfile: "{folder}/nsd.pid"
  xfrdfile: "{folder}/xfrd.state"
  zonelistfile: "{folder}/zone.list"
  logfile: "{folder}/log"
  minimal-responses: {minimal}
remote-control:
  control-enable: no
zone:
  name: example.com
  zonefile: "{zone}"
"""

KNOT = """server:
  rundir: "{folder}"
  listen: 127.0.0.1@{port}
database:
  storage: "{folder}"
log:
- target: stderr
  any: error
zone:
- domain: example.com
  storage: "{folder}"
  file: "{zone}"
  semantic-checks: off
"""

NAMED = """options {{ directory "{folder}"; pid-file none; session-keyfile none; listen-on port {port} {{ 127.0.0.1; }};
  listen-on-v6 {{ none; }}; recursion no; dnssec-validation no; check-names primary ignore; minimal-responses {minimal};
  rrset-order {{ order none; }}; }};
controls {{ }};
zone "example.com" {{ type primary; file "{zone}"; check-integrity no; }};
"""

# Servers: the program, its arguments, its configuration, and what is put into that.
SERVERS = {
    "NSD": ("nsd", ["-d", "-c"], NSD, {"minimal": "no"}),
    "NSD, minimal": ("nsd", ["-d", "-c"], NSD, {"minimal": "yes"}),
    "Knot": ("knotd", ["-c"], KNOT, {}),
    "named": ("named", ["-g", "-n", "1", "-c"], NAMED, {"minimal": "no"}),
    "named, minimal": ("named", ["-g", "-n", "1", "-c"], NAMED, {"minimal": "yes"}),
}


def free_port():
    with socket.socket() as probe:
        probe.bind(("127.0.0.1", 0))
        return probe.getsockname()[1]


def installed():
    """The names of the servers that are there."""
    return [name for name, (program, *_) in SERVERS.items() if shutil.which(program, path=PATHS)]


def receive(stream, count):
    octets = b""
    while len(octets) < count:
        some = stream.recv(count - len(octets))
        if not some:
            raise counts.Failed("a server closed the connection")
        octets += some
    return octets


def ask(stream, message):
    stream.sendall(struct.pack("!H", len(message)) + message)
    (length,) = struct.unpack("!H", receive(stream, 2))
    reply = receive(stream, length)
    if reply[:2] != message[:2]:
        raise counts.Failed("a reply has another identifier")
    return reply


def is_ready(port):
    """Whether the server answers for the zone."""
    with contextlib.suppress(OSError, counts.Failed), socket.create_connection(("127.0.0.1", port), 5) as stream:
        return ask(stream, generate.question(1, generate.ORIGIN, generate.TYPE_SOA))[3] & 15 == replies.NO_ERROR
    return False


@contextlib.contextmanager
def started(name, zone_file):
    """The process and the port of a server of a zone file; what else it starts is of the same session."""
    program, words, configuration, settings = SERVERS[name]
    with tempfile.TemporaryDirectory(prefix="peers.") as folder:
        os.chmod(folder, 0o755)
        shutil.copy(zone_file, f"{folder}/zone")
        port = free_port()
        with open(f"{folder}/conf", "w") as conf:
            conf.write(configuration.format(folder=folder, port=port, zone=f"{folder}/zone", **settings))
        with open(f"{folder}/output", "w") as output:
            path = shutil.which(program, path=PATHS)
            server = subprocess.Popen([path, *words, f"{folder}/conf"], stdout=output, stderr=output, stdin=subprocess.DEVNULL,
                                      start_new_session=True)
        try:
            until = time.time() + 60
            while not is_ready(port):
                if server.poll() is not None or time.time() > until:
                    raise counts.Failed(f"{name} doesn't serve the zone:\n{open(f'{folder}/output').read()[-2000:]}")
                time.sleep(0.1)
            yield server, port
        finally:
            server.terminate()
            server.wait()
