"""Random lines of zone texts: records of every type that has a text, valid ones and those that are nearly so.

A line is put together of pieces. Where a piece means here another thing than dnspython reads in it, or is refused here alone, it
says so by a rule of the README's table: the piece also has the text that has our meaning for dnspython, or the cause by which it
is refused."""

import base64
import dataclasses
import string
import struct

ALPHABET = string.ascii_letters + string.digits
# (a word that begins with one of `"(@$` is special, and the other three end a word here or there)
PLAIN = ALPHABET + "!#%&'*+,-./:<=>?[]^_{|}~"
QUOTED = PLAIN + "@$();\t "
TYPES = {"A": 1, "NS": 2, "CNAME": 5, "SOA": 6, "PTR": 12, "HINFO": 13, "MX": 15, "TXT": 16, "AAAA": 28, "SRV": 33, "NAPTR": 35,
         "CERT": 37, "SSHFP": 44, "TLSA": 52, "SMIMEA": 53, "OPENPGPKEY": 61, "CSYNC": 62, "SVCB": 64, "HTTPS": 65, "CAA": 257,
         "ANAME": 65305}
# Types with a text that dnspython reads and we don't, and whether they are known here.
TEXTLESS = [("DS", "60485 5 1 2BB183AF5F22588179A53B0A98631FAD1A292118", True), ("DNAME", "a.example.", True),
            ("DNSKEY", "256 3 8 AQPSKmynfzW4kyBv015MUG2DeIQ3", True), ("NSEC3PARAM", "1 0 0 -", True), ("NSEC", "a.example. A", True),
            ("RP", "a.example. b.example.", False), ("LOC", "42 21 54 N 71 06 18 W -24m 30m", False),
            ("URI", '10 1 "ftp://ftp.example/"', False), ("SPF", '"v=spf1 -all"', False), ("TYPE65280", "\\# 2 0102", True)]
ORDER = ["FieldCount", "Owner", "Ttl", "Class", "UnknownType", "TypeNotLoaded", "Data", "NotReadBack"]


@dataclasses.dataclass
class Piece:
    """A text, the text that has our meaning for dnspython, the cause by which it is refused here, and the rules for both."""

    here: str
    there: str = None
    cause: str = None
    rules: tuple = ()

    def __post_init__(self):
        self.there = self.here if self.there is None else self.there


def refused(text, rule, cause="Data"):
    return Piece(text, text, cause, (rule,))


def read_as(text, there, rule):
    return Piece(text, there, None, (rule,))


def joined(pieces, between=" "):
    """One piece of several."""
    causes = [it.cause for it in pieces if it.cause]
    rules = dict.fromkeys(rule for it in pieces for rule in it.rules)
    cause = min(causes, key=ORDER.index) if causes else None
    return Piece(between.join(it.here for it in pieces), between.join(it.there for it in pieces), cause, tuple(rules))


@dataclasses.dataclass
class Line:
    """A line, the one that has our meaning for dnspython, why it is refused here, by which rules, and the data's octets where no
    text gives them to dnspython."""

    here: str
    there: str
    cause: str
    rules: tuple
    octets: bytes = None


class Maker:
    """Makes lines; `odd` is how often a piece is one of the odd ones."""

    def __init__(self, dice, odd=0.08):
        self.dice, self.odd = dice, odd
        self.octets = None

    def one(self, *choices):
        return self.dice.choice(choices)

    def one_of(self, *ways):
        return self.dice.choice(ways)()

    def is_odd(self, share=1):
        return self.dice.random() < self.odd * share

    def letters(self, alphabet, least, most):
        return "".join(self.dice.choice(alphabet) for _ in range(self.dice.randint(least, most)))

    def any_case(self, text):
        return "".join(self.dice.choice([it.lower(), it.upper()]) for it in text)

    # Fields.

    def number(self, bits):
        most = 2**bits - 1
        number = self.one(0, 1, most, self.dice.randint(0, most), self.dice.randint(0, min(most, 300)))
        if not self.is_odd():
            return Piece(self.one(str(number), str(number), str(number), f"00{number}"))
        return self.one(Piece(str(most + 1)), Piece(str(most * 1000)), Piece("-1"), Piece(f"+{number}"), Piece("1.0"), Piece("0x1f"),
                        Piece("1e3"), Piece("ten"), read_as(f'"{number}"', str(number), "quoted words"),
                        refused("\u0663", "digits alone"))

    def seconds(self, cause="Data"):
        """A time to live, or a time of SOA."""
        if not self.is_odd(0.5):
            units = self.dice.sample("wdhms", self.dice.randint(1, 3))
            with_units = "".join(f"{self.dice.randint(0, 20)}{self.any_case(it)}" for it in units)
            return Piece(self.one(str(self.dice.randint(0, 100_000)), "0", with_units))
        count = self.dice.randint(1, 99)
        return self.one(Piece("h"), Piece("1x"), Piece("1hh"), Piece("-1"), Piece("+1"), Piece("1.5h"), Piece("4294967296"),
                        Piece("7102w"), Piece("1h1h"), Piece("007s"), Piece("1h0"), Piece("h1"),
                        read_as(f"1w{count}", f"1w{count}s", "the last unit"), refused("\u0661h", "digits alone", cause))

    def ttl(self):
        if self.is_odd():
            return self.one(Piece("4294967295"), Piece("2147483648"), Piece("7101w"))
        return self.seconds("Ttl")

    def time(self):
        """A time of SOA that has a sign in its octets."""
        if self.is_odd():
            return self.one(Piece("2147483647"), refused("2147483648", "signed times"), refused("4294967295", "signed times"))
        return self.seconds()

    def label(self):
        first = self.dice.choice(ALPHABET + "_")
        return first + self.letters(ALPHABET + "_-", 0, self.one(3, 8, 20))

    def odd_name(self, rest, cause):
        """A name whose first label, or whose form, isn't an ordinary one."""
        sign = self.dice.choice("!#%&'+/:<=>?[]^{|}~,$@`")
        octet = self.dice.randint(0, 255)
        number = f"a\\{octet:03o}.{rest}", f"a\\{octet:03d}.{rest}"
        is_letter = chr(octet) in ALPHABET + "_-."
        escaped = read_as(*number, "octal escapes") if is_letter else refused(number[0], "letters of names", cause)
        longest = ".".join(["a" * 63] * 3)
        return self.one(
            escaped, escaped, escaped, Piece(f"a\\.b.{rest}"), Piece(f"\\a\\B.{rest}"), Piece(f"a\\_.{rest}"),
            Piece("a" * 63 + f".{rest}"), Piece("a" * 64 + f".{rest}"), Piece(f"{longest}.{'a' * 61}."),
            Piece(f"{longest}.{'a' * 62}."), Piece(f"a..{rest}"), Piece(f".{rest}"), Piece("." * 2),
            Piece(".".join("a" * 127) + "."), Piece(".".join("a" * 128) + "."), Piece(f"*.{rest}"), Piece("*."),
            Piece(f"a.*.{rest}"), refused(f"a{sign}b.{rest}", "letters of names", cause), refused(f"-a.{rest}", "letters of names", cause),
            refused(f"a*.{rest}", "letters of names", cause), refused(f"b\u00fccher.{rest}", "letters of names", cause),
            refused(f"a\\!.{rest}", "letters of names", cause), Piece(f"a\\400.{rest}"), Piece(f"a\\1.{rest}"),
            refused(f"a\\189.{rest}", "octal escapes", cause), refused(f"a\\081.{rest}", "octal escapes", cause))

    def name(self, least=0):
        """A name in data, fully qualified but where it is odd."""
        name = ".".join(self.label() for _ in range(self.dice.randint(least, 4))) + "."
        if not self.is_odd():
            return Piece(name)
        if self.dice.random() < 0.3:
            return self.one(Piece("www"), Piece("www.example"), Piece("192.0.2.1"), Piece(r"a\.b\."),
                            refused("@", "`@` and `$`"), refused("$a.example.", "`@` and `$`"))
        if self.dice.random() < 0.2:
            return read_as(f'"{name}"', name, "quoted words")
        return self.odd_name(f"{self.label()}.", "Data")

    def owner(self):
        if not self.is_odd(0.5):
            return Piece(".".join(self.label() for _ in range(self.dice.randint(0, 4))) + ".")
        return self.one(self.odd_name(f"{self.label()}.", "Owner"), Piece("www"), Piece("@"), refused('"a".', "letters of names", "Owner"))

    def quoted(self, text):
        return '"' + text.replace("\\", "\\\\").replace('"', '\\"') + '"'

    def escape(self):
        """An escape in quotes."""
        octet = self.dice.randint(0, 127)
        digit = read_as(f"\\{octet:03o}", f"\\{octet:03d}", "octal escapes")
        sign = self.dice.choice(string.ascii_letters + '"\\;.,(')
        if not self.is_odd():
            return self.one(digit, Piece("\\" + sign))
        return self.one(refused(f"\\{self.dice.randint(128, 255):03o}", "octal escapes"), read_as("\\128", "128", "octal escapes"),
                        read_as("\\019", "019", "octal escapes"), read_as("\\1x", "1x", "octal escapes"),
                        read_as("\\99x", "99x", "octal escapes"), Piece("\\400"))

    def string(self, limit=255):
        """A character string."""
        plain, quoted = self.letters(PLAIN, 1, 20), self.letters(QUOTED, 0, 20)
        if not self.is_odd():
            pieces = [Piece('"'), Piece(quoted), self.escape(), Piece(self.letters(QUOTED, 0, 3)), Piece('"')]
            return self.one(Piece(plain), Piece(plain), Piece(f'"{quoted}"'), joined(pieces, ""))
        longest = self.letters(ALPHABET, limit, limit) if limit else self.letters(ALPHABET, 256, 300)
        sign = self.dice.choice('abc."(),;\\ ')
        inner = f"{plain}\\{sign}x"
        return self.one(
            Piece(longest), Piece(f'"{longest}"'), Piece(f'{longest}x'), Piece(f'"{longest[1:]}\\""'), Piece('""'),
            Piece("gr\u00fc\u00df"), Piece('"gr\u00fc\u00df \u0663"'), refused("@", "`@` and `$`"), refused(f"${plain}", "`@` and `$`"),
            Piece(f"@{plain}"), Piece(f"a;{plain}"), Piece(")"),
            read_as(inner, self.quoted(inner), "`\\` outside quotes"), read_as(f"a\\101{plain}", f'"a\\\\101{plain}"', "`\\` outside quotes"),
            read_as(f'{plain}"b', self.quoted(f'{plain}"b'), "signs within a word"), read_as("a(b", '"a(b"', "signs within a word"), Piece("a)b"))

    def digits(self, text, odd):
        """Octets as base64 or hex, in one word or several."""
        if self.is_odd():
            return self.one(*odd, read_as(f'"{text}"', text, "quoted words"))
        cuts = sorted(self.dice.sample(range(1, len(text)), min(len(text) - 1, self.one(0, 0, 1, 3))))
        parts = [text[start:end] for start, end in zip([0, *cuts], [*cuts, None])]
        return Piece(" ".join(parts))

    def base64(self):
        octets = self.dice.randbytes(self.dice.randint(1, 60))
        text, rule = base64.b64encode(octets).decode(), "strict base64"
        odd = [Piece(base64.b64encode(octets + b"a" * (-len(octets) % 3) + b"b").decode().rstrip("=")), Piece("QQ="), Piece("Q"),
               refused("QR==", rule), refused(f"!{text}", rule), refused(text + "====", rule), refused("-_-_", rule), refused("QQ==QQ==", rule)]
        return self.digits(text, odd)

    def hex(self):
        text = self.dice.randbytes(self.dice.randint(1, 40)).hex()
        text = self.one(text, text.upper(), self.any_case(text))
        return self.digits(text, [Piece(text + "a"), Piece(f"0x{text}"), Piece(f"{text}g"), Piece("a b c")])

    def ipv4(self):
        numbers = [str(self.one(0, 1, 127, 255, self.dice.randint(0, 255))) for _ in range(4)]
        address = ".".join(numbers)
        if not self.is_odd():
            return Piece(address)
        return self.one(Piece(".".join(numbers[:3])), Piece("192.0.2.256"), Piece("192.0.2.01"), Piece(f"{address}."), Piece(f"{address}.1"),
                        Piece("192.0..1"), Piece("0xc0.0.2.1"), Piece("3221225985"), Piece("::1"), Piece("192.0.2.-1"), Piece("192.0.2.1/24"),
                        read_as(f'"{address}"', address, "quoted words"))

    def ipv6(self):
        groups = [f"{self.one(0, 0, 1, 0xffff, self.dice.randint(0, 0xffff)):x}" for _ in range(8)]
        start = self.dice.randint(0, 7)
        count = self.dice.randint(1, 8 - start)
        short = ":".join(groups[:start]) + "::" + ":".join(groups[start + count:])
        mapped = ":".join(groups[:6]) + ":192.0.2.1"
        if not self.is_odd():
            text = self.one(":".join(groups), short, mapped, "::", "::1", "::ffff:192.0.2.1", "64:ff9b::192.0.2.33", "2001:db8::00a1")
            return Piece(self.one(text, text.upper(), text))
        return self.one(Piece("1::2::3"), Piece(":1::"), Piece("1::2:"), Piece("12345::"), Piece("1:2:3:4:5:6:7"), Piece("1:2:3:4:5:6:7:8:9"),
                        Piece("1:2:3:4::5:6:7:8"), Piece("::1%eth0"), Piece("::192.0.2.256"), Piece("::192.0.2"), Piece("192.0.2.1::"),
                        Piece("1:2:3:4:5:6:7:192.0.2.1"), Piece("::g"), Piece(":::"), Piece(":"), Piece("00001::"), Piece("192.0.2.1"),
                        Piece("[::1]"), Piece("::192.0.2.01"), read_as('"::1"', "::1", "quoted words"))

    def flags(self):
        """Of NAPTR."""
        if self.is_odd():
            return refused(self.one('"s-"', "u!", '"a b"'), "flags of NAPTR")
        return Piece(self.one('""', '"s"', "u", '"A"', "P1"))

    def tag(self):
        """Of CAA."""
        if self.is_odd():
            return self.one(refused("a" * 16, "the tag of CAA"), refused("x" * 255, "the tag of CAA"), Piece("a" * 256), Piece("is-sue"), Piece('""'))
        return Piece(self.one("issue", "issuewild", "iodef", "a" * 15, '"issue"', "ISSUE", "tag9"))

    def csync(self):
        known = ["A", "NS", "AAAA", "MX", "TYPE1", "TYPE65535", "TYPE1234", "CAA", "RRSIG", "NSEC", "DS", "TXT"]
        types = [Piece(self.dice.choice(known)) for _ in range(self.dice.randint(0, 5))]
        if self.is_odd():
            types.append(self.one(refused("a", "types of CSYNC"), refused("type1", "types of CSYNC"), refused("LOC", "types of CSYNC"),
                                  Piece("FOO"), Piece("TYPE65536"), Piece("TYPE"), Piece("5")))
        flags = self.one(refused("4", "flags of CSYNC"), refused("65535", "flags of CSYNC"), Piece("x")) if self.is_odd() else \
            Piece(self.one("0", "1", "2", "3"))
        return [self.number(32), flags, *types]

    # Parameters of SVCB.

    def value(self, key, keys):
        """The text of a key's value, or None without one."""
        count = self.dice.randint(1, 4)
        if key == 0:
            return ",".join(key_text(it) for it in sorted(self.dice.sample(keys, self.dice.randint(1, len(keys)))))
        if key == 1:
            return ",".join(self.letters(ALPHABET + "-./", 1, 10) for _ in range(count))
        if key == 2:
            return None
        if key == 3:
            return str(self.one(0, 443, 65535, self.dice.randint(0, 65535)))
        if key == 4:
            return ",".join(self.ipv4().there for _ in range(count))
        if key == 5:
            return base64.b64encode(self.dice.randbytes(self.dice.randint(1, 30))).decode()
        if key == 6:
            return ",".join(self.ipv6().there for _ in range(count))
        return self.letters(PLAIN, 0, 20) or None

    def odd_parameters(self):
        """Words that are no parameters, or that are read in another way."""
        text, octet = self.letters(ALPHABET, 1, 8), self.dice.randint(0, 255)
        good = [
            f"alpn={'a' * 255}", "port=00443", 'port="443"', 'ipv4hint="192.0.2.1,192.0.2.2"', "ipv6hint=::1,::2", "ech=QQ==",
            'ech="QQ=="', "mandatory=port port=1", "mandatory=key700 key700=a", 'mandatory="port" port=1', "alpn=h2 no-default-alpn",
            'alpn=h2 no-default-alpn=""', "key65535=a", "key700", 'key700=""', f'key700="{text}"', "key700=a=b",
            f'key700="{text}\\"{text}"', "key700=a\\\\b", "key700=a\\b", "alpn=h2 ; port=1", "alpn=h2;port=1", "key700=\u00fc"]
        bad = [
            "alpn", "alpn=,h2", "alpn=h2,,h3", "alpn=h2,", 'alpn=""', f"alpn={'a' * 256}", "port", "port=65536", "port=-1", "port=0x1",
            'port=""', "ipv4hint", "ipv4hint=192.0.2.256", "ipv4hint=192.0.2.1,", "ipv4hint=::1", "ipv6hint=192.0.2.1", "ech",
            "ech=QQ=", "mandatory", "mandatory=foo", "no-default-alpn=x", "foo=bar", "foo", "=bar", "key", "keyx=1", "key65536=a",
            f"key700={text} key700={text}", "port=1 port=1", "key700=a\\400", "key700=a\\1", "alpn= h2", 'alpn= "h2"']
        other = [
            read_as('"alpn=h2"', "alpn=h2", "quoted words"), read_as("key07=a", "key7=a", "names of keys"),
            read_as("key1=h2", "alpn=h2", "names of keys"), read_as("key3=443", "port=443", "names of keys"),
            refused("ALPN=h2", "names of keys"), refused("alpn=h2 no_default_alpn", "names of keys"),
            refused("port=+1", "digits alone"), refused("port=\u0663", "digits alone"),
            read_as("alpn=a\\\\,b", "alpn=a" + "\\" * 8 + ",b", "escapes in ALPN"),
            read_as("alpn=a\\,b", "alpn=a" + "\\" * 4 + ",b", "escapes in ALPN"),
            read_as(f"key700=a\\{octet:03o}", f"key700=a\\{octet:03d}", "octal escapes"), refused("key700=a\\189", "octal escapes"),
            refused(f'key700="{text} b"', "blanks and `;` in values"), refused('alpn="h2 "', "blanks and `;` in values"),
            read_as(f'key700="{text};b"', f'key700=\\"{text}', "blanks and `;` in values")]
        return self.one(Piece(self.dice.choice(good)), Piece(self.dice.choice(bad)), self.dice.choice(other))

    def unread(self):
        """Parameters that fit no others, which dnspython reads in no text, and their octets."""
        return self.one((1, "no-default-alpn", parameter(2, b"")), (1, "mandatory=port", parameter(0, b"\0\3")),
                        (1, "mandatory=port,alpn alpn=h2 port=1", parameter(0, b"\0\3\0\1") + parameter(1, b"\2h2") + parameter(3, b"\0\1")),
                        (1, "mandatory=mandatory", parameter(0, b"\0\0")),
                        (1, "mandatory=port,port port=1", parameter(0, b"\0\3\0\3") + parameter(3, b"\0\1")),
                        (0, "alpn=h2 port=1", parameter(1, b"\2h2") + parameter(3, b"\0\1")))

    def parameters(self):
        keys = sorted(self.dice.sample([1, 3, 4, 5, 6, 7, 700, 65280, 65534, 65535], self.dice.randint(0, 4)))
        keys = sorted([2, *keys]) if 1 in keys and self.dice.random() < 0.3 else keys
        keys = [0, *keys] if keys and self.dice.random() < 0.3 else keys
        words = []
        for key in keys:
            text = self.value(key, [it for it in keys if it])
            text = f'"{text}"' if text and self.dice.random() < 0.2 else text
            words.append(key_text(key) + ("" if text is None else f"={text}"))
        return words

    def service(self):
        """The fields of SVCB and HTTPS."""
        priority, target, words = self.number(16), self.name(), self.parameters()
        if self.is_odd(4):
            return [Piece("1"), target, self.odd_parameters()]
        if self.is_odd():
            number, word, octets = self.unread()
            self.octets = struct.pack("!H", number) + b"\0" + octets
            return [Piece(str(number)), Piece("."), Piece(word, rules=("parameters together",))]
        if len(words) > 1 and self.is_odd():
            return [Piece("1"), target, *[refused(word, "keys in order") for word in words[::-1]]]
        if self.dice.random() < 0.2 or priority.there.strip("0") == "":
            return [Piece("0"), target]
        return [priority, target, *map(Piece, words)]

    # Types.

    def fields(self, kind):
        ways = {
            "A": lambda: [self.ipv4()], "AAAA": lambda: [self.ipv6()],
            "MX": lambda: [self.number(16), self.name()],
            "SOA": lambda: [self.name(), self.name(), self.number(32), self.time(), self.time(), self.time(), self.seconds()],
            "SRV": lambda: [self.number(16), self.number(16), self.number(16), self.name()],
            "HINFO": lambda: [self.string(), self.string()],
            "TXT": lambda: [self.string() for _ in range(self.one(1, 1, 2, 3, 4))],
            "NAPTR": lambda: [self.number(16), self.number(16), self.flags(), self.string(), self.string(), self.name()],
            "CAA": lambda: [self.number(8), self.tag(), self.string(None)],
            "CERT": lambda: [self.mnemonic(16, "PKIX"), self.number(16), self.mnemonic(8, "RSASHA256"), self.base64()],
            "CSYNC": self.csync, "OPENPGPKEY": lambda: [self.base64()],
            "SSHFP": lambda: [self.number(8), self.number(8), self.hex()],
            "TLSA": lambda: [self.number(8), self.number(8), self.number(8), self.hex()],
            "SVCB": self.service,
        }
        ways["SMIMEA"], ways["HTTPS"] = ways["TLSA"], ways["SVCB"]
        return ways.get(kind, lambda: [self.name()])()

    def mnemonic(self, bits, name):
        number = self.number(bits)
        if self.is_odd() or number.here.startswith("+"):
            return self.one(refused("+1", "digits alone"), refused(name, "numbers of CERT")) if bits == 16 else refused(name, "numbers of CERT")
        return number

    def type_word(self, kind):
        word = kind if self.dice.random() < 0.7 else self.any_case(kind)
        return Piece(self.one(word, word, word, f"TYPE{TYPES[kind]}", f"type0{TYPES[kind]}"))

    def class_word(self):
        if self.is_odd(0.2):
            return self.one(Piece("CH"), Piece("HS"), Piece("ANY"), Piece("I"), Piece("INN"), Piece("0"), refused("CLASS1", "the class", "Class"))
        return Piece(self.one("IN", "IN", "in", "In", "iN"))

    def kind_and_data(self):
        """The type and the fields of its data."""
        kind = self.dice.choice(list(TYPES))
        if not self.is_odd():
            return [self.type_word(kind), *self.fields(kind)]
        if self.dice.random() < 0.4:
            kind, data, is_known = self.dice.choice(TEXTLESS)
            return [refused(kind, "types without a text", "Data" if is_known else "UnknownType"), Piece(data)]
        return self.one_of(
            lambda: [Piece(self.one("FOO", "TYPE", "TYPE65536", "TYPEA", "TYPE-1", "A1")), Piece("192.0.2.1")],
            lambda: [refused(self.one("OPT", "SIG", "TYPE250", "TSIG", "type41"), "types of messages", "TypeNotLoaded"), Piece("x")],
            lambda: [self.type_word("A"), refused("\\# 4 c0000201", "types without a text")],
            lambda: [self.type_word(kind)],
            lambda: [self.type_word(kind), *self.alone(kind), self.more(kind)],
            lambda: [self.type_word(kind), *self.alone(kind)[:-1]])

    def alone(self, kind):
        """Fields that have a text for dnspython."""
        fields = self.fields(kind)
        self.octets = None
        return [Piece("1"), Piece(".")] if kind in ("SVCB", "HTTPS") else fields

    def more(self, kind):
        """A word after all fields, which some types take."""
        if kind in ("CERT", "OPENPGPKEY"):
            return self.one(refused("x", "strict base64"), read_as('""', "", "quoted words"))
        if kind in ("SSHFP", "TLSA", "SMIMEA"):
            return self.one(Piece("x"), read_as('""', "", "quoted words"))
        return self.one(Piece("x"), Piece("1"), Piece('""'), Piece('"a'))

    def arranged(self, data):
        """The data in one line: some of it in a list, and a comment after it."""
        if data and not any(it.rules for it in data) and self.dice.random() < 0.2:
            start = self.dice.randint(0, len(data))
            end = self.dice.randint(start, len(data))
            opens, closes = self.one(("(", ")"), ("(", ")"), ("( ", " )"), ("(\t", "\t)"))
            if self.is_odd():
                opens, closes = self.one(("(", ""), ("", " )"), ("( (", ") )"))
            rules = ("lists in lists",) if "( (" in opens else ()
            inside = joined(data[start:end])
            listed = Piece(opens + inside.here + closes, None, "Data" if rules else None, rules)
            data = [*data[:start], listed, *data[end:]]
        if self.dice.random() < 0.1:
            data = [*data, Piece(self.one("; a comment", ';"', "; (", ";"))]
        return joined(data, self.one(" ", " ", " ", "\t", "  "))

    def line(self):
        self.octets = None
        owner, ttl, klass = self.owner(), self.ttl(), self.class_word()
        kind, *data = self.kind_and_data()
        if self.dice.random() < 0.01:
            short = joined([owner, ttl, klass][:self.dice.randint(1, 3)])
            return Line(short.here, short.there, "FieldCount", short.rules)
        whole = joined([owner, ttl, klass, kind, self.arranged(data)], self.one(" ", " ", "\t", " \t "))
        front = self.one("", "", "", " ")
        return Line(front + whole.here, front + whole.there, whole.cause, whole.rules, self.octets)


def key_text(key):
    names = ["mandatory", "alpn", "no-default-alpn", "port", "ipv4hint", "ech", "ipv6hint"]
    return names[key] if key < len(names) else f"key{key}"


def parameter(key, octets):
    return struct.pack("!HH", key, len(octets)) + octets
