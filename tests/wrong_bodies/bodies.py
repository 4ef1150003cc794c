"""Wrong bodies as files, the functions of a source, and which function a body changes."""

import os
import re

TOP = os.path.dirname(os.path.dirname(os.path.dirname(os.path.realpath(__file__))))

HEAD = re.compile(r"^( *)(?:pub(?:\([a-z]+\))? )?(?:const |unsafe )*fn (\w+)")
OPENS = re.compile(r"^(?:impl\b|(?:pub(?:\([a-z]+\))? )?trait\b)")
CONSTANT = re.compile(r"^(?:pub(?:\([a-z]+\))? )?(?:const|static) (?!unsafe fn|fn)")


def crate_names():
    """The crates that crates.txt names."""
    with open(f"{TOP}/crates.txt", encoding="utf-8") as lines:
        rows = [line.split("#")[0] for line in lines]
    return [row.split(":")[0].split()[0] for row in rows if ":" in row]


def text_of(path):
    with open(path, encoding="utf-8") as file:
        return file.read()


def edits_of(crate, folder="wrong-bodies"):
    """The files of a crate's wrong bodies, in order."""
    place = f"{TOP}/crates/{crate}/{folder}"
    names = sorted(os.listdir(place)) if os.path.isdir(place) else []
    return [f"{place}/{name}" for name in names if name.endswith(".edit")]


class Function:
    """A function of a source: its file, name, the head of its impl or trait, its lines, and whether callers see it. An impl
    itself stands as a function with no name, for what changes a constant of it."""

    def __init__(self, path, name, head, first, last, is_public):
        self.path, self.name, self.head = path, name, head
        self.first, self.last, self.is_public = first, last, is_public
        self.key = (path, head, name)

    def proved_as(self):
        """The end of the prover's path for it, or nothing for an impl itself."""
        modules = re.sub(r"^src/|\.rt$", "", self.path).split("/")
        of_trait, of_type = parts_of_head(self.head)
        if not self.head:
            return "::".join([*([] if modules in (["lib"], ["main"]) else modules), self.name])
        own = parameters_of(self.head)
        place = squeezed(of_type, own) + squeezed(of_trait, own) if of_trait else of_type
        return f"{place}::{self.name}" if self.name else ""

    def named_in(self, paths):
        """Those of the prover's paths, as NAME::MODULE::Type::function, that are this function's or a closure's in it."""
        modules = re.sub(r"^src/|\.rt$", "", self.path).split("/")
        modules = [] if modules in (["lib"], ["main"]) else modules
        of_trait, of_type = parts_of_head(self.head)
        if self.head and not of_trait:
            # Functions of a type stand under the type's module, wherever the impl is.
            tail = [of_type, self.name]
            return [it for it in paths if any(segments(it)[n : n + 2] == tail for n in range(len(segments(it))))]
        if not self.head:
            return [it for it in paths if segments(it)[: len(modules) + 1] == [*modules, self.name]]
        # The impl of a trait has one name: the type's words, then the trait's.
        inside = [(it, segments(it)[len(modules) :]) for it in paths if segments(it)[: len(modules)] == modules]
        inside = [(it, rest) for it, rest in inside if self.name in rest[1:2] or not self.name and is_of_impl(rest[1:])]
        own = parameters_of(self.head)
        exact = [it for it, rest in inside if rest[0] == squeezed(of_type, own) + squeezed(of_trait, own)]
        words = [squeezed(re.sub(r"<.*", "", it), own) for it in (of_type, of_trait)]
        return exact or [it for it, rest in inside if all(word in rest[0] for word in words)]


def is_of_impl(rest):
    """Whether a path ends with an impl itself, or with a constant of it."""
    return not rest or rest[0].isupper()


def segments(path):
    """The parts of a path of the prover's behind the crate, without parameters."""
    return [re.sub(r"<.*", "", it) for it in path.split("::")[1:]]


def squeezed(words, parameters):
    """A type or trait as the prover spells it in the name of an impl, as RefSliceU8: without the impl's parameters."""
    if words.startswith("("):
        return f"Tuple{words.count(',') + 1}" if words.strip("( )") else "Unit"
    words = re.sub(r"'\w+\s*|\bmut\b|\w+::", "", words).replace("&", " Ref ").replace("[", " Slice ")
    return "".join(it[0].upper() + it[1:] for it in re.findall(r"\w+", words) if it not in parameters)


def parameters_of(head):
    """The type parameters that an impl's head declares."""
    declared = re.match(r"impl\s*(<.*)", head)
    inside = declared[1][: len(declared[1]) - len(after_generics(declared[1]))] if declared else ""
    return re.findall(r"(?<![\w'])([A-Z]\w*)(?=\s*[:,>])", re.sub(r":[^,]*", ":", inside))


def parts_of_head(head):
    """The trait of an impl, or nothing, and its type; of a trait's own head, the trait."""
    head = re.sub(r"^(?:impl|(?:pub(?:\([a-z]+\))? )?trait)\b\s*", "", head)
    head = re.split(r"\bwhere\b|\{", after_generics(head))[0]
    of_trait, _, of_type = head.rpartition(" for ")
    # A type's `drop` is named as one of its own functions.
    if of_trait and of_trait != "Drop":
        return of_trait, of_type
    return "", (re.findall(r"\w+", re.sub(r"<.*", "", of_type.split(":")[0])) or [""])[-1]


def after_generics(head):
    """A head without the parameters in front of it."""
    depth = 0
    for at, sign in enumerate(head):
        depth += (sign == "<") - (sign == ">" and head[at - 1] != "-")
        if depth == 0:
            return head[at + 1 :].strip() if at else head
    return head


def functions_of(path, text):
    """The functions of a source in the kit's layout, where a body ends at the indentation of its head."""
    found, head, is_shared = [], "", False
    lines = text.split("\n")
    for at, line in enumerate(lines):
        if OPENS.match(line):
            end = next((n for n in range(at, len(lines)) if re.search(r"[{;}]\s*$", lines[n])), at)
            head = " ".join(it.strip() for it in lines[at : end + 1])
            is_shared = " for " in head or not head.startswith("impl")
            found.append(Function(path, "", head, at, last_line(lines, at, ""), False))
        elif line.startswith("}"):
            head, is_shared = "", False
        named = HEAD.match(line)
        if named:
            is_public = is_shared or bool(re.match(r" *pub (?!\()", line))
            found.append(Function(path, named[2], head, at, last_line(lines, at, named[1]), is_public))
    return found


def last_line(lines, at, indent):
    """The last line of the function whose head stands in a line: its closing brace, or the line before what comes next."""
    for n in range(at + 1, len(lines)):
        if lines[n] == indent + "}":
            return n
        if re.match(rf"{indent[4:]}\}}", lines[n]) or HEAD.match(lines[n]) and HEAD.match(lines[n])[1] == indent:
            return n - 1
    return at


def enclosing(functions, line):
    """The innermost function around a line, or else the next below, before whose head the line stands."""
    inside = [it for it in functions if it.first <= line <= it.last]
    below = [it for it in functions if it.first > line]
    if inside:
        return min(inside, key=lambda it: it.last - it.first)
    return min(below, key=lambda it: it.first) if below else None


class Body:
    """A wrong body: its changes as file, old text and new text, the functions that it touches, and why it can't be tried."""

    def __init__(self, crate, edit):
        self.crate, self.name = crate, os.path.basename(edit)[: -len(".edit")]
        self.changes, self.touched, self.fault = [], {}, ""
        path = old = None
        for line in text_of(edit).split("\n"):
            word, _, rest = line.partition(":")
            rest = rest.removeprefix(" ")
            if word == "file":
                path = rest.strip()
            elif word == "old":
                old = rest
            elif word == "new":
                self.changes.append((path, old, rest))
            elif line.strip() and not self.fault:
                self.fault = f"a line that is neither file, old nor new: {line.strip()[:60]}"
        if not self.fault:
            self.find_touched()

    def find_touched(self):
        texts = {}
        for path, old, new in self.changes:
            if path not in texts:
                place = f"{TOP}/crates/{self.crate}/{path}"
                texts[path] = text_of(place) if str(path).startswith("src/") and os.path.isfile(place) else ""
            text = texts[path]
            if not old or text.count(old) != 1:
                self.fault = f"an old text stands {text.count(old) if old else 0} times in {path}: {str(old).strip()[:60]}"
                return
            if CONSTANT.match(old):
                self.fault = f"no function is judged by a constant, so change one that reads it: {old.strip()[:60]}"
                return
            function = enclosing(functions_of(path, text), text[: text.index(old)].count("\n"))
            if function:
                self.touched[function.key] = function
            texts[path] = text.replace(old, new)
        if not self.touched:
            self.fault = "it changes no function"

    def applied(self, texts):
        """These texts with the body in place, or None where another body stands in its way."""
        made = dict(texts)
        for path, old, new in self.changes:
            text = made.get(path) or text_of(f"{TOP}/crates/{self.crate}/{path}")
            if text.count(old) != 1:
                return None
            made[path] = text.replace(old, new)
        return made
