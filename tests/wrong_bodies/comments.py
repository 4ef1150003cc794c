r"""A source or a file of definitions without its comments.

In a source (`.rt`) a comment begins with `//` or `/*`, but not inside a string or a character:

>>> without_comments("let a = 1; // one\nlet b = 2; /* two /* and */ more */ let c = 3;", ".rt").split("\n")
['let a = 1;  ', 'let b = 2;   let c = 3;']
>>> kept = ['"http://a"', r'"\"//"', 'b"//"', '"/*"', 'r"//"', 'r#"a"//"#', "'\\'', \"//\" ", "'\"', \"//\" ", "b'\"', \"//\" "]
>>> [text for text in kept if without_comments(f"({text}, x) // y", ".rt") != f"({text}, x)  "]
[]
>>> without_comments("fn a<'a, 'b>(it: &'a str) {} // 'a'", ".rt"), without_comments("{ x' ≡ y' } // z'", ".rt")
("fn a<'a, 'b>(it: &'a str) {}  ", "{ x' ≡ y' }  ")

In a file of definitions (`.antt`) it begins with `{-`, or with `--` where a name could begin:

>>> without_comments('a--b = to-- "--" (c) -- d\n--e\n  f {- g {- h -} -- i -} j', ".antt").split("\n")
['a--b = to-- "--" (c)  ', ' ', '  f   j']
"""

import re

# What is skipped as one: a comment's beginning, a literal, a name, blanks, or else one character.
PIECES = {
    ".rt": re.compile(
        r"""(?P<line>//[^\n]*)|(?P<block>/\*)|[bc]?r(?P<marks>#*)".*?"(?P=marks)|[bc]?"(?:\\.|[^"\\])*\""""
        r"""|b?'(?:\\.[^'\n]*|[^'\\\n])'|\w[\w']*|\s+|.""",
        re.DOTALL,
    ),
    ".antt": re.compile(
        r"""(?P<line>--[^\n]*)|(?P<block>\{-)|"(?:\\.|[^"\\\n])*"|[^\s(){}.;,@"«»]+|\s+|.""",
        re.DOTALL,
    ),
}
BLOCKS = {".rt": re.compile(r"/\*|\*/"), ".antt": re.compile(r"\{-|-\}")}


def without_comments(text, kind):
    """A text of this kind, with a space in place of each comment."""
    pieces, at = [], 0
    while at < len(text):
        found = PIECES[kind].match(text, at)
        is_comment = found["line"] or found["block"]
        pieces.append(" " if is_comment else found[0])
        at = end_of_block(text, found.end(), kind) if found["block"] else found.end()
    return "".join(pieces)


def end_of_block(text, at, kind):
    """The offset after a block comment, which may have others inside, from the offset after its beginning."""
    depth = 1
    for found in BLOCKS[kind].finditer(text, at):
        depth += 1 if found[0] in ("/*", "{-") else -1
        if depth == 0:
            return found.end()
    return len(text)
