"""What each piece of a TIE text and of an assembly source is, read without the grammars: by the forms of tokens in
docs/TIE-LANGUAGE.md and docs/ASSEMBLER.md, and the lists of reserved words and mnemonics that the pages have.

A piece is (start, end, kind). White space is in no piece. A malformed token is one piece of the kind `invalid`."""
import re
import string

KINDS_OF_WORDS = {
    "declaration": "state regfile queue table immediate_range function operation schedule format slot_opcodes".split(),
    "item": "wire assign use def".split(),
    "direction": "in out inout".split(),
    "stage": "Estage Mstage".split(),
    "function": "TIEadd TIEmul TIEmux".split(),
}
DIRECTIVES = ["byte", "word", "align"]
REGISTERS = [f"a{number}" for number in range(16)]
WORD = string.ascii_letters + string.digits + "_"
PRINTABLE = "\t\r\n" + "".join(map(chr, range(32, 127)))
BASES = {"h": string.hexdigits, "d": string.digits, "b": "01"}
OPERATORS = "== != <= >= << >> && || ? = < > + - * & | ^ ~ !".split()


# ---- what the pages list

def reserved_words(page):
    """The reserved words that docs/TIE-LANGUAGE.md lists."""
    sentence = re.search(r"These words are \*\*reserved\*\*:([^.]*)\.", page)
    return re.findall(r"`(\w+)`", sentence[1]) if sentence else []


def mnemonics(page):
    """The mnemonics of docs/INSTRUCTIONS.md: the first word of each row that begins with an instruction."""
    return re.findall(r"^\| `([A-Z][A-Z0-9]*)[ `]", page, re.MULTILINE)


# ---- TIE texts

def tie(text, _mnemonics):
    """The pieces of a TIE text."""
    at = 0
    while at < len(text):
        if text[at] in " \t\r\n":
            at += 1
            continue
        end, kind = tie_piece(text, at)
        if kind == "comment":
            yield from comment_pieces(text, at, end)
        else:
            yield at, end, kind
        at = end


def tie_piece(text, at):
    """Where the piece ends that begins at a place, and its kind."""
    if text.startswith("//", at):
        return until(text, at, "\n"), "comment"
    if text.startswith("/*", at):
        close = text.find("*/", at + 2)
        return (len(text) if close < 0 else close + 2), "comment"
    if text[at] in string.ascii_letters:
        return tie_word(text, at)
    if text[at] in string.digits:
        return tie_number(text, at)
    if text[at] in "{}()[],;:":
        return at + 1, "punctuation"
    for operator in OPERATORS:
        if text.startswith(operator, at):
            return at + len(operator), "operator"
    return at + 1, "invalid"


def comment_pieces(text, start, end):
    """A comment, without the bytes that no text may have; these are pieces of their own."""
    for at in range(start, end):
        if text[at] != "\n":
            yield at, at + 1, "comment" if text[at] in PRINTABLE else "invalid"


def tie_word(text, at):
    """A word: reserved, a name, or too long."""
    end = after(text, at, WORD)
    if end - at > 32:
        return end, "invalid"
    for kind, words in KINDS_OF_WORDS.items():
        if text[at:end] in words:
            return end, kind
    return end, "name"


def tie_number(text, at):
    """A Number or a Sized; malformed ones end after the `'` or the `0x`."""
    if text.startswith("0x", at):
        end = after(text, at + 2, string.hexdigits)
        return end, fits(end - at - 2, 1, 32)
    end = after(text, at, string.digits)
    if not text.startswith("'", end):
        return end, fits(end - at, 1, 39)
    base, first = text[end + 1:end + 2], text[end + 2:end + 3]
    if base not in list(BASES) or first not in list(BASES[base]):
        return end + 1, "invalid"
    end = after(text, end + 2, BASES[base] + "_")
    return end, fits(end - at, 1, 200 if base == "b" else 64)


# ---- assembly sources

def assembly(text, names):
    """The pieces of an assembly source, given the mnemonics."""
    start = 0
    for line in text.split("\n"):
        before = []
        for at, end, kind in line_pieces(line):
            if kind == "word":
                kind = word_kind(line, at, end, before, names)
            yield start + at, start + end, kind
            before.append(line[at:end])
        start += len(line) + 1


def line_pieces(line):
    """The pieces of a line. What a word is called by its place isn't judged yet."""
    at = 0
    while at < len(line):
        if line[at] in " \t" or line[at:] == "\r":
            at += 1
            continue
        end, kind = assembly_piece(line, at)
        yield at, end, kind
        at = end


def assembly_piece(line, at):
    """Where the piece ends that begins at a place, and its kind."""
    if line[at] == "#":
        return len(line), "comment"
    if line[at] in string.ascii_letters + "_":
        end = after(line, at, WORD)
        return end, "word" if end - at <= 32 else "invalid"
    if line.startswith("0x", at):
        end = after(line, at + 2, string.hexdigits)
        return end, "number" if end > at + 2 else "invalid"
    if line[at] in string.digits + "-":
        end = after(line, at + 1, string.digits)
        return end, "invalid" if line[at:end] == "-" else "number"
    if line[at] == ".":
        end = after(line, at + 1, WORD)
        return end, "directive" if line[at + 1:end] in DIRECTIVES else "invalid"
    return at + 1, "punctuation" if line[at] in ",:;{}" else "invalid"


def word_kind(line, at, end, before, names):
    """The kind of a word, by its place and by the pieces before it on the line."""
    following = line[end:].lstrip(" \t")[:1]
    if not before and following == ":":
        return "label"
    if before and before[-1] not in ("{", ";", ":"):
        return "register" if line[at:end] in REGISTERS else "name"
    if following == "{":
        return "format"
    return "mnemonic" if line[at:end].upper() in names else "operation"


# ---- both

def fits(length, least, most):
    """A number, or malformed where its length is out of bounds."""
    return "number" if least <= length <= most else "invalid"


def after(text, at, characters):
    """The first place from one on that has none of the characters."""
    while at < len(text) and text[at] in characters:
        at += 1
    return at


def until(text, at, end):
    """The next place that has the character, or the text's end."""
    place = text.find(end, at)
    return len(text) if place < 0 else place
