"""Text for messages: bounds of quoted lines, values and errors, and their escapes."""

import enum
import unicodedata

# The bytes of a line for the library: no machine or verdict line is longer, and each call gives the same answer
# to the start of a longer line as to all of it.
LONGEST_GIVEN = 1_024
# The characters of a line that is searched for a machine. The longest machine has 774.
LONGEST_LINE = 16_384
# The bytes of such a line: at most four a character.
BYTES_KEPT = 4 * (LONGEST_LINE + 1)
# The bytes without a newline from which on a list is refused: the line may never end.
LONGEST_UNENDED = 1 << 28
# The quoted characters of a text in a reason, which may quote two.
LONGEST_QUOTED = 60
# The quoted bytes of a reply: a run may print many.
LONGEST_OF_REPLY = 80
# The quoted characters of a wrong value, beside its place or type.
LONGEST_VALUE = 100
# The quoted characters of the line of a message: enough to find it.
LONGEST_SHOWN = 200
# The quoted characters of an error of other code.
LONGEST_OF_ERROR = 500

# Tab and newline stay, as separators of fields and lines. Bytes 80 to 9f that aren't UTF-8 decode to surrogates;
# some terminals read them as C1 controls.
_ESCAPES = {code: "\\x%02x" % code for code in (*range(0x20), *range(0x7F, 0xA0)) if chr(code) not in "\t\n"}
_ESCAPES.update({0xDC00 + code: "\\x%02x" % code for code in range(0x80, 0xA0)})
# Categories of characters without a glyph; spaces other than U+0020 are among them.
_CATEGORIES = ("Cc", "Cf", "Zl", "Zp", "Zs")
# Characters of other categories that are drawn as nothing or as a space.
_BLANK = "\u034f\u115f\u1160\u2800\u3164\uffa0" + "".join(map(chr, range(0xFE00, 0xFE10)))


class Words(enum.Enum):
    """An enumeration whose members print as their values."""

    def __str__(self) -> str:
        return str(self.value)


def escape_controls(text: str) -> str:
    r"""The text with each control character as `\x` and two hexadecimal digits. Tab and newline stay.

    >>> print(escape_controls("red \x1b[31m, return \r, delete \x7f, next line \x85"))
    red \x1b[31m, return \x0d, delete \x7f, next line \x85
    """
    return text.translate(_ESCAPES)


def is_hidden(character: str) -> bool:
    """Whether a character is invisible; a plain space isn't."""
    if character.isascii():
        return character < " " or character == "\x7f"
    return character in _BLANK or unicodedata.category(character) in _CATEGORIES


def code_point(character: str) -> str:
    """The code point of a character, as `U+200B`."""
    return "U+%04X" % ord(character)


def escape_hidden(text: str) -> str:
    r"""A text with each invisible character as `\x1b` or `U+200B`, as a name in a message.

    >>> print(escape_hidden("a\x1b[31m \u202etxt.b \u2028"))
    a\x1b[31m U+202Etxt.b U+2028
    """
    if text.isascii() and text.isprintable():
        return text
    pairs = ((one, escape_controls(one)) for one in text)
    return "".join(code_point(one) if one == other and is_hidden(one) else other for one, other in pairs)


def escape_message(text: str) -> str:
    """A message with its invisible characters escaped, so that it is one line. Tabs stay."""
    return "\t".join(map(escape_hidden, text.split("\t")))


def quote(text: str) -> str:
    r"""A text for a message: invisible characters as `\x1b` or `U+200B`; a long text cut."""
    text = escape_hidden(text)
    return text if len(text) <= LONGEST_QUOTED else text[: LONGEST_QUOTED - 2] + ".."


def pluralize(count: int, word: str, words: str) -> str:
    return "%d %s" % (count, word if count == 1 else words)
