#!/usr/bin/env python3
"""Narrow the pointers of LLVM IR, as text, from 64 bits to 32.

    python3 web/narrow.py WIDE NARROW

WebAssembly engines check bounds in software for 64-bit memory, but use guard pages for 32-bit memory, which
every browser with SIMD has. In memory each pointer keeps its 8 bytes: it is stored as a 64-bit number with a
zero upper half, and its lower half is loaded. The layout is unchanged. Addresses are equal below 4 GiB, the
end of 32-bit memory. Unknown forms of pointers are refused with exit status 1 and a message.
"""

import re
import sys
from typing import Iterator

TARGET = 'target triple = "wasm32-unknown-unknown"\n'
# Attributes of the original processor.
PROCESSOR = re.compile(r' "(?:probe-stack|stack-probe-size|target-cpu)"="[^"]*"')
# Strings and quoted names, with any content.
QUOTED = re.compile(r'c?"[^"]*"')
POINTER = re.compile(r"\bptr\b|ptrto|toptr")
# A pair of numbers or pointers, returned by a function.
PAIR = re.compile(r"\{ (ptr|i\d+), (ptr|i\d+) \}")

LOCAL = r"%[\w.]+"
NAME = r'@(?:[\w.]+|"[^"]*")'
NUMBER = r"(?:i\d+|<\d+ x i\d+>|\{ i\d+, i\d+ \})"
REST = r"(, align \d+(?:, !\w+ !\d+)*)"
WORDS = r"(?: (?:noundef|zeroext|immarg|readonly|writeonly|captures\(none\)))*"
ARGUMENT = r"(?:ptr|i\d+)%s(?: (?:%s|%s|-?\d+|true|false|null))?" % (WORDS, LOCAL, NAME)
ARGUMENTS = r"\((?:%s(?:, %s)*)?\)" % (ARGUMENT, ARGUMENT)
RESULT = r"(?:noundef )?(?:zeroext )?(?:void|ptr|%s)" % NUMBER
# Lines that stay the same: offsets count bytes, and pairs have no pointers any more.
SAME = [
    r"  %s = getelementptr (?:inbounds nuw )?i8, ptr %s, i64 (?:%s|-?\d+)" % (LOCAL, LOCAL, LOCAL),
    r"  %s = load (?:ptr|%s), ptr %s%s" % (LOCAL, NUMBER, LOCAL, REST),
    r"  store %s \S.*, ptr %s%s" % (NUMBER, LOCAL, REST),
    r"  (?:%s = )?call %s %s%s(?: #\d+)?" % (LOCAL, RESULT, NAME, ARGUMENTS),
    r"define (?:internal )?%s %s%s #\d+ \{" % (RESULT, NAME, ARGUMENTS),
    r"declare %s %s%s #\d+" % (RESULT, NAME, ARGUMENTS),
    r"  ret (?:ptr|%s) %s" % (NUMBER, LOCAL),
    r"  %s = icmp (?:eq|ne) ptr %s, (?:%s|null)" % (LOCAL, LOCAL, LOCAL),
    r"  %s = extractvalue \{ i\d+, i\d+ \} %s, [01]" % (LOCAL, LOCAL),
]
KNOWN = re.compile("|".join("(?:%s)" % form for form in SAME))


def replace_pairs(line: str) -> str:
    """Replace pointers in pairs by 64-bit numbers, their size in memory."""
    return PAIR.sub(lambda pair: pair[0].replace("ptr", "i64"), line)


# Rewritten lines, by the groups of their forms and a fresh name `%X`. A local pointer gets 8 bytes. Pointers
# are stored, and extracted from pairs, as 64-bit numbers.
CHANGED = {
    rf"  store ptr ({LOCAL}|{NAME}|null), ptr ({LOCAL}){REST}": [
        r"  %X = ptrtoint ptr \1 to i64",
        r"  store i64 %X, ptr \2\3",
    ],
    rf"  ({LOCAL}) = extractvalue (\{{ ptr, \w+ \}} {LOCAL}, 0|\{{ \w+, ptr \}} {LOCAL}, 1)": [
        r"  %X = extractvalue \2",
        r"  \1 = inttoptr i64 %X to ptr",
    ],
    rf"  ({LOCAL}) = alloca ptr, align 8": [r"  \1 = alloca i64, align 8"],
    rf"  ({LOCAL}) = ptrtoaddr ptr ({LOCAL}) to i64": [r"  \1 = ptrtoint ptr \2 to i64"],
}


def narrow_line(line: str, at: str) -> list[str]:
    """Return the lines that do the same with 32-bit pointers; `at` is a fresh name."""
    if not POINTER.search(QUOTED.sub('""', line)):
        return [line]
    for form, rewritten in CHANGED.items():
        found = re.fullmatch(form, line)
        if found:
            return [replace_pairs(found.expand(one.replace("%X", at))) for one in rewritten]
    same = replace_pairs(line)
    if not KNOWN.fullmatch(same):
        sys.exit("narrow: %s isn't known here" % line.strip()[:200])
    return [same]


def narrow(lines: Iterator[str]) -> Iterator[str]:
    """Yield the code with 32-bit pointers."""
    for count, line in enumerate(lines):
        if line.startswith("target triple"):
            yield TARGET
        elif not line.startswith("target datalayout"):
            for one in narrow_line(PROCESSOR.sub("", line.rstrip("\n")), "%%narrow.%d" % count):
                yield one + "\n"


def main() -> None:
    if len(sys.argv) != 3:
        sys.exit(__doc__)
    with open(sys.argv[1], encoding="ascii") as file:
        lines = list(narrow(file))
    with open(sys.argv[2], "w", encoding="ascii") as file:
        file.writelines(lines)


if __name__ == "__main__":
    main()
