"""Builds the machine of a text of entries, if there is one way to do so. The page's `machine-parser.mjs` is alike."""

from __future__ import annotations

import re
from typing import NamedTuple, Sequence, Union

from .._text import code_point, is_hidden, pluralize
from ..verdicts import MOST_SYMBOLS, STATES, is_machine
from .readings import Reason, Rewriting

# Machines of at most so many states have no state H, which may mean the halting state.
MOST_BEFORE_H = STATES.index("H")
ENTRY = re.compile(r"[0-9][LRlr][A-Za-z]|---|\.\.\.")
_LOST = re.compile(r"[0-9][LRlr][-_]")
# An entry that halts, where entries are words.
_HALT = re.compile(r"([0-9][LRlr])_")
_GROUP = re.compile(r"(?<![^_])[^_]*")


class Word(NamedTuple):
    """A word of a line, its index, and the place of the address around it."""

    begin: int
    text: str
    address: tuple[int, int] | None = None

    @property
    def end(self) -> int:
        return self.begin + len(self.text)


class Found(NamedTuple):
    """A machine as `bb` reads it, and the rewritings."""

    machine: str
    rewritten: frozenset[Rewriting] = frozenset()


Outcome = Union[Found, Reason]
# The words of a group, with an entry each or several.
Group = Sequence[Word]


def parse_word(word: Word) -> Outcome:
    """The machine of a word with `_` between its groups, or with one possible division."""
    if "_" in word.text and is_machine(word.text):
        return Found(word.text)
    parts = _GROUP.finditer(word.text)
    return parse_groups([[Word(word.begin + part.start(), part.group())] for part in parts])


def parse_groups(groups: Sequence[Group], *rewritten: Rewriting) -> Outcome:
    """The machine of these groups. A single one is divided, if one division makes a machine. `1R_` is read as
    `1RZ` if entries are words."""
    entries: list[list[Word]] = []
    kinds, count = set(rewritten), 0
    for number, group in enumerate(groups, 1):
        if not group[0].text:
            return Reason("empty-group", f"group {number} is empty", group[0].begin + 1)
        places = ((word, at) for word in group for at in range(0, len(word.text), 3))
        cut = [Word(word.begin + at, word.text[at : at + 3]) for word, at in places]
        if Rewriting.ENTRIES in rewritten and any(_HALT.fullmatch(entry.text) for entry in cut):
            kinds.add(Rewriting.HALTING_ENTRIES)
            cut = [Word(entry.begin, _HALT.sub(r"\1Z", entry.text)) for entry in cut]
        for entry in cut:
            count += 1
            if ENTRY.fullmatch(entry.text) is None:
                return _no_entry(entry, count, number < len(groups))
        entries.append(cut)
    text = "".join(entry.text for group in entries for entry in group)
    kinds |= {Rewriting.SMALL_LETTERS} if text != text.upper() else set()
    kinds |= {Rewriting.UNDEFINED_ENTRIES} if "..." in text else set()
    is_divided = len(entries) == 1 and Rewriting.ARRAYS not in kinds
    return _divide(entries[0], kinds) if is_divided else _machine(entries, kinds)


def _no_entry(entry: Word, number: int, is_followed: bool) -> Reason:
    """Why a text is no entry; `is_followed`: a `_` or a space follows its group."""
    place, text = entry.begin + 1, entry.text
    whole = text + "_" if len(text) == 2 and is_followed else text
    if _LOST.fullmatch(whole):
        what = f"entry {number} is {whole}: the {whole[0]} that it writes would be lost"
        return Reason("lost", what, place)
    hidden = next((at for at, character in enumerate(text) if is_hidden(character)), None)
    if hidden is not None:
        code = code_point(text[hidden])
        return Reason("hidden", f"entry {number} has {code}, a character that doesn't show", place + hidden)
    return Reason("entry", f"entry {number} is no entry: {text}", place)


def _divide(entries: list[Word], rewritten: set[Rewriting]) -> Outcome:
    """The machine of these entries, if one division into groups makes one."""
    count, place = len(entries), entries[0].begin + 1
    sizes = [count // states for states in range(1, len(STATES) + 1) if count % states == 0]
    outcomes: list[Outcome] = []
    for size in (size for size in sizes if 2 <= size <= MOST_SYMBOLS):
        groups = [entries[k : k + size] for k in range(0, count, size)]
        outcomes.append(_machine(groups, rewritten | ({Rewriting.UNDERSCORES} if size < count else set())))
    found = [outcome for outcome in outcomes if isinstance(outcome, Found)]
    if len(found) == 1 or len(outcomes) == 1:
        return (found or outcomes)[0]
    if not outcomes:
        what = pluralize(count, "entry", "entries")
        return Reason("division", f"{what} can't be divided into 1 to 25 groups of 2 to 10", place)
    how = f"to divide {count} entries into groups"
    if not found:
        return Reason("division", f"no way {how} makes a machine", place)
    return Reason("divisions", f"{len(found)} ways {how} make a machine", place)


def _machine(groups: Sequence[Group], rewritten: set[Rewriting]) -> Outcome:
    if (wrong := _wrong_size(groups)) is not None:
        return wrong
    entries = [entry for group in groups for entry in group]
    texts = [entry.text.upper().replace("...", "---") for entry in entries]
    letters = {text[2] for text in texts}
    if "H" in letters and "Z" not in letters and len(groups) <= MOST_BEFORE_H:
        texts, rewritten = [text.replace("H", "Z") for text in texts], rewritten | {Rewriting.HALTING_STATE}
    size = len(groups[0])
    for number, (entry, text) in enumerate(zip(entries, texts), 1):
        if (wrong := _wrong_entry(text, number, entry.begin, len(groups), size)) is not None:
            return wrong
    machine = "_".join("".join(texts[k : k + size]) for k in range(0, len(texts), size))
    return Found(machine, frozenset(rewritten))


def _wrong_size(groups: Sequence[Group]) -> Reason | None:
    """Why no machine has groups of these lengths, if so."""
    lengths = list(dict.fromkeys(map(len, groups)))
    if len(lengths) > 1:
        other = next(group for group in groups if len(group) != lengths[0])
        numbers = "%s and %d" % (", ".join(map(str, lengths[:-1])), lengths[-1])
        return Reason("groups", f"the groups have {numbers} entries", other[0].begin + 1)
    if not 2 <= lengths[0] <= MOST_SYMBOLS:
        what = pluralize(lengths[0], "entry", "entries")
        return Reason("symbols", f"the groups have {what}, not 2 to 10", groups[0][0].begin + 1)
    if len(groups) > len(STATES):
        place = groups[len(STATES)][0].begin + 1
        return Reason("states", f"there are {len(groups)} groups, not 1 to 25", place)
    return None


def _wrong_entry(entry: str, number: int, begin: int, states: int, symbols: int) -> Reason | None:
    """Why no machine of so many states and symbols has this entry, if so."""
    if entry == "---":
        return None
    if int(entry[0]) >= symbols:
        what = f"entry {number} writes {entry[0]}, but there are {symbols} symbols"
        return Reason("symbol", what, begin + 1)
    if entry[2] in STATES[:states] + "Z":
        return None
    if entry[2] == "H" and states <= MOST_BEFORE_H:
        return Reason("halting-state", "H: the halting state is Z here", begin + 3)
    there_are = "there is 1 state" if states == 1 else f"there are {states} states"
    return Reason("state", f"entry {number} names state {entry[2]}, but {there_are}", begin + 3)
