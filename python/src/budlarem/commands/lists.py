"""The commands over lists of claims: `check`, `recurrence`, `compare`, `report`, `judge`, `publish`."""

from __future__ import annotations

import argparse
import collections
import contextlib
import dataclasses
import functools
import os
import signal
import sys
from types import FrameType
from typing import BinaryIO, Iterator, Mapping

from .._text import escape_hidden, escape_message
from ..claim_lists import ListForm, RereadableList
from ..claims import Claims
from ..comparison import Agreement, compare
from ..engine import Call, answer_file, check_call, recurrence_call
from ..judging import Judgement, Judging, judge, translation_in
from ..limits import GREATEST, Limits, limits_of
from ..publishing import publish
from ..reading import Form
from ..list_files import BytesFile
from ..recurrence_claims import Exactness
from ..reports import report
from ..runner.progress import TerminalLine, short_count
from ..verdicts import Answer, Recurrence, Verdict
from ..verification import CheckSummary, cost_of_file
from .shared import ListReader, Subcommands, add_claims_form, add_command, add_file, add_limits, add_number
from .shared import add_passes, counts_text, greatest_limits, handle_signals, limits_in, source_of

_CHECK = """Checks verdict lines of any origin, and writes an answer to each line, the bytes of bb check: ok,
the claim holds; bad, it doesn't; over, it exceeds the limits, or its run needs more cells; open, it claims
nothing; unread, it is no verdict line. Standard error gets the counts at the end, and the first line that is
neither ok nor open, with the reason. Status 1 if there is one. FILE may be a gzip.

The check of a claim takes as many steps as it names, whatever the limits, so these are the greatest by default.
The tapes of each thread then take 134 MB. Pass --steps against claims of 10^12 steps, which take hours.

With --cost nothing is checked. The output is one line: the most steps and nodes that the check can take, and the
most expensive line with its steps and nodes. The status is 0."""


_RECURRENCE = """Finds the exact recurrence behind the pairs of verdict lines of any origin, and writes a reply to
each line, the bytes of the program recurrence. A pair that the checker confirms gets MACHINE recurs START PERIOD
SHIFT, and the last use of each state: a step, * for ever, or - never. ` quasihalts N` follows if one is a step; N
is the greatest plus 1. Other replies: bad, the pair isn't true; over, it exceeds the limits, or its run needs more
cells; open, no pair; unread, no verdict line. Steps count from 0; START and PERIOD are the least. A SHIFT to the
left is negative. With --entries, ` entries` and the last use of each entry follow, in the order of the table.

Standard error gets the counts at the end, and the first line with bad, over or unread, with the reason. Status 1 if
there is one. FILE may be a gzip. The limits are the greatest by default; the tapes of each thread then take
201 MB."""


def do_check(asked: argparse.Namespace) -> int:
    limits = greatest_limits(asked)
    if not asked.cost:
        return _write_replies(asked, check_call(limits), limits, str(Answer.OK))
    with contextlib.closing(BytesFile(source_of(asked.file))) as file:
        print(escape_message(cost_of_file(file, limits).sentence(file.name)))
    return 0


def do_recurrence(asked: argparse.Namespace) -> int:
    limits = greatest_limits(asked)
    return _write_replies(asked, recurrence_call(limits, asked.entries), limits, Recurrence.kind)


def _write_replies(asked: argparse.Namespace, call: Call, limits: Limits, confirmed: str) -> int:
    """Writes a call's replies to a file; `confirmed` names those to confirmed lines. Returns the status."""
    progress, summary = TerminalLine(), CheckSummary()
    names = {answer: confirmed if answer is Answer.OK else str(answer) for answer in Answer}
    with contextlib.closing(BytesFile(source_of(asked.file))) as file:
        for lines, replies in answer_file(file, call, limits, threads=asked.threads):
            summary.add(lines, replies)
            named = collections.Counter({names[answer]: count for answer, count in summary.counts.items()})
            progress.show(functools.partial(counts_text, named, [*names.values()]))
            sys.stdout.write(replies.decode())
    progress.clear()
    sys.stdout.flush()
    counts = ["%s %d" % (names[answer], summary.counts[answer]) for answer in Answer]
    counts += [] if confirmed == str(Answer.OK) else ["quasihalts %d" % summary.quasihalts]
    print(escape_message("%s: %s" % (file.name, ", ".join(counts))), file=sys.stderr)
    if summary.first is None:
        return 0
    print(escape_message(summary.first.sentence(file.name, limits)), file=sys.stderr)
    return 1


def add_check(commands: Subcommands) -> None:
    columns = [("answer", "ok, bad, over, open or unread")]
    check = add_command(commands, "check", do_check, "check verdict lines", _CHECK, columns)
    columns = [("reply", "MACHINE recurs START PERIOD SHIFT USE ..; bad, over, open or unread")]
    help = "the exact recurrence behind verdict lines"
    recurrence = add_command(commands, "recurrence", do_recurrence, help, _RECURRENCE, columns)
    for parser, names in ((check, [*Limits.RANGES]), (recurrence, ["steps", "cells"])):
        add_file(parser)
        add_limits(parser, names, are_greatest=True)
        add_number(parser, "--threads", "cores used", 1)
    help = "print the most that the check can cost, and check nothing"
    check.add_argument("--cost", action="store_true", help=help)
    recurrence.add_argument("--entries", action="store_true", help="add the last use of each entry")


_CLAIMS = """A list has verdict lines; or records (--form csv, tsv or table) with a column of verdicts, or of
words for halting beside columns of steps and scores, by a translation that is printed first; or lines whose other
words are one verdict. Records are detected by a header without a machine that names a column of machines, or by a
first one such as MACHINE,halt. A line without a verdict is printed on standard error with
file and number; status 1 then. A list of machines, or a table without a column of verdicts, is refused whole;
status 2 then."""
_COMPARE = """Compares two lists of verdicts by machine, in any order. Each machine on which they don't agree gets
a line; standard error gets the counts. Status 1 if two verdicts contradict each other.

%s"""
_REPORT = """Writes one HTML file on a list of verdicts: counts, distributions, the longest runs, and diagrams of
undecided machines.

%s"""


def read_verdicts(reader: ListReader) -> Iterator[Verdict]:
    """The verdict of each line of a list of claims that has one. Prints the translation of a table's words too.
    Raises OSError, ValueError."""
    source = RereadableList(reader.source, reader.form, reader.columns)
    reader.print_form(source.form)
    _require_verdicts(reader.name, source.form)
    try:
        translation = translation_in(source, reader.words, lambda what, lines: None)
    except ValueError as error:
        raise ValueError("%s: %s" % (reader.name, error)) from None
    reader.print_words(source.form, translation)
    claims = Claims(source, reader.words, is_last=True)
    for claim in claims:
        if claim.verdict is not None:
            reader.print_rewritten(claim.reading)
            yield claim.verdict
        elif claim.reading.machine is None:
            reader.refuse(claim.reading.number, str(claim.reading))
        else:
            why = claim.trouble or "no verdict of %s" % claim.reading.machine
            reader.refuse(claim.reading.number, "refused: %s" % why)
    reader.print_skips(claims.skips, claims.non_utf8_lines)


def _require_verdicts(name: str, form: ListForm) -> None:
    """Raises ValueError for a form without verdicts."""
    if form.form is Form.MACHINES:
        raise ValueError("%s has machines and no verdicts; `budlarem decide` makes them" % name)
    if form.layout is not None and "verdict" not in form.layout.columns and not form.layout.doubts:
        raise ValueError("%s has no column of verdicts; name it by --verdict" % name)


def do_compare(asked: argparse.Namespace) -> int:
    if asked.first == "-" == asked.second:
        raise ValueError("A and B can't both be standard input")
    counts: collections.Counter[Agreement] = collections.Counter()
    first, second = ListReader(asked.first, asked), ListReader(asked.second, asked)
    lists = (read_verdicts(reader) for reader in (first, second))
    for found in compare(*lists, undefined_steps=asked.undefined_steps):
        counts[found.agreement] += 1
        if found.agreement is not Agreement.AGREE:
            sys.stdout.write("%s\n" % found)
    sys.stdout.flush()
    for kind in Agreement:
        print("%s %d" % (kind, counts[kind]), file=sys.stderr)
    return 1 if counts[Agreement.CONTRADICT] else max(first.status, second.status)


def require_other_file(out: str, given: str | BinaryIO) -> None:
    """Raises ValueError if the output would replace the list."""
    with contextlib.suppress(OSError):
        listed = os.stat(given if isinstance(given, str) else given.fileno())
        if os.path.samestat(listed, os.stat(out)):
            raise ValueError("--out %s is the list itself, which would be replaced; give another name" % out)


def do_report(asked: argparse.Namespace) -> int:
    reader = ListReader(asked.file, asked)
    require_other_file(asked.out, reader.source)
    numbers = {name: getattr(asked, name) for name in ("diagrams", "steps", "cells", "threads")}
    title = asked.title or escape_hidden(os.path.basename(asked.file or "Verdicts"))
    report(read_verdicts(reader), asked.out, title=title, **numbers)
    return reader.status


def add_claims(commands: Subcommands) -> None:
    columns = [
        ("agreement", "first-decides, second-decides, contradict, only-first or only-second"),
        ("verdicts", "of A and of B, with ` | ` between them; - for none"),
    ]
    help = "compare two files of verdict lines"
    both = add_command(commands, "compare", do_compare, help, _COMPARE % _CLAIMS, columns)
    both.add_argument("first", metavar="A")
    both.add_argument("second", metavar="B")
    add_claims_form(both)
    both.add_argument("--undefined-steps", action="store_true", help="one of them counts --- as a step")
    page = add_command(commands, "report", do_report, "one HTML file on verdict lines", _REPORT % _CLAIMS)
    add_file(page)
    add_claims_form(page)
    page.add_argument("--out", required=True, metavar="PAGE.html")
    add_number(page, "--diagrams", "at most", 100)
    add_number(page, "--threads", "cores used (default: all)")
    page.add_argument("--title", help="default: the file's name")
    add_limits(page, ["steps", "cells"])


_JUDGE = """Judges a list of the claims of others, by the form of the list (`budlarem help read`). verdicts: each
line claims its verdict. table, csv, tsv: the words of a column say whether a machine halts, by a translation that
is printed first and that --words changes; for halting machines the columns of steps and score are judged too.
They are detected by a header without a machine that names a column of machines, or by a first record such as
MACHINE,halt. A cell with words beside its machine isn't judged.
text: a line makes a claim if its other words are one verdict. Nothing else is judged. Each machine is decided;
a claim that our verdict doesn't settle is checked. Standard error gets the form, the counts, and the rewritten,
unreadable and skipped lines of THEIRS. Status 1 if a line is contradicted or unreadable.

confirmed: the checker confirms the claim, or our verdict agrees with the word. contradicted: the checker
refutes the claim, or our verdict disagrees. not-judged: undecided here too, over the checker's limits, or the
line claims nothing by the form of the list. unreadable: no one machine.

Numbers may have groups of three digits, as 47,176,870.

Some lists count a step into ---. This is assumed, and printed, if THEIRS has a halt at a ---, and each such halt
is true of the machine with 1RZ there. --undefined-steps sets it beforehand.

In a table, columns of the start and the period of a recurrence are judged by the exact numbers (`budlarem help
recurrence`): exact; true, but later or a multiple; or false, with the right numbers. If our verdict has no pair,
theirs is checked as one. If all starts are later than the exact ones by one number, and are those of two machines
or more, that offset is printed and taken off. Mirror images and machines in other names count as one there.
--start-offset sets it beforehand.

With --list, the refused lines of LIST are printed as by `budlarem read`, and lines follow at the end: no-line,
for a machine of LIST without a line; not-listed, for a machine of THEIRS that isn't in LIST. Machines are the
same there up to the names of states and symbols, and left and right."""


def _print_counts(
    reader: ListReader,
    judging: Judging,
    counts: Mapping[Judgement, int],
    numbers: Mapping[Exactness | None, int],
) -> None:
    """Prints the findings on a judged list as a whole, and the counts."""
    reader.print_skips(judging.theirs.skips, judging.theirs.non_utf8_lines)
    if judging.undefined_steps:
        print("%s: a step is counted for each ---" % reader.name, file=sys.stderr)
    if judging.start_offset:
        print("%s: an offset of %d in each start" % (reader.name, judging.start_offset), file=sys.stderr)
    if parts := ", ".join("%s %d" % (kind, numbers[kind]) for kind in Exactness if numbers[kind]):
        print("%s: starts and periods: %s" % (reader.name, parts), file=sys.stderr)
    parts = ", ".join("%s %d" % (kind, counts[kind]) for kind in Judgement)
    print("%s: %s" % (reader.name, parts), file=sys.stderr)


def do_judge(asked: argparse.Namespace) -> int:
    if asked.theirs == "-" == asked.list:
        raise ValueError("THEIRS and LIST can't both be standard input")
    progress = TerminalLine()
    reader = ListReader(asked.theirs, asked, progress)
    listed = None if asked.list is None else ListReader(asked.list, None, progress)
    judging = judge(
        reader.source,
        None if listed is None else listed.readings(),
        limits=limits_in(asked),
        checker=dataclasses.replace(GREATEST, steps=asked.check_steps),
        undefined_steps=True if asked.undefined_steps else None,
        start_offset=asked.start_offset,
        threads=asked.threads,
        progress=lambda what, lines: progress.show(lambda: "%s lines %s" % (short_count(lines), what)),
        form=reader.form,
        columns=reader.columns,
        words=reader.words,
    )
    theirs = judging.theirs
    reader.print_form(theirs.form)
    reader.print_words(theirs.form, theirs.translation)
    counts: collections.Counter[Judgement] = collections.Counter()
    numbers: collections.Counter[Exactness | None] = collections.Counter()
    for judged in judging:
        counts[judged.judgement] += 1
        numbers[judged.exactness] += 1
        reader.print_rewritten(judged.claim.reading)
        if judged.claim.reading.reason is not None:
            reader.refuse(judged.number, str(judged.claim.reading))
        sys.stdout.write("%s\n" % judged)
        progress.show(lambda: counts_text(counts, Judgement))
    others = {"no-line": judging.missing(), "not-listed": judging.foreign()}
    progress.clear()
    if listed is not None:
        for word, numbered in others.items():
            sys.stdout.writelines("%s\t%d\t%s\n" % (word, *pair) for pair in numbered)
        parts = ", ".join("%s %d" % (word, len(numbered)) for word, numbered in others.items())
        print("%s: %s" % (listed.name, parts), file=sys.stderr)
    sys.stdout.flush()
    _print_counts(reader, judging, counts, numbers)
    return 1 if counts[Judgement.CONTRADICTED] else max(one.status for one in (reader, listed) if one)


def add_judge(commands: Subcommands) -> None:
    columns = [
        ("judgement", "confirmed, contradicted, not-judged or unreadable; no-line or not-listed"),
        ("number", "of the line in THEIRS, for no-line in LIST"),
        ("ours", "our verdict line; the line itself if it is unreadable"),
        ("reason", "what was confirmed or contradicted, and by what"),
    ]
    help = "judge the claims of others"
    judging = add_command(commands, "judge", do_judge, help, _JUDGE, columns)
    judging.add_argument("theirs", metavar="THEIRS", help="a list; - is standard input")
    judging.add_argument("--list", metavar="LIST", help="the machines that THEIRS should be of")
    add_claims_form(judging)
    judging.add_argument("--undefined-steps", action="store_true", help="they count a step for ---")
    help = "how much later than the exact start they give each start"
    add_number(judging, "--start-offset", help)
    add_limits(judging, Limits.RANGES)
    add_number(judging, "--check-steps", "the most steps of a claim", GREATEST.steps)
    add_number(judging, "--threads", "cores used", 1)


_PUBLISH = """Writes one archive of a decided list that others can check: the list, the verdicts, limits and
versions, the sha256 of each, a page that explains the lines, and recheck.py, a checker in plain Python. The
checker has to confirm each claim first, and each line of LIST has to have its verdict at the same place. Files
may be gzips; the archive has them uncompressed.

Of a run with --keep left, or a folder of `budlarem shards`, the archive has the lines that were kept, digests,
counts, and the commands to make the rest again.

Status 1 if a verdict isn't confirmed, 2 if something can't be published; nothing is written then."""


class _Signal(BaseException):
    """A signal that ends the process, once the half archive is removed."""


def _raise_signal(number: int, frame: FrameType | None) -> None:
    raise _Signal(number)


def do_publish(asked: argparse.Namespace) -> int:
    handle_signals(_raise_signal)
    try:
        with TerminalLine(is_beside=False) as progress:
            archive = publish(
                asked.out,
                asked.verdicts,
                asked.list,
                passes=[limits_of(words) for words in asked.passes or ()],
                limits=dataclasses.replace(GREATEST, steps=asked.steps),
                threads=len(os.sched_getaffinity(0)) if asked.threads is None else asked.threads,
                progress=lambda lines: progress.show(lambda: "%s lines checked" % short_count(lines)),
            )
        print(archive)
        return 0
    except _Signal as end:
        print("budlarem: %s: no archive is written" % signal.Signals(end.args[0]).name, file=sys.stderr)
        return 128 + int(end.args[0])


def add_publish(commands: Subcommands) -> None:
    columns = [("sha256", "of the archive"), ("name", "of the archive, a line for `sha256sum --check`")]
    help = "an archive that others can check"
    parser = add_command(commands, "publish", do_publish, help, _PUBLISH, columns, "two spaces")
    add = parser.add_argument
    add("out", metavar="OUT.tar", help="the archive; an existing file isn't replaced")
    help = "verdict lines, or the folder of `budlarem run` or `budlarem shards`"
    add("--verdicts", required=True, metavar="FILE", help=help)
    add("--list", metavar="LIST", help="the machines, one a line, in the order of the verdicts")
    help = "limits by which the verdicts were decided, for the readers; a run's folder has them"
    add_passes(parser, help)
    add_number(parser, "--steps", "the most steps of a claim", GREATEST.steps)
    add_number(parser, "--threads", "cores used (default: all)")
