"""Lists as people have them, what `budlarem check` answers to them, and what `judge` says of them."""

import gzip
import itertools
import json
import os
import pathlib
import random
import re
import sys
import time
from typing import Iterator, Sequence

import budlarem
import pytest
from budlarem import Form, Halt, Judgement, Limits, Undecided, Verdict
from budlarem.normal_forms import forms_of
from support import TOP, read_blocks
from support.claims import with_other_number
from support.machines import CHAMPION, HALT, mixed_machines, uniform
from support.program import as_lines, decide_machines, on_terminal, options, replies, run_command
from support.program import run_package

FORMS = json.loads((TOP / "tests" / "support" / "forms.json").read_text(encoding="utf-8"))
DOCUMENT = "docs/budlarem.md"
LIMITS = (2_000, 512, 30, 1_000)
GREATEST = [highest for _, highest in Limits.RANGES.values()]
# How a machine may stand on a line.
AROUND = ["%s", "17. %s", "%s halt 6 4", "a,%s,b", "`%s`", "  %s\r", "x;%s;nonhalt", "| %s | %s |"]
AROUND += ["[%s](https://bbchallenge.org/%s)", "https://bbchallenge.org/%s"]


def test_columns(bb: str) -> None:
    """What is read of each form is a machine of the program, what is refused is none."""
    forms = ((form["line"], Form(form.get("form", "text"))) for form in FORMS["forms"])
    for reading in (reading for line, form in forms for reading in budlarem.read([line], form)):
        given = (reading.line if reading.machine is None else reading.machine) + "\n"
        reply = run_command([bb, "decide", "--steps=0"], given.encode("utf-8", "surrogateescape")).output
        assert reading.column == (int(reply.split()[1]) if reply.startswith(b"refused") else None)


def test_lists(tmp_path: pathlib.Path) -> None:
    """The command finds the form of each list, and prints it; judges each list as it says."""
    assert min(len(FORMS["lists"]), len(FORMS["judged"])) >= 15
    for entry in FORMS["lists"]:
        for name, form in {"read": entry["form"], "judge": entry.get("claims", entry["form"])}.items():
            error = run_package(name, "-", given=as_lines(entry["lines"])).error.decode()
            printed = re.search("form ([a-z]+)", error)
            assert (None if printed is None else printed[1]) == form, entry["lines"]
    for entry in FORMS["judged"]:
        (tmp_path / "words.txt").write_text(entry.get("words", ""), encoding="utf-8")
        more = ["--form", entry["form"]] if "form" in entry else []
        for role, column in entry.get("columns", {}).items():
            more += ["--steps-column" if role == "steps" else "--" + role, column]
        words = ["judge", "-", "--words", str(tmp_path / "words.txt"), *more]
        before = entry.get("times", 1) - 1
        found = run_package(*words, given=as_lines(entry["lines"][:1] * before + entry["lines"]))
        rows = [line.split("\t") for line in found.output.decode().splitlines()[before:]]
        assert [row[0] for row in rows] == entry["judgements"], entry
        assert {*entry.get("reasons", ())} <= {row[3] for row in rows}, entry
        assert entry.get("error", "") in found.error.decode(), entry
        assert (found.status == 2) == ("error" in entry), entry


def test_printed(tmp_path: pathlib.Path) -> None:
    """Commands that read a list print its form, skipped lines and encoding, and no control character."""
    lines = ["", "# c", "#17 1RA1RA", "\x1b[31mx", "1RB\x1b1LB_1LA1RZ", "1RA1RA\x1b[0m\x07, \x1b]0;x\x9b",
             "| Machine | x |", "1RA1RA, \x1b[31mred\x9b", "1RB1LB_1LA1RZ, halt 6 4"]  # fmt: skip
    given, wide, page = tmp_path / "list.txt", tmp_path / "wide.txt", str(tmp_path / "page.html")
    given.write_bytes(as_lines(lines))
    wide.write_bytes("\n".join(lines * 9).encode("utf-16"))
    readers: dict[str, list[str]] = dict.fromkeys(("read", "decide", "normal", "judge", "check"), [])
    for name, more in {**readers, "compare": [str(given)], "report": ["--out", page]}.items():
        status, output, error = run_package(name, str(given), *more)
        assert re.search(b"[\x00-\x08\x0b-\x1f\x7f]|\xc2[\x80-\x9f]", output + error) is None
        if name == "check":
            continue
        assert b"form text" in error and b"3 lines skipped: empty lines 1, comments 1" in error, (name, error)
        # A refused line is passed over.
        assert status == 1 and b"list.txt:3: refused: " in error, (name, error)
        assert name in ("compare", "report") or HALT.encode() in output.splitlines()[-1], (name, output)
        status, _, error = run_package(name, str(wide), *(more if name != "compare" else [str(wide)]))
        assert (status, error.count(b"UTF-16"), error.count(b"\n")) == (2, 2, 1), (name, error[:300])
    latin = "1RA1RA \u00e9\n1RA1RA \u00fc\n1RA1RA x\n".encode("latin-1")
    for name in ("read", "judge"):
        error = run_package(name, "-", given=latin).error
        assert error.count(b"UTF-8") == 1 and b"2 lines with bytes that are no UTF-8" in error, (name, error)
    error = run_package("judge", "-", "--list", str(given), given=b"1RA1RA\n").error
    assert b"list.txt: 3 lines skipped" in error and b"list.txt:3: refused: a machine in" in error


def test_translation(tmp_path: pathlib.Path) -> None:
    """The words' translation comes first, and a file changes it; numbers with groups are numbers."""
    table = ["machine,halts,steps,score", '%s,Yes,"47,176,870","4,098"' % CHAMPION]
    table += ["1RA1RA,no,,", "1RA1RA,NO,,", "1RA1RA,?,,"]
    path, plain, word_file = tmp_path / "table.csv", tmp_path / "plain.txt", tmp_path / "words.txt"
    path.write_bytes(as_lines(table))
    plain.write_bytes(as_lines([CHAMPION + " halt 47'176'870 4098"]))
    word_file.write_text("halting: yes\nnever halting: no\n", encoding="utf-8")
    given = ["--words", str(word_file)]
    page = str(tmp_path / "page.html")
    others: dict[str, list[str]] = {"judge": [], "compare": [str(plain)], "report": ["--out", page]}
    for name, more in others.items():
        lines = run_package(name, str(path), *more, *given).error.decode().splitlines()
        shown = [line.partition(": ")[2] for line in lines if line.startswith(str(path) + ": ")]
        assert shown[1:4] == ["halting: Yes 1", "never halting: no 1, NO 1", "nothing: ? 1"]
    for name, more in {**others, "compare": [str(path)]}.items():
        assert b"plain.txt: --words is for" in run_package(name, str(plain), *more, *given).error
    error = run_package("compare", str(path), str(plain), *given).error
    assert b"agree 1\n" in error and b"contradict 0\n" in error
    for file, right in ((given, b"confirmed confirmed confirmed not-judged"), ((), b"not-judged " * 4)):
        rows = run_package("judge", str(path), *file).output.splitlines()
        assert [row.partition(b"\t")[0] for row in rows] == right.split()


# Lines with a machine beside the name of a column.
NAMED = ["{{TM|%s|halt}}", "%s | tm", "TM,%s", "! %s !! machine", "| %s || code"]


@pytest.mark.parametrize("line", [line % "1RB1LB_1LA1RZ" for line in NAMED])
def test_lines_with_machines_are_no_headers(line: str) -> None:
    """Each has its verdict, and its refusal between two claims."""
    status, output, error = run_package("decide", given=as_lines([line]))
    assert (status, output.partition(b"\t")[0]) == (0, b"1RB1LB_1LA1RZ halt 6 4")
    assert b"skipped" not in error
    claims = ["1RB1LB_1LA1RZ halt 6 4", line, "1RA1RA translated R 1 2"]
    error = run_package("compare", "-", "/dev/null", given=as_lines(claims)).error
    assert b"standard input:2: refused: the rest of the line" in error


def test_fields_are_kept_as_they_came() -> None:
    for line in ('1RA1RA,"a,b",c', '1RA1RA,a,"b,c"', '1RA1RA;"a""b";', "1RA1RA\t'a'\t\t b"):
        output = run_package("decide", given=as_lines(["machine,x", line])).output.decode()
        assert output == "1RA1RA translated R 1 2 1 1\t%s\n" % line[7:]


def test_long_records_are_refused(tmp_path: pathlib.Path) -> None:
    """None is judged by a part of it; shorter ones are read whole."""
    path = tmp_path / "long.csv"
    record = "1RB1LB_1LA1RZ,halt,%s,6000"
    for length, judgement in ((65_540, "unreadable"), (20_000, "unreadable"), (16_000, "contradicted")):
        padding = "x" * (length + 3 - len(record))
        path.write_bytes(as_lines(["machine,verdict,x,steps", record % padding, "1RB1LB_1LA1RZ,halt,,6"]))
        rows = run_package("judge", str(path)).output.decode().splitlines()
        assert [row.split("\t")[0] for row in rows] == [judgement, "confirmed"]
        status, output, _ = run_package("decide", str(path))
        assert output.startswith(b"refused" if length > 16_384 else b"1RB1LB_1LA1RZ halt 6 4")
    verdict = "1RB1LB_1LA1RZ halt 6 4\t" + "x" * 70_000
    assert run_package("judge", "-", given=as_lines([verdict])).output.startswith(b"unreadable\t1\t")


@pytest.mark.parametrize("path", ["/dev/zero", "/dev/urandom"])
def test_words_that_never_end(path: str) -> None:
    status, _, error = run_package("judge", "-", "--words", path, given=b"machine,verdict\n1RA1RA,x\n")
    assert (status, error.count(b"\n")) == (2, 1)


@pytest.mark.timing
def test_empty_lines(tmp_path: pathlib.Path) -> None:
    """Five million empty lines cost `judge` and `compare` at most what `read` costs, beside the process."""
    path, single = tmp_path / "empty.txt", tmp_path / "single.txt"
    path.write_bytes(b"\n" * 5_000_000)
    single.write_bytes(b"1RA1RA translated R 1 2 1 1\n")
    spent: dict[str, float] = {}
    commands: dict[str, list[str]] = {"read": [], "judge": [], "compare": [str(single)]}
    for name, others in commands.items():
        before = os.times().children_user
        assert run_package(name, str(path), *others).status in (0, 1)
        spent[name] = os.times().children_user - before
    print("5,000,000 empty lines: %s" % {name: round(took, 2) for name, took in spent.items()})
    assert max(spent.values()) <= spent["read"] + 0.3
    assert spent["read"] < 30 * 1.5


def lines_in_some_form(count: int) -> Iterator[tuple[str, str]]:
    source = random.Random(1)
    for machine in mixed_machines(count, 1):
        text = source.choice(("_", "_", " ", "")).join(machine.split("_"))
        if source.random() < 0.2:
            text = text.replace("---", "...")
        if source.random() < 0.2 and machine.count("_") < 7:
            text = text.replace("Z", "H")
        if source.random() < 0.2:
            text = text.lower()
        around = source.choice(AROUND)
        yield machine, around % ((text,) * around.count("%s"))


@pytest.mark.parametrize("count", [2_000, pytest.param(20_000, marks=pytest.mark.slow)])
def test_random_forms(count: int) -> None:
    """Random machines in random forms come back as they were, or are refused."""
    back = 0
    for machine, line in lines_in_some_form(count):
        if not machine.strip("-_") and line.startswith("|"):  # A table's rule.
            continue
        (reading,) = budlarem.read([line])
        # The one form in which the program itself reads another machine.
        joined = machine.replace("_", "")
        is_other = line.strip().startswith(joined) and budlarem.is_machine(joined)
        assert reading.machine in (joined if is_other else machine, None), line
        back += reading.machine == machine
    assert back > 0.6 * count


def test_read(bb: str, tmp_path: pathlib.Path) -> None:
    """`budlarem read` writes what `read` reads, out of a file, a gzip and standard input."""
    lines = [line for _, line in lines_in_some_form(2_000)]
    readings = list(budlarem.read(lines))
    right = as_lines([reading.machine for reading in readings if reading.machine is not None])
    refused = [reading for reading in readings if reading.machine is None]
    plain, packed = tmp_path / "list.txt", tmp_path / "list.txt.gz"
    plain.write_bytes(as_lines(lines))
    packed.write_bytes(gzip.compress(as_lines(lines)))
    for name, given in ((str(plain), b""), (str(packed), b""), ("-", as_lines(lines))):
        status, output, error = run_package("read", name, given=given)
        assert (status, output) == (1, right)
        shown, printed = "standard input" if name == "-" else name, error.decode("utf-8", "surrogateescape")
        for one in refused[:50]:
            assert "%s:%d: refused: %s" % (shown, one.number, one.reason) in printed
        assert len(printed.splitlines()) > len(refused), name
    decided = run_command([bb, "decide", *options(LIMITS)], right)
    assert b"refused" not in decided.output
    assert run_package("decide", *options(LIMITS), given=right)[:2] == (0, decided.output)


def test_check(bb: str, rng: random.Random, tmp_path: pathlib.Path) -> None:
    """The answers are the program's, at small limits and at the greatest; counts and status tell of them."""
    verdicts = list(map(str, verdicts_of(1_000)))
    lines = [*(with_other_number(verdict, rng) for verdict in verdicts), *verdicts, "x", "refused 3"]
    given = as_lines(lines)
    for row in (LIMITS, GREATEST):
        right = run_command([bb, "check", *options(row)], given)
        (tmp_path / "claims.txt.gz").write_bytes(gzip.compress(given))
        for asked, more in (([str(tmp_path / "claims.txt.gz")], b""), (["--threads", "3"], given)):
            words = asked if row is GREATEST else [*asked, *options(row)]
            status, output, error = run_package("check", *words, given=more)
            assert (status, output) == right[:2]
            # Standard error has the counts and the first line that isn't confirmed.
            answers, printed = right.output.decode().splitlines(), error.decode()
            kinds = ("ok", "bad", "over", "open", "unread")
            assert ", ".join("%s %d" % (kind, answers.count(kind)) for kind in kinds) in printed
            place = next(place for place, answer in enumerate(answers) if answer not in ("ok", "open"))
            assert (":%d: %s: %s" % (place + 1, answers[place], lines[place][:150])) in printed


def test_trace(bb: str) -> None:
    for machine in (*mixed_machines(5, 1), "1rB", ""):
        for more in (["--upto", "50"], ["--upto", "2000", "--cells", "7"]):
            right = run_command([bb, "trace", *more, "--", machine])
            assert run_package("trace", *more, "--", machine)[:2] == right[:2]


def verdicts_of(count: int) -> Sequence[Verdict]:
    """So many verdicts that claim something, on machines that have an entry."""
    machines = (machine for machine in mixed_machines(3 * count, 1) if machine.strip("-_"))
    verdicts = budlarem.decide(machines, Limits(*LIMITS), threads=2)
    return [verdict for verdict in verdicts if not isinstance(verdict, Undecided)][:count]


@pytest.mark.parametrize("count", [2_000, pytest.param(10_000, marks=pytest.mark.slow)])
def test_forged_claims(bb: str, rng: random.Random, count: int) -> None:
    """True claims are confirmed, and of forged ones just those that the program confirms."""
    claims, limits = list(map(str, verdicts_of(count))), Limits(*LIMITS)
    judged = budlarem.judge(claims, limits=limits, threads=2)
    assert {one.judgement for one in judged} == {Judgement.CONFIRMED}
    lines = [with_other_number(claim, rng) for claim in rng.sample(claims, len(claims))] + claims
    answers = replies([bb, "check", *options(GREATEST)], lines)
    judging = budlarem.judge(lines, limits=limits, undefined_steps=False, threads=2)
    right = ["confirmed" if answer == "ok" else "contradicted" for answer in answers]
    missed = [row for row in zip(lines, right, judging) if str(row[2].judgement) != row[1]]
    assert not missed, missed[:3]
    assert answers[: len(claims)].count("bad") > 0.8 * len(claims)


@pytest.mark.parametrize("line", ["17,%s,%s", "17;%s;%s", "17\t%s\t%s", "| 17 | %s | %s |"])
def test_words(line: str, rng: random.Random) -> None:
    never = ["nonhalt", "infinite", "cycler", "Translated Cyclers", "bouncers", "FAR"]
    words = never, ["halt", "halts", "halting"]
    for is_swapped, right in ((False, Judgement.CONFIRMED), (True, Judgement.CONTRADICTED)):
        lines = [line % ("machine", "verdict")]
        for verdict in verdicts_of(1_000):
            ends = words[isinstance(verdict, Halt) != is_swapped]
            lines.append(line % (verdict.machine, rng.choice(ends)))
        judging = budlarem.judge(lines, limits=Limits(*LIMITS))
        missed = [str(one) for one in judging if one.judgement is not right]
        assert not missed and len(lines) == 1_001, missed[:3]


def test_table() -> None:
    text = (TOP / DOCUMENT).read_text(encoding="utf-8")
    table = text.partition("| It says | Words |\n")[2].partition("\n\n")[0]
    words = {word for row in table.splitlines()[1:] for word in row.split("|")[2].replace(",", " ").split()}
    assert words == set(budlarem.WORDS)


def test_undefined_steps(bb: str) -> None:
    """Halts that count a step for an undefined entry are found out, and confirmed; the command says so."""
    verdicts = [verdict for verdict in verdicts_of(1_000) if isinstance(verdict, Halt)]
    machines = [verdict.machine.replace("---", "1RZ") for verdict in verdicts]
    more = decide_machines(bb, machines, *options((LIMITS[0] + 1, *LIMITS[1:])))
    lines = ["%s %s" % (verdict.machine, one) for verdict, one in zip(verdicts, more)]
    changed = sum(line != str(verdict) for line, verdict in zip(lines, verdicts))
    status, output, error = run_package("judge", "-", given=as_lines(lines))
    kinds = {line.split(b"\t")[0] for line in output.splitlines()}
    assert (status, kinds) == (0, {b"confirmed"}) and b"a step is counted for each ---" in error
    assert changed > 9
    mixed_lines = [*lines, next(str(v) for line, v in zip(lines, verdicts) if line != str(v))]
    for asked, count in ((["-"], changed), (["--undefined-steps", "-"], 1)):
        status, output, _ = run_package("judge", *asked, given=as_lines(mixed_lines))
        assert (status, output.count(b"contradicted\t")) == (1, count)


def test_forms_of_machines() -> None:
    """What has another form takes no longer than is asked."""
    machines = [uniform(random.Random(k), 4) for k in range(5_000)]
    began = time.process_time()
    forms = {form.text for form in forms_of(machines)}
    each = (time.process_time() - began) / len(machines)
    print("a form of a machine, of %d: %.1f us" % (len(machines), 1e6 * each), flush=True)
    assert each < 30 * 50e-6
    assert len(forms) > len(machines) / 2


def test_progress(tmp_path: pathlib.Path) -> None:
    """On a terminal the commands that take long tell how far they are, and leave nothing of it there."""
    lines = [CHAMPION + " halt 47176870 4098", "`1ra1ra` halts"]
    pair = "0RB---_0LA--- cycler 2 4000002"
    cases: dict[str, tuple[list[str], str]] = {
        "judge": (["--check-steps=1000"], " not-judged"),
        "check": ([], " ok"),
        "recurrence": ([], " recurs"),
        "publish": (["out.tar", "--verdicts"], "lines checked"),
    }
    for name, (more, word) in cases.items():
        given = tmp_path / (name + ".txt")
        few = as_lines([pair] if name == "recurrence" else lines[:1]) * 10
        given.write_bytes(as_lines(lines) * 100 if name == "judge" else few)
        words = [word.replace("out.tar", str(tmp_path / "out.tar")) for word in more]
        with open(os.devnull, "wb") as output:
            asked = [sys.executable, "-m", "budlarem", name, *words, str(given)]
            rows = [row.split("\r") for row in on_terminal(asked, b"", output)[1].split("\n")]
        # The texts of progress, and what was left behind them.
        texts = [text for row in rows for text in row[:-1] if text.strip()]
        left = "\n".join(row[-1] for row in rows)
        assert any(word in text for text in texts) and max(map(len, texts)) < 80, (name, texts[:5])
        lines_left = left.count("\n") if name != "judge" else left.count("small letters read as capital ones")
        assert lines_left == {"judge": 100, "check": 1, "recurrence": 1, "publish": 0}[name]


def examples() -> Iterator[tuple[str, str]]:
    for block in itertools.chain.from_iterable(read_blocks(DOCUMENT).values()):
        for part in re.split(r"^\$ ", block, flags=re.MULTILINE)[1:]:
            asked, _, written = part.partition("\n")
            yield asked, written.rstrip("\n")


def test_examples(programs: pathlib.Path, tmp_path: pathlib.Path, monkeypatch: pytest.MonkeyPatch) -> None:
    monkeypatch.chdir(tmp_path)
    shown = list(examples())
    assert len(shown) >= 4
    script = 'budlarem() { "%s" -m budlarem "$@"; }\n' % sys.executable
    for asked, written in shown:
        assert run_command(["sh", "-c", script + asked]).output.decode().rstrip("\n") == written
    for name in ("read", "check", "recurrence", "trace", "judge", "decide"):
        first, second = run_package("help", name), run_package(name, "--help")
        assert first[:2] == second[:2] and first.status == 0 and b"Column" in first.output, name
        assert all(len(line) < 80 for line in first.output.splitlines()), name
    assert run_package("help")[:2] == run_package("--help")[:2]


COSTS = """1RB1LB_1LA1RZ halt 6 4
0RB---_0LA--- cycler 2 4
0RB---_0LA--- backward 2 900
1RA1RA translated R 1 200 1 1
1RA1RA cycler 5 5
1RA1RA halt 1000000000001 1
refused 3
no verdict
1RA1RA cycler 1 1000000000000
"""


def test_cost_of_a_forged_claim() -> None:
    """Nothing is checked; the sums and the line are those that a reader adds up."""
    result = run_package("check", "--cost", given=COSTS.encode())
    expected = "standard input: at most 1,000,000,000,210 steps and 900 nodes; the most on line 9: 1,000,000,000,000\n"
    assert (result.status, result.output.decode(), result.error) == (0, expected, b"")
    few = run_package(
        "check", "--cost", "--steps", "100", "--nodes", "10", given=COSTS.encode() + b"x" * 5000
    )
    assert few.output.decode() == "standard input: at most 10 steps and 0 nodes; the most on line 1: 6\n"
    nothing = run_package("check", "--cost", given=b"refused 1\n\n")
    assert nothing.output == b"standard input: at most 0 steps and 0 nodes\n"


def test_cost_over_blocks(tmp_path: pathlib.Path) -> None:
    """The most expensive line is found in any block, and the first of equal ones is named."""
    lines = ["1RB1LB_1LA1RZ halt 6 4\n"] * 120_000
    lines[70_000] = lines[90_000] = "1RA1RA cycler 3 77\n"
    path = tmp_path / "list.gz"
    path.write_bytes(gzip.compress("".join(lines).encode()))
    result = run_package("check", "--cost", str(path))
    expected = "at most 720,142 steps and 0 nodes; the most on line 70,001: 77\n"
    assert (result.status, result.output.decode()) == (0, "%s: %s" % (path, expected))


def test_unreadable_lines_of_a_judged_list(tmp_path: pathlib.Path) -> None:
    """They are on standard error with file and number, and in the status; a refusal is read, and no such line."""
    path, halt = tmp_path / "claims.txt", "1RB1LB_1LA1RZ halt 6 4\n"
    path.write_text(halt + "1RB1LB_1LA1R halt 6 4\nrefused 3\n")
    status, output, error = run_package("judge", str(path), "--form", "verdicts")
    assert status == 1 and b"unreadable 2" in error and output.count(b"\n") == 3
    assert ["%s:2: refused: " % path in line for line in error.decode().splitlines()].count(True) == 1
    path.write_text(halt + "refused 3\n")
    status, _, error = run_package("judge", str(path), "--form", "verdicts")
    assert status == 0 and b"unreadable 1" in error and b"refused" not in error


@pytest.mark.parametrize(
    "lines, sentence",
    [
        (["1RB1LB_1LA1RZ"] * 2_000, "has machines and no verdicts; `budlarem decide` makes them"),
        (["machine,steps"] + ["1RB1LB_1LA1RZ,6"] * 2_000, "has no column of verdicts; name it by --verdict"),
    ],
)
def test_a_list_without_verdicts_is_one_error(
    tmp_path: pathlib.Path, lines: list[str], sentence: str
) -> None:
    path, page = tmp_path / "list.txt", tmp_path / "page.html"
    path.write_text("".join(line + "\n" for line in lines))
    for words in (["report", str(path), "--out", str(page)], ["compare", str(path), str(path)]):
        status, output, error = run_package(*words)
        assert (status, output, page.exists()) == (2, b"", False)
        assert len(error.splitlines()) < 5 and sentence in error.decode(), error
