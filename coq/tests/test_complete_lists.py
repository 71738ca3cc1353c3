"""Complete lists: the checker that Coq extracts answers as `cover` does, and wrong ones are noticed."""

import pathlib
import random
import re
from typing import Iterator, Sequence

import pytest
from support.claims import forge
from support.machines import spoil
from support.program import LIST_LIMITS, CommandResult, Decide, as_lines, options, run_command
from support.second_checker import COQ, Edit, build_wrong

# The most steps of a halt, by states and symbols: published values.
CHAMPIONS = {(2, 2): 6, (3, 2): 21, (2, 3): 38}
SIZES = ((2, 2), (3, 2), (2, 3))
WRONG = [
    Edit(name, "checker/ListChecker.v", *change)
    for name, *change in (
        ("asks for no order", "      if is_next t p M then", "      if true then"),
        ("leaves out an entry", "(S (used_states M)))) in\n  let root", "(used_states M))) in\n  let root"),
        ("leaves out moves to the left", "[] else to L w)\n    (seq", "[] else [])\n    (seq"),
        ("keeps the last halt", "(N.max (most_steps n) steps)", "steps"),
        ("assumes any machine", "(if is_assumed t M then", "(if true then"),
        ("counts an undecided line as decided", "all (undecided n + 1) (if", "all (undecided n) (if"),
        ("takes a halt at any step", "if is_stop (zstep M z) then if N.eqb", "if true then if N.eqb"),
        ("takes another size", "| None => is_blank M end", "| None => true end"),
        ("ends before the walk", "Some _, [] => true", "Some _, _ => true"),
        ("goes on below the last undefined entry", "if has_another M q (under z) then", "if true then"),
    )
]


WRONG_ON_SHARDS = [
    Edit(name, "checker/ListChecker.v", *change)
    for name, *change in (
        ("takes a shard of no line", "if N.leb 1 n then if", "if true then if"),
        ("takes more undecided lines than lines", "if N.leb u n then", "if true then"),
        ("takes more wide lines than undecided ones", "then N.leb g u else", "then true else"),
        ("takes any total", "if has_room (counted p) c then", "if true then"),
    )
]
MOST_LINES = 2**64 - 1
DIGEST = "0123456789abcdef" * 4
# Counts of a shard that no walk has.
BROKEN_COUNTS = ("0 5 9", "1 %d 7" % MOST_LINES, "0 0 0", "1 2 0", "5 2 3", "%d 0 0" % 2**64)
# The machines of two states and two symbols below the one without entries.
FIRST_FOUR = ("0RA---_------", "0RB---_------", "1RA---_------", "1RB---_------")


def recount(skeleton: Sequence[str], counts: str) -> list[str]:
    """A skeleton with these counts in the line of its shard."""
    return [re.sub(r"below \d+ \d+ \d+", "below " + counts, line) for line in skeleton]


def compare(cover: str, coq_cover: str, words: Sequence[str], given: bytes) -> CommandResult:
    """Require both checkers to answer a list alike, to the byte, and return the answer."""
    ours, theirs = run_command([cover, *words], given), run_command([coq_cover, *words], given)
    assert ours == theirs, (words, given[:200])
    return theirs


def break_line(line: str, source: random.Random) -> str:
    """Change a line's machine, its verdict, a number or a character, or cut it."""
    (forged,) = forge(source, [line], 1)
    undecided = "%s undecided %s" % (line.split(" ")[0], source.choice(["steps", "cells"]))
    return source.choice([undecided, spoil(source, line), *[forged] * 4])


def break_list(lines: Sequence[str], source: random.Random) -> list[str]:
    """Leave out, double, move, swap or change some line, mostly one of the first."""
    at = source.randrange(min(len(lines), source.choice([4, 40, 400, 4_000])))
    other = source.randrange(len(lines))
    swapped = list(lines)
    swapped[at], swapped[other] = swapped[other], swapped[at]
    changed = [*lines[:at], break_line(lines[at], source), *lines[at + 1 :]]
    left_out, doubled = [*lines[:at], *lines[at + 1 :]], [*lines[: at + 1], *lines[at:]]
    return source.choice([left_out, doubled, swapped, [*lines[:at]], [*lines, lines[at]], *[changed] * 3])


def earlier_halts(lines: Sequence[str]) -> Iterator[list[str]]:
    """Yield lists in which one machine halts a step too early, with the same score."""
    for at, line in enumerate(lines):
        machine, kind, *numbers = line.split(" ")
        if kind == "halt" and numbers[0] != "0":
            claim = "%s halt %d %s" % (machine, int(numbers[0]) - 1, numbers[1])
            yield [*lines[:at], claim, *lines[at + 1 :]]


@pytest.mark.parametrize("states, symbols", SIZES)
def test_complete_list_is_answered_alike(
    cover: str, coq_cover: str, decide_all: Decide, states: int, symbols: int
) -> None:
    done = compare(cover, coq_cover, LIST_LIMITS, as_lines(decide_all(states, symbols)))
    assert done.status == 0 and done.output.startswith(b"covers %d states %d symbols: " % (states, symbols))


@pytest.mark.parametrize(
    "given", [b"", b"\n", b"------ halt 0 0", b"------ halt 0 0\n\n", b"\xff\n", b"x" * 9_999]
)
def test_short_list_is_answered_alike(cover: str, coq_cover: str, given: bytes) -> None:
    compare(cover, coq_cover, [], given)


@pytest.mark.parametrize("count", [100, pytest.param(5_000, marks=pytest.mark.slow)])
def test_broken_lists_are_answered_alike(
    cover: str, coq_cover: str, decide_all: Decide, rng: random.Random, count: int
) -> None:
    refused = 0
    for k in range(count):
        broken = break_list(decide_all(*SIZES[k % len(SIZES)]), rng)
        words: list[str] = rng.choice([[], LIST_LIMITS, options((9, 8, 3, 9))])
        given = "\n".join(broken).encode("latin-1") + rng.choice([b"", b"\n"])
        refused += compare(cover, coq_cover, words, given).status
    assert refused > count // 2
    print("%d lists compared, %d of them refused" % (count, refused))


# Words by the exit status.
ENDS = {
    1: ["--below=------_------", "--below 0RB---_------"],
    2: ["--below 1rB1LB", "--below 1RC1LB_1LA1RZ", "--below 1RB1LA_1LA1RZ1", "--below=", "--cells 0"]
    + ["--steps 1000000000001", "--depth 10001", "--nodes 1000000000001", "--cells 1 --depth 2"],
}


@pytest.mark.parametrize("words, status", [(words, status) for status in ENDS for words in ENDS[status]])
def test_words_are_answered_alike(cover: str, coq_cover: str, words: str, status: int) -> None:
    assert compare(cover, coq_cover, words.split(" "), b"").status == status


@pytest.mark.parametrize("count", [0, 1, 9, 37])
def test_assumed_machines_are_counted_alike(
    cover: str, coq_cover: str, decide_all: Decide, tmp_path: pathlib.Path, count: int
) -> None:
    lines = decide_all(3, 2)
    undecided = [line.split(" ")[0] for line in lines if " undecided " in line]
    (tmp_path / "assumed").write_text("".join(machine + " nonhalt\n" for machine in undecided[:count]))
    done = compare(cover, coq_cover, ["--assume", str(tmp_path / "assumed")], as_lines(lines))
    assert done.output.endswith(b"; %d open, %d assumed\n" % (len(undecided) - count, count))


@pytest.mark.parametrize(
    "text", ["0RA--- nonhalts", "0RA---", "\n0RB--- nonhalt", "0RA--- nonhalt\r", " nonhalt"]
)
def test_wrong_file_of_assumed_machines_is_answered_alike(
    cover: str, coq_cover: str, tmp_path: pathlib.Path, text: str
) -> None:
    (tmp_path / "assumed").write_bytes(text.encode() + b"\n")
    done = compare(cover, coq_cover, ["--assume", str(tmp_path / "assumed")], b"------ halt 0 0\n")
    assert done.status == 2 and b"line %d of the file of --assume" % (text.count("\n") + 1) in done.error


def test_missing_file_is_answered_alike(cover: str, coq_cover: str) -> None:
    """The fault is the same line; the reason below it is for people, in the system's words."""
    ours, theirs = (run_command([program, "/no/such/file"]) for program in (cover, coq_cover))
    assert ours.status == theirs.status == 3 and ours.output == theirs.output == b""
    assert ours.error.splitlines()[0] == theirs.error.splitlines()[0] == b"cover: read failed"


@pytest.mark.parametrize("words", ["--stepz 1", "a b", "--skeleton --skeleton", "--below", "--steps x"])
def test_refused_words_have_the_same_status(cover: str, coq_cover: str, words: str) -> None:
    ours, theirs = run_command([cover, *words.split(" ")]), run_command([coq_cover, *words.split(" ")])
    assert ours.status == theirs.status == 2 and theirs.error and not theirs.output


def shard_lines(cover: str, lines: Sequence[str], root: str) -> tuple[list[str], list[str]]:
    """A list with the shard of a machine in one line, and the lines of this shard."""
    start = next(at for at, line in enumerate(lines) if line.startswith(root + " "))
    for end in range(start + 1, len(lines) + 1):
        done = run_command([cover, "--below=" + root], as_lines(lines[start:end]))
        if done.status == 0:
            counts = re.findall(rb"(\d+) (?:line|undecided|of)", done.output)
            line = "%s below %s %s" % (root, b" ".join(counts).decode(), "0123456789abcdef" * 4)
            return [*lines[:start], line, *lines[end:]], list(lines[start:end])
    raise AssertionError(root)


def test_shards_and_skeletons_are_answered_alike(
    cover: str, coq_cover: str, decide_all: Decide, rng: random.Random
) -> None:
    skeleton, shard = shard_lines(cover, decide_all(2, 2), "0RB---_------")
    assert compare(cover, coq_cover, ["--below", "0RB---_------"], as_lines(shard)).status == 0
    assert compare(cover, coq_cover, ["--skeleton"], as_lines(skeleton)).status == 0
    for _ in range(60):
        compare(cover, coq_cover, ["--below=0RB---_------"], as_lines(break_list(shard, rng)))
        compare(cover, coq_cover, ["--skeleton"], as_lines(break_list(skeleton, rng)))
        line = next(line for line in skeleton if " below " in line)
        place = rng.randrange(len(line))
        changed = line[:place] + rng.choice("0189abgL -") + line[place + 1 :]
        compare(cover, coq_cover, ["--skeleton"], as_lines([changed if x == line else x for x in skeleton]))
    for counts in BROKEN_COUNTS:
        assert compare(cover, coq_cover, ["--skeleton"], as_lines(recount(skeleton, counts))).status == 1
    for extra in (0, 1):
        most = recount(skeleton, "%d 0 0" % (MOST_LINES - (len(skeleton) - 1) + extra))
        assert compare(cover, coq_cover, ["--skeleton"], as_lines(most)).status == extra


@pytest.mark.parametrize("counts", BROKEN_COUNTS)
def test_shard_of_impossible_counts_is_refused(coq_cover: str, counts: str) -> None:
    for root in ("------_------", "---------"):
        done = run_command([coq_cover, "--skeleton"], ("%s below %s %s\n" % (root, counts, DIGEST)).encode())
        assert done == CommandResult(1, b"line 1: it is no verdict line and no shard\n", b"")


def test_total_past_64_bits_is_refused(coq_cover: str, decide_all: Decide) -> None:
    """Wherever it comes: at a verdict line behind the shard, or at the shard's own line."""
    lines = decide_all(2, 2)
    start = next(at for at, line in enumerate(lines) if line.startswith("0RB---_------ "))
    end = next(at for at, line in enumerate(lines) if line.startswith("1RA---_------ "))
    before, behind = lines[:start], lines[end:]
    for count, status, text in [
        (MOST_LINES - len(before) - len(behind), 0, ", given 1 shard: %d lines, " % MOST_LINES),
        (MOST_LINES - len(before), 1, "line %d: more than %d lines in all\n" % (start + 2, MOST_LINES)),
        (MOST_LINES, 1, "line %d: more than %d lines in all\n" % (start + 1, MOST_LINES)),
    ]:
        shard = "0RB---_------ below %d %d 0 %s" % (count, count, DIGEST)
        done = run_command([coq_cover, "--skeleton"], as_lines([*before, shard, *behind]))
        assert done.status == status and text in done.output.decode()


def theorem(folder: pathlib.Path, lines: Sequence[str], words: Sequence[str] = ()) -> CommandResult:
    """Have `coq/theorem` make a theorem of a list, `Made.v` in a folder."""
    (folder / "list").write_bytes(as_lines(lines))
    out = str(folder / "Made.v")
    return run_command([str(COQ / "theorem"), "--cover", str(folder / "list"), out, *words])


def check_again(folder: pathlib.Path, name: str = "Made.v") -> CommandResult:
    """Have `coqc` check a file again, from nothing but the proofs."""
    command = ["coqc", "-q", "-noglob", "-Q", str(COQ / "out"), "Budlarem", "-Q", ".", "", name]
    return run_command(command, cwd=str(folder))


@pytest.mark.usefixtures("coq_cover")
@pytest.mark.parametrize("states, symbols", SIZES)
def test_theorem_of_a_complete_list(
    decide_all: Decide, tmp_path: pathlib.Path, states: int, symbols: int
) -> None:
    lines = decide_all(states, symbols)
    done = theorem(tmp_path, lines)
    assert done.status == 0 and b"accepts this as one theorem" in done.output, done.error
    text = (tmp_path / "Made.v").read_text()
    size = "states M = %d -> symbols M = %d ->" % (states, symbols)
    for name in ("covered", "bounded"):
        assert "Theorem %s : forall M,\n  is_machine M = true -> %s" % (name, size) in text
    assert "halts_within %d " % CHAMPIONS[states, symbols] in text
    undecided = [line.split(" ")[0] for line in lines if " undecided " in line]
    written = re.findall('"(.*)"', text.partition("Definition undecided")[2].partition("%bytes")[0])
    assert written == undecided or not undecided


@pytest.mark.usefixtures("coq_cover")
def test_theorem_of_a_changed_file_fails(decide_all: Decide, tmp_path: pathlib.Path) -> None:
    """A line or an undecided machine left out, a halt changed, another size, a lower bound: Coq refuses each."""
    lines = decide_all(2, 3)
    assert theorem(tmp_path, lines).status == 0 and check_again(tmp_path).status == 0
    text = (tmp_path / "Made.v").read_text()
    undecided = next(line.split(" ")[0] for line in lines if " undecided " in line)
    halt = next(line for line in lines[5:] if " halt " in line)
    for old, new in [
        ('  "%s";\n' % lines[7], ""),
        ('  "%s";\n' % undecided, ""),
        (halt, re.sub(r"halt (\d+)", lambda found: "halt %d" % (int(found[1]) + 1), halt)),
        ("states M = 2 -> symbols M = 3", "states M = 3 -> symbols M = 2"),
        ("halts_within 38 ", "halts_within 37 "),
        (" 37%N ", " 36%N "),
    ]:
        assert old in text, old
        (tmp_path / "Other.v").write_text(text.replace(old, new, 1))
        assert check_again(tmp_path, "Other.v").status != 0, old


@pytest.mark.usefixtures("coq_cover")
def test_assumed_machines_become_hypotheses(decide_all: Decide, tmp_path: pathlib.Path) -> None:
    lines = decide_all(3, 2)
    undecided = [line.split(" ")[0] for line in lines if " undecided " in line]
    (tmp_path / "assumed").write_text("".join(machine + " nonhalt\n" for machine in undecided))
    done = theorem(tmp_path, lines, ["--assume", str(tmp_path / "assumed")])
    assert done.status == 0, done.error
    text = (tmp_path / "Made.v").read_text()
    assert "Definition open : list string := []." in text
    assert re.search(r"halts_within 21 \d+ M \\/ never_halts M\.", text)
    assert len(re.findall(r"^Hypothesis nonhalt_\d+ : never_halts ", text, flags=re.M)) == len(undecided)
    assert b"; 0 open, %d assumed\n" % len(undecided) in done.output
    (tmp_path / "assumed").write_text(undecided[0] + " nonhalts\n")
    done = theorem(tmp_path, lines, ["--assume", str(tmp_path / "assumed")])
    assert done.status == 2 and b"line 1 of the file of --assume isn't MACHINE nonhalt" in done.error


@pytest.mark.usefixtures("coq_cover")
def test_theorems_of_a_shard_and_a_skeleton(cover: str, decide_all: Decide, tmp_path: pathlib.Path) -> None:
    skeleton, shard = shard_lines(cover, decide_all(2, 2), "0RB---_------")
    for lines, words in [(shard, ["--below=0RB---_------"]), (skeleton, ["--skeleton"])]:
        done = theorem(tmp_path, lines, words)
        assert done.status == 0, done.error
    done = theorem(tmp_path, shard[:-1], ["--below=0RB---_------"])
    assert done.status == 1 and b"the list ends" in done.output


@pytest.mark.usefixtures("coq_cover")
@pytest.mark.parametrize("counts", BROKEN_COUNTS)
def test_broken_skeleton_becomes_no_theorem(tmp_path: pathlib.Path, counts: str) -> None:
    """Neither by `coq/theorem`, nor where its file of another skeleton is changed."""
    done = theorem(tmp_path, ["------_------ below %s %s" % (counts, DIGEST)], ["--skeleton"])
    assert done.status == 1 and b"no verdict line and no shard" in done.output
    assert not (tmp_path / "Made.v").exists()
    assert theorem(tmp_path, ["------_------ below 61 5 3 " + DIGEST], ["--skeleton"]).status == 0
    text = (tmp_path / "Made.v").read_text()
    for old, new in [
        ("below 61 5 3 ", "below %s " % counts),
        ("61%N 5%N 3%N ", "".join("%s%%N " % count for count in counts.split(" "))),
    ]:
        assert text.count(old) == 1, old
        text = text.replace(old, new)
    (tmp_path / "Other.v").write_text(text)
    assert check_again(tmp_path, "Other.v").status != 0


@pytest.mark.slow
@pytest.mark.needs("coqc", "ocamlfind")
@pytest.mark.parametrize("edit", WRONG_ON_SHARDS, ids=[edit.name for edit in WRONG_ON_SHARDS])
@pytest.mark.usefixtures("coq_cover")
def test_wrong_checker_of_shards_is_noticed(tmp_path: pathlib.Path, edit: Edit) -> None:
    """A proof fails; built without its proofs, it takes a skeleton that is to be refused."""
    made = build_wrong(tmp_path, edit, "cover")
    skeletons = ["------_------ below %s %s" % (counts, DIGEST) for counts in BROKEN_COUNTS]
    lines = ["------_------ halt 0 0", *("%s below %d 0 0 %s" % (M, MOST_LINES, DIGEST) for M in FIRST_FOUR)]
    taken = [
        run_command([made, "--skeleton"], as_lines(given)).status == 0
        for given in (*([line] for line in skeletons), lines)
    ]
    assert any(taken)


@pytest.mark.slow
@pytest.mark.needs("coqc", "ocamlfind")
@pytest.mark.parametrize("edit", WRONG, ids=[edit.name for edit in WRONG])
@pytest.mark.usefixtures("coq_cover")
def test_wrong_checker_of_lists_is_noticed(
    cover: str, decide_all: Decide, tmp_path: pathlib.Path, edit: Edit
) -> None:
    """A proof fails; built without its proofs, it answers some list otherwise."""
    made = build_wrong(tmp_path, edit, "cover")
    rng = random.Random(1)
    lists = [decide_all(*size) for size in SIZES]
    broken = [break_list(lists[k % 3], rng) for k in range(297)]
    wrong = 0
    for given in (*lists, *broken, *earlier_halts(lists[0])):
        data = "".join(line + "\n" for line in given).encode("latin-1")
        wrong += run_command([cover, *LIST_LIMITS], data) != run_command([made, *LIST_LIMITS], data)
    assert wrong > 0
    print("%d lists notice it" % wrong)
