"""The proofs in Coq: none assumes anything, a wrong checker fails them, and lines notice a wrong checker."""

import pathlib
import random
import re

import pytest
from support import TOP, ListMachines
from support.program import run_command
from support.second_checker import COQ, PROGRAMS, Claims, Edit, answer, build_wrong, copy_folder
from support.second_checker import quick_claims, replace_once

CLOSED = "Closed under the global context"
STATED = ("Statements", "CoqBB5", "generated/TrueLines", "generated/CoveredSize")
# An environment in which nothing but the system's programs is found.
PLAIN = {"PATH": "/usr/bin:/bin"}


WRONG = [
    Edit(
        "compares no cells",
        "checker/ClaimChecker.v",
        "same_first (back y) (behind z) (behind y) else",
        "true else",
    ),
    Edit(
        "compares no cells behind the head",
        "checker/ClaimChecker.v",
        "if same_cells (behind z) (behind y)",
        "if true",
    ),
    Edit(
        "forgets the start",
        "checker/ClaimChecker.v",
        "else if matches_start b then None",
        "else if false then None",
    ),
    Edit(
        "takes a record that is none",
        "checker/ClaimChecker.v",
        "if is_nil (ahead z) then if",
        "if true then if",
    ),
    Edit(
        "counts a node twice",
        "checker/ClaimChecker.v",
        "(N.pred k) (match h'",
        "(N.pred (N.pred k)) (match h'",
    ),
    Edit(
        "answers over to a false claim",
        "checker/LineChecker.v",
        "check M v then Ok else Bad",
        "check M v then Ok else Over",
    ),
    Edit("00 is a number", "checker/LineChecker.v", "if String.eqb (decimal n) s then", "if true then"),
    Edit(
        "takes the score before the halting step",
        "checker/ClaimChecker.v",
        "if is_stop (zstep M z) then N.eqb (score z) w else false",
        "if is_stop (zstep M z) then match run M (N.pred n) zstart with More y | Stop y => N.eqb (score y) w"
        " end else false",
    ),
    Edit(
        "counts the cell that a step into Z leads to",
        "checker/LineChecker.v",
        "map (map without_Z) M in",
        "M in",
    ),
]


def theorems_in(name: str) -> list[str]:
    """The names of the theorems of a file, in its order."""
    return re.findall(r"^Theorem (\w+)", (COQ / (name + ".v")).read_text(encoding="utf-8"), flags=re.M)


def test_every_theorem_assumes_nothing(checker: str) -> None:
    names = [name for file in STATED for name in theorems_in(file)]
    status, output, _ = run_command(["make", "-s", "--no-print-directory", "-C", str(COQ)])
    assert status == 0 and names
    programs = ["%s: %s" % (name, pathlib.Path(checker).with_name(name)) for name in PROGRAMS]
    assert output.decode().splitlines() == [CLOSED] * len(names) + programs


def test_document_names_the_theorems() -> None:
    """Each theorem of `Statements.v`, and nothing else, is in the table of docs/coq.md."""
    text = (TOP / "docs" / "coq.md").read_text(encoding="utf-8")
    table = text.partition("\n## Theorems\n")[2].partition("\n## ")[0]
    rows = [row.split("|")[1] for row in table.splitlines() if row.startswith("| `")]
    assert sorted(re.findall(r"`(\w+)`", "".join(rows))) == sorted(theorems_in("Statements"))


def require_failure(folder: pathlib.Path, reason: str, *goals: str) -> None:
    """Require the build of a changed copy to fail, also a second time, and to leave no program."""
    assert all((folder / "out" / name).exists() for name in PROGRAMS)
    for _ in range(2):
        done = run_command(["make", "-C", str(folder), *goals])
        assert done.status != 0 and reason in done.error.decode()
        assert not any((folder / "out" / name).exists() for name in PROGRAMS)
    theorem = run_command([str(folder / "theorem"), "------ halt 0 0"])
    assert theorem.status == 2 and b"aren't built" in theorem.error


# A file, a text of it, and its change to something that is assumed or left unproved.
WORDS = {
    "an axiom": (
        "proofs/Settling.v",
        "Import ListNotations.",
        "Import ListNotations.\nAxiom planted : False.",
    ),
    "parameters": (
        "checker/ClaimChecker.v",
        "Import ListNotations.",
        "Import ListNotations.\nParameters planted : False.",
    ),
    "an admitted theorem": ("generated/TrueLines.v", "  - now apply IH.\nQed.", "Admitted."),
    "another": ("generated/CoveredSize.v", "Proof. apply flat_map_app. Qed.", "Proof. Admitted."),
    "a goal given up": ("Statements.v", "Proof. exact (Claims.check_holds M v). Qed.", "Proof. admit. Qed."),
    "a check left out": (
        "checker/ListChecker.v",
        "Import ListNotations.",
        "Import ListNotations.\nUnset Guard Checking.",
    ),
    "a context": (
        "proofs/WorkedLines.v",
        "Import ListNotations.",
        "Import ListNotations.\nContext (planted : False).",
    ),
}


@pytest.mark.usefixtures("checker")
@pytest.mark.parametrize("name", WORDS)
def test_word_that_leaves_something_unproved_fails_the_build(tmp_path: pathlib.Path, name: str) -> None:
    file, old, new = WORDS[name]
    folder = copy_folder(tmp_path, built=True)
    replace_once(folder / file, old, new)
    require_failure(folder, "assume something, or leave a proof unchecked")


@pytest.mark.usefixtures("checker")
def test_variable_of_no_section_fails_the_build(tmp_path: pathlib.Path) -> None:
    folder = copy_folder(tmp_path, built=True)
    replace_once(
        folder / "generated/TrueLines.v",
        "Import ListNotations.",
        "Import ListNotations.\nVariable planted : False.",
    )
    require_failure(folder, "local-declaration")


def assume_in(path: pathlib.Path, proof: str) -> None:
    """Have the proof that begins so use an axiom of Coq's library."""
    replace_once(path, "Import ListNotations.", "From Coq Require Classical_Prop.\nImport ListNotations.")
    replace_once(path, proof, "Proof.\n  pose proof (Classical_Prop.classic True) as Assumed.\n" + proof[6:])


@pytest.mark.usefixtures("checker")
@pytest.mark.parametrize(
    "file, theorem, proof",
    [
        (
            "generated/TrueLines.v",
            "generated/TrueLines",
            "Proof.\n  induction lines as [|t lines IH]; simpl; [tauto|].",
        ),
        ("generated/CoveredSize.v", "generated/CoveredSize", "Proof. intros [A B] [C D]."),
        pytest.param(
            "proofs/Settling.v",
            "Statements",
            "Proof.\n  intros W C U. destruct (covers_leave",
            marks=pytest.mark.slow,
        ),
    ],
)
def test_assumed_axiom_fails_the_build(tmp_path: pathlib.Path, file: str, theorem: str, proof: str) -> None:
    folder = copy_folder(tmp_path, built=True)
    assume_in(folder / file, proof)
    require_failure(folder, "a theorem of %s.v assumes something" % theorem)


@pytest.mark.usefixtures("checker")
@pytest.mark.parametrize(
    "file, theorem, instead",
    [
        ("generated/CoveredSize", "covered_by", ""),
        ("generated/TrueLines", "all_hold", ""),
        ("generated/CoveredSize", "leads_on", "steps_app"),
    ],
)
def test_theorem_without_its_assumptions_fails_the_build(
    tmp_path: pathlib.Path, file: str, theorem: str, instead: str
) -> None:
    """Where the line is removed, or one of another fact is in its place."""
    folder = copy_folder(tmp_path, built=True)
    line = "Print Assumptions %s.\n"
    replace_once(folder / (file + ".v"), line % theorem, line % instead if instead else "")
    require_failure(folder, "Print Assumptions isn't there for each theorem of %s.v" % file)


@pytest.mark.slow
@pytest.mark.usefixtures("checker")
def test_axiom_that_no_theorem_uses_fails_the_check(tmp_path: pathlib.Path) -> None:
    """The build can't see a context of a type and more; `coqchk` does."""
    folder = copy_folder(tmp_path, built=True)
    replace_once(
        folder / "generated/TrueLines.v",
        "Import ListNotations.",
        "Import ListNotations.\nContext {A : Type} (a : A).",
    )
    assert run_command(["make", "-C", str(folder)]).status == 0
    done = run_command(["make", "-C", str(folder), "check"])
    assert done.status != 0 and b"coqchk finds an axiom" in done.error
    assert b"Axioms:\n" in done.output and b"Budlarem.TrueLines.a" in done.output
    assert not any((folder / "out" / name).exists() for name in PROGRAMS)


@pytest.mark.slow
@pytest.mark.needs("coqc", "coqchk", "ocamlfind")
def test_copy_is_built_and_checked_elsewhere(tmp_path: pathlib.Path) -> None:
    """`coqchk` looks at the proofs where nothing else of the repository is."""
    command = ["make", "-C", str(copy_folder(tmp_path)), "check"]
    status, output, error = run_command(command, cwd="/", env=PLAIN)
    assert status == 0, error.decode()
    assert b"* Axioms: <none>" in output


@pytest.fixture(scope="module")
def batches(bb: str, list_machines: ListMachines) -> list[tuple[Claims, bytes]]:
    """Lines under their limits, and the program's answers."""
    claims = [batch for _, batch in quick_claims(bb, list_machines, random.Random(1))]
    return [(batch, answer([bb, "check"], batch).output) for batch in claims]


@pytest.mark.slow
@pytest.mark.needs("coqc", "coqchk", "ocamlfind")
@pytest.mark.parametrize("edit", WRONG, ids=[edit.name for edit in WRONG])
def test_wrong_checker_is_noticed(
    tmp_path: pathlib.Path, batches: list[tuple[Claims, bytes]], edit: Edit
) -> None:
    """A proof fails; built without its proofs, it answers some line otherwise."""
    made = build_wrong(tmp_path, edit, "checker")
    wrong = sum(
        one != another
        for claims, expected in batches
        for one, another in zip(answer([made], claims).output.splitlines(), expected.splitlines())
    )
    assert wrong > 0
    print("%d lines notice it" % wrong)
