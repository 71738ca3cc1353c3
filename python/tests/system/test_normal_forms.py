"""`normal` over complete lists, machines in other names, and the command."""

import random

import budlarem
import pytest
from budlarem.normal_forms import forms_of
from support import ListMachines
from support.machines import LETTERS, Change, machine, random_change, seldom_halting
from support.program import as_lines, run_package

# One machine of two states and three symbols: the halting champion, and with 1 and 2 exchanged.
SAME = ["1RB2LB1RZ_2LA2RB1LB", "2RB2RZ1LB_1LA2LB1RB"]
# Normal forms of two symbols that aren't renamed, their machines and states.
STAY = [("1RB1LB_1LA1RZ", "1RB1LB_1LA1RZ", "AB"), ("1RZ---", "1RZ---", "A"), ("------", "---1LA", "A")]
STEPS = 500


@pytest.mark.parametrize("states, symbols", [(2, 2), (2, 3), (3, 2)])
def test_machines_in_tree_normal_form_are_their_own(
    list_machines: ListMachines, states: int, symbols: int
) -> None:
    machines = list_machines(states, "--symbols", str(symbols), "--steps", str(STEPS))
    forms = [budlarem.normal(one, steps=STEPS) for one in machines]
    assert [form.normal for form in forms] == machines
    names = LETTERS[:states], "".join(map(str, range(symbols)))
    assert {(form.states, form.symbols, form.mirrored) for form in forms} == {(*names, False)}


def test_machines_in_other_names_have_one_form(rng: random.Random, count: int = 3_000) -> None:
    """The normal form, and the form of the whole table if the run meets all states and symbols but one of each."""
    alike = 0
    for case in range(count):
        size, cells = (rng.randint(1, 5), rng.randint(2, 5)), rng.choice((4, 1_000, 1_000))
        drawn, change = (machine if case % 2 else seldom_halting)(rng, *size), random_change(rng, *size)
        changed = change.machine(drawn)
        first, second = (budlarem.normal(text, steps=STEPS, cells=cells) for text in (drawn, changed))
        assert first.normal == second.normal, (drawn, changed)
        assert budlarem.normal(first.normal, steps=STEPS, cells=cells).normal == first.normal
        states, symbols = met_by_run(drawn, cells)
        assert first.states.startswith(states) and first.symbols.startswith(symbols), drawn
        here, there = forms_of([drawn, changed])
        assert change_to(budlarem.normal(drawn, steps=1_000, cells=1_024)).machine(drawn) == here.text
        states, symbols = met_by_run(drawn, 1_024)
        if size[0] - len(states) <= 1 and size[1] - len(symbols) <= 1 and not drawn.startswith("---"):
            assert here.text == there.text and (here.mirrored != there.mirrored) == change.mirrored, drawn
            alike += 1
    print("%d machines, %d with all met" % (count, alike))
    assert alike > count / 4


def change_to(form: budlarem.Normal) -> Change:
    """The change of a machine into its form."""
    names = ([old.index(new) for new in sorted(old)] for old in (form.states, form.symbols))
    return Change(form.mirrored, *names)


def met_by_run(text: str, cells: int) -> tuple[str, str]:
    """The states and the symbols that a run enters and writes, in this order."""
    rows = list(budlarem.trace(text, STEPS, cells))
    written = (then.cells[now.position - then.low] for now, then in zip(rows, rows[1:]))
    states = dict.fromkeys(now.state for now in rows if now.state != "Z")
    return "".join(states), "".join(dict.fromkeys(["0", *written]))


def test_command_prints_the_first_of_each_form() -> None:
    given = as_lines([*SAME, "1RA1RA", "2LB---------_------------", "1RB1LB_1LA1RZ", "1RZ---", "---1LA"])
    output = run_package("normal", "--distinct", given=given).output.decode()
    assert output.splitlines() == [
        "%s\t%s\tAB\tR\t012" % (SAME[0], SAME[0]),
        "1RA---\t1RA1RA\tA\tR\t01",
        "1RB---------_------------\t2LB---------_------------\tAB\tL\t0213",
        *("%s\t%s\t%s\tR\t01" % row for row in STAY),
    ]
