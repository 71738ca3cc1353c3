"""The WebAssembly engine in Node and the page write the program's bytes; the narrowing of the engine's code."""

import pathlib
import random
import re
from typing import Any, Callable

import pytest
from support import TOP, ListMachines
from support.claims import with_other_number
from support.examples import README, Example, read_examples
from support.machines import CHAMPION, random_machines, seldom_halting
from web.tests.node import Engine, documented_script
from support.program import FOUR, MAX_CELLS, MOST, SWITCHES, CommandResult, all_plans, as_lines
from support.program import plan_of, processor_time, random_plan, run_command
from support.recurrences import reply_to_pair
from support.traces import trace

Plan = dict[str, Any]
Same = Callable[[str, Plan, bytes], bytes]
LISTS = list(read_examples("decide", "check"))
slow = pytest.mark.slow
each_way = pytest.mark.parametrize("same", ["engine", "tab"], indirect=True)
SMALL = {"steps": 100, "cells": 64, "depth": 20, "nodes": 100}
REFUSED_LIMITS = (
    "--steps 1000000000001, --cells 0, --cells 67108865, --depth 10001, --nodes 1000000000001, --cells 598, "
    "--cells 0 --steps 10000000000000, --depth 10001 --nodes 10000000000000"
)
# Lines of LLVM IR with 64-bit pointers that are refused.
WIDE = """
@a = constant [1 x ptr] [ptr @b]
  %a = alloca [2 x ptr], align 8
  %a = alloca ptr, i64 2, align 8
  %a = getelementptr ptr, ptr %b, i64 1
  %a = inttoptr i64 %b to ptr
  %a = insertvalue { ptr, i64 } %b, ptr %c, 0
  %a = load <2 x ptr>, ptr %b, align 16
  call void @a(ptr byval([8 x i8]) %b)
  store { ptr, i64, i64 } %a, ptr %b, align 8
"""
# Bytes of memory for a small engine.
MEMORY = 64 * 65_536
CALLS = ("decide", "check", "recurrence", "trace")


# Exact recurrence is a fifth of the module.
@pytest.mark.parametrize("built, most_bytes", [("module", 120_832), ("page", 311_296)])
def test_size(request: pytest.FixtureRequest, built: str, most_bytes: int) -> None:
    assert request.getfixturevalue(built).stat().st_size <= most_bytes


@pytest.fixture
def same(request: pytest.FixtureRequest) -> Same:
    """A function that requires the program's output of the engine or the page, and returns it."""
    found: Same = request.getfixturevalue(request.param).require_same
    return found


@each_way
@pytest.mark.parametrize("example", LISTS, ids=[example.name for example in LISTS])
def test_example(same: Same, example: Example) -> None:
    assert same(example.words[0], example.plan, example.lines)


@each_way
def test_first_list_of_the_readme(same: Same) -> None:
    """By all deciders, and by simulation alone."""
    for is_on in (True, False):
        same("decide", dict.fromkeys(SWITCHES, is_on), README)


@pytest.mark.parametrize(
    "same, every", [("engine", 1), ("tab", 9), pytest.param("tab", 1, marks=slow)], indirect=["same"]
)
def test_all_plans(same: Same, every: int) -> None:
    """All plans at each row of limits, or every ninth."""
    given = b"".join(example.lines for example in LISTS if example.name in ("verdicts", "small_limits"))
    plans = list(all_plans())[::every]
    for plan in plans:
        same("decide", plan, given)
    print("%d plans of %d lines" % (len(plans), given.count(b"\n")))


@pytest.mark.parametrize(
    "same, count",
    [("engine", 1_000), *(pytest.param(way, 20_000, marks=slow) for way in ("engine", "tab"))],
    indirect=["same"],
)
def test_random_machines_and_claims(same: Same, rng: random.Random, count: int) -> None:
    """At random limits, with half of the claims forged."""
    machines = random_machines(count, rng)
    for k in range(0, count, 100):
        decided = same("decide", random_plan(rng), as_lines(machines[k : k + 100]))
        lines = decided.decode().splitlines()
        claims = [with_other_number(line, rng) if rng.random() < 0.5 else line for line in lines]
        limits = {name: value for name, value in random_plan(rng).items() if name not in SWITCHES}
        same("check", limits, as_lines(claims))
    print("%d machines and claims" % count)


@pytest.mark.slow
def test_four_states(engine: Engine, four_states: list[str]) -> None:
    given = as_lines(four_states)
    assert len(four_states) == 858_909
    before = processor_time()
    wanted = engine.program_output("decide", FOUR, given)
    taken = processor_time() - before
    reply = engine.call("decide", FOUR, given)
    assert reply.reply == wanted
    seconds = reply.answer["seconds"]
    print("four states: %.2f s, the program %.2f s, %.2f times" % (seconds, taken, seconds / taken))
    engine.require_same("check", FOUR, wanted)


@pytest.mark.slow
@each_way
@pytest.mark.parametrize("name", ["decide", "check"])
def test_noise(same: Same, rng: random.Random, name: str) -> None:
    """Random bytes, invalid UTF-8, lists without a final newline, lines of 10 MB, and one of 100 MB."""
    for length in (1, 2, 100, 10_000, 100_000):
        noise = rng.randbytes(length)
        same(name, {}, noise)
        same(name, {}, noise + b"\n<img src=x onerror=alert(1)>\n\n1RZ---")
    for line in (b"1RB1LB_" * 1_500_000, b"\xff" * 10_000_000, b"1RZ--- halt 1 1" + b" " * 10_000_000):
        same(name, {}, line)
    same(name, {}, b"\xff<b>\n" * 1_000_000 + b"1RB1LB_" * 14_000_000 + b"\n1RZ---\n")


def test_lines_of_machines(engine: Engine, cover: str, rng: random.Random) -> None:
    """Those of the program, also of many machines at once."""
    given = as_lines(["1RB", *random_machines(2_000, rng)])
    for limits in ({"steps": 200, "cells": 256}, {"steps": 0}):
        words = [word for name, number in limits.items() for word in ("--" + name, str(number))]
        wanted = run_command([cover, "--lines", "--depth", "0", *words], given)
        found = engine.call("lineOf", limits, given)
        assert (found.status, found.reply) == (0, wanted.output) and wanted.output.startswith(b"unread\n")
    assert engine.call("lineOf", {"cells": 0}, b"").answer["limit"] == "cells"


def test_recurrences(engine: Engine, bb: str, list_machines: ListMachines) -> None:
    """Those of the pairs of three states, with entries, are those of a brute force; other lines have answers."""
    decided = run_command([bb, "decide"], as_lines(list_machines(3))).output.decode().splitlines()
    pairs = [line for line in decided if line.split(" ")[1] in ("cycler", "translated")]
    found = engine.call("recurrence", {"entries": True}, as_lines(pairs))
    assert (found.status, found.reply) == (0, as_lines(reply_to_pair(line, True) for line in pairs))
    others = ["1RA1RA cycler 1 2", "0RB---_0LA--- cycler 2 400", "1RB1LB_1LA1RZ halt 6 4", "x", pairs[0]]
    found = engine.call("recurrence", {"steps": 100, "cells": 64}, as_lines(others))
    assert (found.status, found.reply) == (
        1,
        as_lines(["bad", "over", "open", "unread", reply_to_pair(pairs[0])]),
    )
    wrong = engine.call("recurrence", {"depth": 1}, b"")
    assert wrong.status == 2 and "no limit or switch has the name depth" in wrong.answer["message"]
    assert engine.call("recurrence", {"cells": 0}, b"").answer["limit"] == "cells"


@pytest.mark.parametrize("words", REFUSED_LIMITS.split(", "))
def test_refused_limit(engine: Engine, words: str) -> None:
    """The error has the program's message and names the limit."""
    answer = engine.call("decide", plan_of(words.split()), b"1RA1RA\n").answer
    said = run_command([engine.program, "decide", *words.split()]).error.decode()
    assert (answer["error"], answer["limit"]) == ("LimitsError", said[4:].split(" ")[0])
    assert said == "bb: %s\n" % answer["message"]


def test_wrong_numbers_and_names(engine: Engine) -> None:
    """Each is refused before anything is written: the next reply is the program's."""
    rooms: list[dict[str, Any]] = [{"room": room} for room in (-5, -2, 1.5, "1", None, 2**53)]
    sizes: list[dict[str, Any]] = [{"memory": size} for size in (-1, 0.5, None, "1")]
    plans: list[Any] = [
        {"cell": 5},
        {"backward": 1},
        {"backward": None},
        {"steps": None},
        {"steps": "5"},
        None,
    ]
    cases: list[tuple[str, Any, dict[str, Any]]] = [("decide", plan, {}) for plan in plans]
    cases += [("trace", {}, {}), ("trace", None, {})]
    cases += [("check", {}, more) for more in [*rooms, *sizes]]
    cases += [(name, {"steps": 5} if name == "trace" else {}, {"room": -5}) for name in CALLS]
    for name, plan, more in cases:
        answer = engine.call(name, plan, b"1RB1LB_1LA1RZ\n", **more).answer
        assert answer["error"] == "TypeError" and "undefined" not in answer["message"], (name, plan, more)
        engine.require_same("decide", {}, b"1RB1LB_1LA1RZ\n")
    assert engine.call("decide", {"cells": 2.5}, b"1RA1RA\n").answer["error"] == "LimitsError"


@pytest.mark.parametrize("name", ["decide", "check"])
def test_greatest_limits(engine: Engine, name: str) -> None:
    given = b"1RB1LB_1LA1RZ\n1RB1LB_1LA1RZ halt 6 4\n"
    engine.require_same(name, MOST, given)
    engine.require_same(name, {}, b"")


def test_script_of_the_documentation(engine: Engine, tmp_path: pathlib.Path) -> None:
    """The script of docs/web.md decides a list and checks the verdicts."""
    (tmp_path / "web").symlink_to(TOP / "web")
    (tmp_path / "decide.mjs").write_text(documented_script("A script"), encoding="utf-8")
    limits = {"steps": 100_000, "cells": 4096}
    decided = engine.program_output("decide", limits, README)
    found = run_command(["node", "decide.mjs"], README, cwd=str(tmp_path))
    assert found.output == decided + engine.program_output("check", limits, decided), found.error


def test_memory_that_cannot_be_had(engine: Engine) -> None:
    """The engine stays usable after the error."""
    cases: list[tuple[str, Plan, bytes]] = [
        ("decide", {"cells": 10**7}, b"1RA1RA\n"),
        ("check", {"cells": 10**7}, b"1RA1RA translated R 1 2\n"),
        ("decide", {}, b"1RA1RA\n" * 10**6),
    ]
    for name, plan, given in cases:
        assert engine.call(name, plan, given, memory=MEMORY).answer["error"] == "MemoryError"
    reply = engine.call("decide", {"cells": 64, "depth": 9}, b"1RZ---\n", memory=MEMORY)
    assert reply.reply == b"1RZ--- halt 1 1\n"


@pytest.mark.slow
@pytest.mark.needs("node")
def test_memory_stays(module: pathlib.Path, tmp_path: pathlib.Path) -> None:
    """A thousand lists need no more memory than one."""
    with Engine(tmp_path, module) as own:
        once = own.call("decide", SMALL, README * 1000).answer["held"]
        assert once == own.call("decide", SMALL, README * 1000, times=1000).answer["held"]


@pytest.mark.parametrize("count", [5, pytest.param(100, marks=pytest.mark.slow)])
def test_traces(engine: Engine, rng: random.Random, count: int) -> None:
    """Of all rows, which name the lowest position, and of some."""
    machines = [seldom_halting(rng, rng.randint(2, 5), rng.randint(2, 4)) for _ in range(5 * count + 25)]
    for machine in [CHAMPION, *machines]:
        steps = rng.randint(100, 4_000)
        reply = engine.call("trace", {"steps": steps}, machine.encode())
        wanted = as_lines(row.line for row in trace(engine.program, machine, steps))
        assert reply.reply == wanted, (machine, steps)
    for machine in random_machines(count, rng):
        plan = {"steps": rng.randint(0, 200), "cells": rng.randint(1, 60)}
        rows = trace(engine.program, machine, plan["steps"], plan["cells"])
        samples = [rows[first::every] for first in range(51) for every in range(1, 51)]
        reply = engine.call("samples", {**plan, "from": 50, "every": 50}, machine.encode())
        assert reply.reply == as_lines(row.line for sample in samples for row in sample), (machine, plan)
    print("%d machines" % (6 * count + 26))


def test_trace_at_the_greatest_limits(engine: Engine) -> None:
    most = {"steps": 10**12, "cells": MAX_CELLS, "from": 0, "every": 1}
    reply = engine.call("trace", most, b"1RB1LB_1LA1RZ")
    wanted = as_lines(row.line for row in trace(engine.program, "1RB1LB_1LA1RZ", 10**12, MAX_CELLS))
    assert (reply.status, reply.reply) == (0, wanted)
    for plan in ({"every": 0}, {"cells": 0}, {"steps": 10**12 + 1}):
        answer = engine.call("trace", {**most, **plan}, b"1RB1LB_1LA1RZ").answer
        assert answer["limit"] == next(iter(plan))
    reply = engine.call("trace", {"steps": 5}, b"1rB")
    assert (reply.status, reply.reply) == (1, b"refused 2\n")


def narrow(folder: pathlib.Path, line: str) -> tuple[CommandResult, pathlib.Path]:
    """Narrow a line of intermediate code; return the result, and the path of what was made."""
    given, made = folder / "wide", folder / "narrow"
    given.write_text(line + "\n", encoding="ascii")
    return run_command(["python3", str(TOP / "web" / "narrow.py"), str(given), str(made)]), made


# Lines of LLVM IR, with 64-bit and with 32-bit pointers.
@pytest.mark.parametrize(
    "line, wanted",
    [
        ("  store ptr %a, ptr %b, align 8", "ptrtoint ptr %a to i64|store i64 %X, ptr %b, align 8"),
        ("  %a = alloca ptr, align 8", "%a = alloca i64, align 8"),
        ("  %a = load { i8, ptr }, ptr %b, align 8", "%a = load { i8, i64 }, ptr %b, align 8"),
        (
            "  %a = extractvalue { i8, ptr } %b, 1",
            "extractvalue { i8, i64 } %b, 1|%a = inttoptr i64 %X to ptr",
        ),
        ("  %a = extractvalue { ptr, i64 } %b, 1", "%a = extractvalue { i64, i64 } %b, 1"),
        ("  %a = ptrtoaddr ptr %b to i64", "%a = ptrtoint ptr %b to i64"),
        ('  call void @"a ptr"(ptr %b, i64 8)', 'call void @"a ptr"(ptr %b, i64 8)'),
    ],
)
def test_narrowed_line(tmp_path: pathlib.Path, line: str, wanted: str) -> None:
    done, made = narrow(tmp_path, line)
    assert done.status == 0
    text = re.sub(r"%narrow\.\d+", "%X", made.read_text(encoding="ascii")).replace("%X = ", "")
    assert "|".join(one.strip() for one in text.splitlines()) == wanted


@pytest.mark.parametrize("line", WIDE.strip("\n").split("\n"))
def test_line_that_is_not_narrowed(tmp_path: pathlib.Path, line: str) -> None:
    """The line is refused with a message, and no file is written."""
    done, made = narrow(tmp_path, line)
    assert (done.status, done.error) == (1, b"narrow: %s isn't known here\n" % line.strip().encode())
    assert not made.exists()
