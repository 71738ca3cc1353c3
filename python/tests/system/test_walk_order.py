"""The order of undecided lines in a shard, beside the lists that the lister writes."""

import itertools

import pytest
from budlarem.walk_order import WalkOrder
from support import ListMachines
from support.program import replies


@pytest.mark.parametrize(
    "states, symbols, below", [(3, 2, "1RB---_------_------"), (2, 3, "1RB------_---------")]
)
def test_undecided_machines_come_in_walk_order(
    bb: str, list_machines: ListMachines, states: int, symbols: int, below: str
) -> None:
    """Any two in their order are accepted, and none in the other, nor twice, nor of another place."""
    listed = list_machines(states, "--symbols", str(symbols), "--steps", "100")
    lines = replies([bb, "decide", "--steps", "40", "--depth", "2"], listed)
    left = [line.split(" ")[0] for line in lines if " undecided " in line]
    inside = [machine for machine in left if machine.startswith("1RB")]
    whole = WalkOrder(below, symbols, 100)
    assert len(inside) > 20 and all(map(whole.accept, inside))
    for first, second in itertools.combinations(inside[:: len(inside) // 20], 2):
        for pair, is_right in (((first, second), True), ((second, first), False), ((first, first), False)):
            order = WalkOrder(below, symbols, 100)
            assert order.accept(pair[0])
            assert order.accept(pair[1]) == is_right
    for other in [machine for machine in left if machine not in inside] + [below + "_------", "1RB", ""]:
        assert not WalkOrder(below, symbols, 100).accept(other)
