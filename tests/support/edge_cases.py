"""Command lines, streams and plans by which two builds of the programs, or two versions, are compared."""

import itertools

from .program import SIMULATION

FOUR = ["--steps", "1000", "--cells", "1024", "--depth", "40", "--nodes", "10000"]
WORDS = """decide check trace help decid --steps --cells --depth --nodes --upto --no-cyclers --no-translated
    --no-backward --help -h --version -V -- - --- --step --cels -x -hx --steps=3 --cells=0 --cells=70000000
    --steps=1000000000000 --steps=1000000000001 --steps=18446744073709551616 --steps= --steps=x --help=1
    --no-cyclers=1 0 1 5 200 -1 x 1RB1LB_1LA1RZ 1RB ---1RZ ------ /nonexistent list.txt \u00e9 --\u00e9
    --depth=10000 --depth=10001 --nodes=1000000000000 --nodes=1000000000001 --depth=9 --cells=16 --upto=3
    --upto=-3 --no- --s = --= --steps=+5 --steps=5_0""".split()
COMMANDS, GIVEN = ("decide", "check", "trace"), b"1RB1LB_1LA1RZ\nx\n1RB1LB_1LA1RZ halt 6 4\n"
# Commands of a shell; PROGRAM stands for the program, `four.txt` and `list.txt` are lists.
EDGES = """exec PROGRAM decide <&-
    exec PROGRAM decide <list.txt >&-
    exec PROGRAM decide list.txt <&-
    exec PROGRAM decide <list.txt 2>&-
    exec PROGRAM decide list.txt 0>&- 1>&- 2>&-
    exec PROGRAM --help >&-
    exec PROGRAM --help >/dev/full
    exec PROGRAM decide <list.txt >/dev/full
    exec PROGRAM decide /tmp
    exec PROGRAM decide </tmp
    exec PROGRAM foo 2>/dev/full
    exec PROGRAM decide </dev/null
    exec PROGRAM trace --upto 3 1RB
    exec PROGRAM decide --cells 67108864 list.txt
    exec PROGRAM decide --cells 67108865 list.txt
    PROGRAM decide four.txt | head -c 100
    printf 1RB1LB_1LA1RZ | PROGRAM decide
    printf '1RA1RA\\n1RB1LB_1LA1R' | PROGRAM decide
    printf '1RB1LB_1LA1RZ halt 6 4' | PROGRAM check
    (printf 1RB1LB; sleep 0.1; printf '_1LA1RZ\\n1RA'; sleep 0.1; printf 1RA) | PROGRAM decide
    (printf 1RB1LB; sleep 0.1; printf '_1LA1RZ halt 6 4\\n1RA'; sleep 0.1; printf 1RA) | PROGRAM check
    ulimit -f 1; exec PROGRAM decide four.txt >short
    head -n 100 four.txt >few.txt; ulimit -f 1; exec PROGRAM decide few.txt >short
    (printf '1RB1LB_1LA1RZ\\n'; sleep 2) | timeout 1 PROGRAM decide
    ulimit -v 102400; exec PROGRAM decide --cells 67108864 <list.txt
    ulimit -v 102400; exec PROGRAM decide --cells 1048576 <list.txt
    ulimit -v 102400; exec PROGRAM check --cells 67108864 <list.txt""".splitlines()
# A reply whose cost is high, above 100,000 steps, is written before the next line, which never ends here.
ENDLESS = "--no-cyclers --no-translated --no-backward --steps 1000000000000 --cells"
EDGES += [
    "printf '1RA1RA\\n0RB0LB_0LA0RA\\n' | timeout 2 PROGRAM decide %s 100001" % ENDLESS,
    "printf '1RA1RA\\n0RB0LB_0LA0RA\\n' | timeout 2 PROGRAM decide %s 100002" % ENDLESS,
    "printf '1RA1RA cycler 1 100001\\n0RB0LB_0LA0RA halt 1000000000000 1\\n'"
    " | timeout 2 PROGRAM check --steps 1000000000000 --cells 200000",
]
# The same for `cover` and `recurrence`; `verdicts.txt` is a list of verdicts.
EDGES_OF_LISTS = """exec PROGRAM <&-
    exec PROGRAM </tmp
    exec PROGRAM <verdicts.txt >&-
    exec PROGRAM <verdicts.txt >/dev/full
    exec PROGRAM verdicts.txt
    exec PROGRAM /nonexistent
    head -c -1 verdicts.txt | PROGRAM
    head -c -9 verdicts.txt | PROGRAM
    (cat verdicts.txt; printf 1RB) | PROGRAM
    (head -c 9 verdicts.txt; sleep 0.1; tail -c +10 verdicts.txt) | PROGRAM
    printf '%s\\n' '1RB1LC_1LC0LA_1RD1LB_---0RA translated L 684 861 7 15' | PROGRAM
    printf '1RB0RB_1LB1RA translated R %s\\n' '10 4033' '4015 4033 6 2' '9010 9028 6 2' | PROGRAM
    ulimit -v 102400; exec PROGRAM --cells 67108864 <verdicts.txt""".splitlines()
# All choices of deciders but the default.
PLANS = [" ".join(words) for count in (1, 2, 3) for words in itertools.combinations(SIMULATION, count)]
