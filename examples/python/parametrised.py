#!/usr/bin/env python3
"""parametrised.py [MOST_PROCESSES [MOST_STEPS]]: checks a family of protocols, formula by formula.

A ring of n processes passes a token on, one process a step, for k steps: at step 0 the first process alone has it, and at each step up to k it
goes to the next. For each n (2 to 6, where nothing else is said) and each k (0 to 25) eight claims are generated as formulas of WS1S and decided by
the library; each verdict is compared with what is known of the protocol, and a table tells how many claims held, how many did not, and the time.
The status is 1 where a verdict is another than the known one.
"""
from __future__ import annotations

import sys
import time
from typing import Callable, NamedTuple

import monastr


class Claim(NamedTuple):
    """What is claimed of n processes and k steps: its formula, what else is assumed, and where it is known to hold."""
    name: str
    formula: Callable[[int, int], str]
    holds: Callable[[int, int], bool]
    assumed: Callable[[int, int], str] = lambda n, k: ""


def all_of(parts: list[str]) -> str:
    return " & ".join(parts) or "true"


def some_of(parts: list[str]) -> str:
    return "(" + " | ".join(parts) + ")"


def pairs(n: int) -> list[tuple[int, int]]:
    return [(i, j) for i in range(n) for j in range(i + 1, n)]


def runs(n: int, k: int) -> str:
    """The token starts at process 0, and goes on at each of k steps."""
    start = all_of(["0 in T0"] + [f"0 notin T{i}" for i in range(1, n)])
    step = all_of([f"(t in T{i} <=> t + 1 in T{(i + 1) % n})" for i in range(n)])
    return f"{start} & (all1 t where t < {k}: {step})"


def guards(processes: range, k: int) -> str:
    """Up to step k these processes are in their critical section only while they have the token."""
    return all_of([f"(all1 t where t <= {k}: t in C{i} => t in T{i})" for i in processes])


def no_two_critical(n: int, k: int) -> str:
    return f"all1 t where t <= {k}: " + all_of([f"~(t in C{i} & t in C{j})" for i, j in pairs(n)])


CLAIMS = [
    Claim("the token is where it must be", lambda n, k: f"{k} in T{k % n}", lambda n, k: True),
    Claim("the token is one further", lambda n, k: f"{k} in T{(k + 1) % n}", lambda n, k: False),
    Claim("no two have the token", lambda n, k: all_of([f"~({k} in T{i} & {k} in T{j})" for i, j in pairs(n)]), lambda n, k: True),
    Claim("the token is not lost", lambda n, k: some_of([f"{k} in T{i}" for i in range(n)]), lambda n, k: True),
    Claim("no two are critical", no_two_critical, lambda n, k: True, lambda n, k: guards(range(n), k)),
    Claim("no two are critical, one cheats", no_two_critical, lambda n, k: False, lambda n, k: guards(range(n - 1), k)),
    Claim("each had the token", lambda n, k: all_of([f"(ex1 t where t <= {k}: t in T{i})" for i in range(n)]), lambda n, k: k >= n - 1),
    Claim("the token comes back", lambda n, k: f"ex1 t where t <= {k}: 0 < t & t in T0", lambda n, k: k >= n),
]


def source(claim: Claim, n: int, k: int) -> str:
    sets = ", ".join([f"T{i}" for i in range(n)] + [f"C{i}" for i in range(n)])
    assumed = claim.assumed(n, k)
    return f"ws1s; var2 {sets};\n({runs(n, k)}{' & ' + assumed if assumed else ''}) => ({claim.formula(n, k)});\n"


def main(most_processes: int, most_steps: int) -> int:
    print(f"{'claim':34}{'formulas':>9}{'hold':>7}{'fail':>7}{'wrong':>7}{'ms each':>9}{'slowest':>9}")
    total = wrong_total = 0
    begin = time.perf_counter()
    for claim in CLAIMS:
        took, held, wrong = [], 0, 0
        for n in range(2, most_processes + 1):
            for k in range(most_steps + 1):
                asked = time.perf_counter()
                holds = monastr.decide(source(claim, n, k)).verdict == "valid"
                took.append(time.perf_counter() - asked)
                held += holds
                wrong += holds != claim.holds(n, k)
        total += len(took)
        wrong_total += wrong
        print(f"{claim.name:34}{len(took):9}{held:7}{len(took) - held:7}{wrong:7}{1e3 * sum(took) / len(took):9.2f}{1e3 * max(took):9.1f}")
    print(f"{total} formulas in {time.perf_counter() - begin:.1f} seconds, {wrong_total} verdicts other than known")
    return wrong_total > 0


if __name__ == "__main__":
    sys.exit(main(*(list(map(int, sys.argv[1:])) + [6, 25][len(sys.argv) - 1:])))
