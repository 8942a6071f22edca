"""Assigns cases to numbers: a seed and a number determine a case completely."""

import random
from collections.abc import Callable

from . import checks, evals, inputs, large, makes, shows, simulations
from .case import Case

Maker = Callable[[random.Random, int], object]

# For each kind, in the order of their numbers, how many cases there are, and a function that makes the case with a
# number from 0.
PLAN: dict[str, tuple[int, Maker]] = {
    "large": (len(large.MAKERS), large.case),
    "inputs": (500, inputs.case),
    "simulate": (1_800, lambda chance, _: simulations.case(chance)),
    "make": (1_000, lambda chance, _: makes.case(chance)),
    "check": (1_600, lambda chance, _: checks.case(chance)),
    "eval": (1_200, evals.case),
    "show": (600, lambda chance, _: shows.case(chance)),
}

CASES = sum(count for count, _ in PLAN.values())


def kind_of(number: int) -> tuple[str, int]:
    """Returns the kind of a case, and its number within the kind."""
    for kind, (count, _) in PLAN.items():
        if number < count:
            return kind, number
        number -= count
    raise ValueError(f"there are {CASES} cases")


def case_of(seed: int, number: int) -> Case:
    """Returns the case with a number from 0."""
    kind, at = kind_of(number)
    return PLAN[kind][1](random.Random(f"{seed} {number}"), at)
