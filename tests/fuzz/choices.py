"""Small choices that the makers of random inputs share."""
import random
from collections.abc import Sequence
from typing import TypeVar

Value = TypeVar("Value")


def mostly(choice: random.Random, share: float, value: Value, other: Value) -> Value:
    return value if choice.random() < share else other


def some(choice: random.Random, values: Sequence[Value], least: int, most: int) -> list[Value]:
    """Different values, from the least to the most number of them."""
    return choice.sample(values, min(len(values), choice.randint(least, most)))


def near(choice: random.Random, limit: int, distance: int = 2) -> int:
    """A number at a limit, below it or above it."""
    return limit + choice.randint(-distance, distance)
