"""The elementary functions (docs/RULES.md, section 3). Each is refused by 1 where its argument is not finite, by 2 where it
lies below the range and by 10 where above it; ranges include their ends."""
from ._calls import one


def exp(x: float) -> float:
    """Range -700 to 700; within 2^-45 times the exact value; exactly 1 at 0."""
    return one("exp", "elementary.exp", x=x)


def ln(x: float) -> float:
    """Range 2^-60 to 2^60; within 2^-45; exactly 0 at 1."""
    return one("ln", "elementary.ln", x=x)


def sinh(x: float) -> float:
    """Range -700 to 700; within 2^-45 times (1 + size of the exact value)."""
    return one("sinh", "elementary.sinh", x=x)


def sin(x: float) -> float:
    """Range -8 to 8; within 2^-45."""
    return one("sin", "elementary.sin", x=x)


def sqrt(x: float) -> float:
    """Range: at least 0; correctly rounded."""
    return one("sqrt", "elementary.sqrt", x=x)


def cbrt(x: float) -> float:
    """x^(1/3). Range 2^-60 to 2^60; within 2^-45 times the exact value. So the three that follow."""
    return one("cbrt", "elementary.cbrt", x=x)


def inv_cbrt(x: float) -> float:
    """x^(-1/3)."""
    return one("inv_cbrt", "elementary.inv_cbrt", x=x)


def cbrt_squared(x: float) -> float:
    """x^(2/3)."""
    return one("cbrt_squared", "elementary.cbrt_squared", x=x)


def inv_cbrt_squared(x: float) -> float:
    """x^(-2/3)."""
    return one("inv_cbrt_squared", "elementary.inv_cbrt_squared", x=x)
