"""A function or an operator, as the judged server describes it."""

from dataclasses import dataclass


@dataclass(frozen=True)
class Call:
    """Its name, its declared types, and what pg_proc says about it."""

    name: str
    arguments: tuple[str, ...]
    result: str
    is_strict: bool
    volatility: str
    # Whether it is in pg_catalog.
    is_own: bool

    @property
    def signature(self) -> str:
        """Returns its name in judge's tables, such as `lower(text)`."""
        return f"{self.name}({','.join(self.arguments)})"

    @property
    def is_immutable(self) -> bool:
        return self.is_own and self.volatility == "i"
