"""Whose receipts are believed first: a receipt isn't signed, and may be made up."""

from __future__ import annotations

from typing import Collection, Iterable, Mapping, TypeVar

Told = TypeVar("Told")


def find_doubted(failed: Iterable[Told], tellers: Mapping[Told, Collection[str]]) -> set[str]:
    """Whoever told something that its receiver couldn't prove is doubted, in all that he told."""
    return {teller for it in failed for teller in tellers.get(it, ())}


def list_trusted(tellers: Mapping[Told, Collection[str]], doubted: Collection[str]) -> list[Told]:
    """What is told is trusted where somebody told it who isn't doubted; what only doubted ones told is tried once nothing else leads on."""
    return [told for told, names in tellers.items() if any(name not in doubted for name in names)]
