"""What cases are made with: rooms in which the program runs, what is traced and made to fail there, histories and proofs to ask about, and
the reference's answers."""

from harness import places  # noqa: F401  (it makes the reference importable)
