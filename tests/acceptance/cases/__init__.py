"""The cases, one module a subject; each gives its own by `cases()`. run.py names them in the order in which they run."""

import harness  # noqa: F401  (it makes the reference importable)
