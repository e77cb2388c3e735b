"""The checks, one module a subject; each gives its own by `cases()`. tests/acceptance/run.py names them in the order in which they run."""
