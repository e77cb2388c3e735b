"""The checks of documents and sources, which need no built program: `python3 tests/acceptance/run.py --texts` runs them, and so does the acceptance run."""
