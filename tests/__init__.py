"""The project's own tests, run by `tests/run.py` after the proofs."""
