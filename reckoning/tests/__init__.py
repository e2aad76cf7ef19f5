"""Tests of the second reckoning, by jobs and reckonings of its own."""
