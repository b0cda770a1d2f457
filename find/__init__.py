"""Searches for a schedule of a protocol that reaches a bad state. docs/searching.md says how to use it."""
