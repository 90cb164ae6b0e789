"""Unit tests of the tools' modules: python3 -m unittest discover -s python/tests -t python."""
