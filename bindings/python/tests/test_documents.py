"""The examples in the documentation do what they show."""

import doctest
import importlib
import pkgutil
import unittest
from pathlib import Path

import guineaplume

README = Path(__file__).resolve().parent.parent / 'README.md'

# modules that are asked for only where another package is at hand
APART = ('_arrays', 'plotting')


def load_tests(loader, tests, pattern):
    for module in pkgutil.iter_modules(guineaplume.__path__):
        if module.name not in APART:
            tests.addTests(doctest.DocTestSuite(importlib.import_module('guineaplume.' + module.name)))
    tests.addTests(doctest.DocTestSuite(guineaplume))
    tests.addTests(doctest.DocFileSuite(str(README), module_relative=False))
    return tests


if __name__ == '__main__':
    unittest.main()
