"""Starts a companion, whose module is the first word. The starters in bin/ call this. Older Pythons must be able to read this file."""

import sys

if sys.version_info < (3, 9):
    sys.stderr.write("this python3 is version %d.%d; the companions need version 3.9 or later\n" % sys.version_info[:2])
    sys.exit(126)

import importlib

import common

common.start(importlib.import_module(sys.argv[1]).main, sys.argv[2:])
