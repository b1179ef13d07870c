#!/usr/bin/env python3
"""A command of the package macsec: the one that this file is installed as, such as macsec-why."""

import importlib
import os
import sys

# So that nothing is written beside the installed package.
sys.dont_write_bytecode = True
# Where `make install-python` puts the package: lib/macsec/python beside the folder of the commands.
PREFIX = os.path.dirname(os.path.dirname(os.path.realpath(__file__)))
sys.path.insert(0, os.path.join(PREFIX, "lib", "macsec", "python"))

if __name__ == "__main__":
    name = os.path.basename(sys.argv[0])[len("macsec-") :]
    sys.exit(importlib.import_module(f"macsec.cli.{name}").main())
