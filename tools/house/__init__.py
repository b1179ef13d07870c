"""What the tools and the tests share. A program elsewhere than in tools/ puts that folder on `sys.path` first."""

import pathlib

# The top of the project.
ROOT = pathlib.Path(__file__).resolve().parents[2]
