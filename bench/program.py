"""The program that the scripts look at: that of the environment variable XP_PROGRAM, or the one that `./xp prove` built."""

import os
import pathlib

TOP = pathlib.Path(__file__).resolve().parent.parent
PROGRAM = pathlib.Path(os.environ.get("XP_PROGRAM") or TOP / "crates/xp/out/xp").absolute()
# What a script's --help says of its default.
DEFAULT = "default: that of XP_PROGRAM, or the one that ./xp prove built"
