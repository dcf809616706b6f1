"""The kit's own module, of which its command rt is made, for the tools beside this file.

    python3 tools/kit.py WORD ..    does what `rt WORD ..` does, in the folder that it is run in
"""

import functools
import importlib.util
import os
import subprocess
import sys
import threading


def without_repeats(method):
    """Returns a method of a crate that asks each crate below once in a call. The kit's own asks it once for each way that leads down to it,
    which takes minutes for the highest crates."""
    calls = threading.local()

    @functools.wraps(method)
    def asked(crate, *words):
        is_outermost = not hasattr(calls, "answers")
        if is_outermost:
            calls.answers = {}
        try:
            key = (crate.folder, *words)
            if key not in calls.answers:
                calls.answers[key] = method(crate, *words)
            answer = calls.answers[key]
            return list(answer) if isinstance(answer, list) else answer
        finally:
            if is_outermost:
                del calls.answers

    return asked


def load_kit():
    """Returns the module of the kit that the command rt is made of."""
    page = subprocess.run(["rt", "doc"], stdout=subprocess.PIPE, universal_newlines=True, check=True)
    file = f"{os.path.dirname(page.stdout.strip())}/bin/rtlib.py"
    # The kit's folder is left as it is.
    sys.dont_write_bytecode = True
    spec = importlib.util.spec_from_file_location("rtlib", file)
    kit = importlib.util.module_from_spec(spec)
    spec.loader.exec_module(kit)
    for name in ("below", "stamp"):
        setattr(kit.Crate, name, without_repeats(getattr(kit.Crate, name)))
    return kit


if __name__ == "__main__":
    sys.exit(load_kit().main(*sys.argv[1:]))
