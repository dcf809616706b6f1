#!/usr/bin/env python3
"""Prints the licences of the kit's libraries that the program xp has in it: each once, behind the names of its libraries.

Of a library under MIT or Apache-2.0 it prints MIT. Of Apache-2.0 it names the file that each Debian has.
"""

import collections
import os
import pathlib
import textwrap

from kit import load_kit

TOP = os.path.dirname(os.path.dirname(os.path.realpath(__file__)))
APACHE = "Apache-2.0: /usr/share/common-licenses/Apache-2.0"


def libraries(kit):
    """The folders of the kit's libraries that the program has in it."""
    program = kit.Crate(f"{TOP}/crates/xp", TOP, {})
    names = [name for crate in [program, *program.below()] for name in crate.of_kit]
    roots = [word.partition("=")[2] for word in kit.kit_sources(names) if word != "--lib"]
    return sorted(pathlib.Path(root).parent.parent for root in roots)


def licences_of(folder):
    """The licences of a library."""
    texts = {file.name: file.read_text(encoding="utf-8") for file in sorted(folder.glob("LICENSE*"))}
    if "LICENSE-MIT" in texts:
        texts.pop("LICENSE-APACHE", None)
    return [APACHE if text.lstrip().startswith("Apache License") else textwrap.dedent(text).strip() for text in texts.values()]


def main():
    names = collections.defaultdict(list)
    for folder in libraries(load_kit()):
        for text in licences_of(folder):
            names[text].append(folder.name)
    for text, of in names.items():
        print(f"\n{textwrap.fill(', '.join(of) + ':', 100)}\n\n{text}")


if __name__ == "__main__":
    main()
