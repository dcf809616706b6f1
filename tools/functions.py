"""Where the functions of a source file stand, by its layout (`rt fmt`), and the names that the prover has for them."""

import re

FUNCTION = re.compile(r" *(?:pub(?:\([^)]*\))? )?(?:const )?(?:unsafe )?(?:extern \"C\" )?fn (\w+)")
CONSTANT = re.compile(r" *(?:pub(?:\([^)]*\))? )?(?:const|static) (\w+):")
BLOCK = re.compile(r" *(?:unsafe )?(?:impl|trait|pub trait|pub\(crate\) trait)\b")


def indentation(line):
    return len(line) - len(line.lstrip(" "))


def last_word(path):
    """`fmt::Display` and `Octets<'_, A>` without their path and what stands in brackets."""
    return path.partition("<")[0].strip().rpartition("::")[2]


def without_brackets(text):
    """The text without what stands in angle brackets, as parameters of types."""
    text = text.replace("->", "")
    while True:
        shorter = re.sub(r"<[^<>]*>", "", text)
        if shorter == text:
            return text
        text = shorter


class Source:
    """A file of a crate's src/."""

    def __init__(self, folder, path):
        module = path.relative_to(folder).with_suffix("").parts
        self.module = [it for it in module if it not in ("lib", "main", "mod")]
        self.lines = path.read_text(encoding="utf-8").split("\n")

    def function_with(self, text):
        """The name of the function in which a text of one line stands first, or None."""
        at = next((number for number, line in enumerate(self.lines) if text in line), None)
        return None if at is None else self.function_at(at)

    def constant_with(self, text):
        """The name of the constant in whose line a text stands first, or None."""
        line = next((it for it in self.lines if text in it), "")
        found = CONSTANT.match(line)
        return found[1] if found else None

    def naming(self, names):
        """The functions in which one of these names stands."""
        word = re.compile(rf"\b(?:{'|'.join(map(re.escape, sorted(names)))})\b") if names else None
        found = {self.function_at(number) for number, line in enumerate(self.lines) if word and word.search(line)}
        return found - {None}

    def function_at(self, at):
        heading = self.heading_above(at)
        if heading is None:
            return None
        name = FUNCTION.match(self.lines[heading])[1]
        block = self.block_above(heading)
        if block is None:
            return "::".join([*self.module, name])
        # A method has the path of its type, which may stand in another file. The end of a name is enough.
        is_here = any(re.match(rf" *(?:pub(?:\([^)]*\))? )?(?:struct|enum) {block}\b", it) for it in self.lines)
        return "::".join([*(self.module if is_here else []), block, name])

    def heading_above(self, at):
        """The line on which the function begins that this line stands in, or None."""
        for number in range(at, -1, -1):
            line = self.lines[number]
            depth = indentation(line)
            if FUNCTION.match(line) and (number == at or depth < indentation(self.lines[at])):
                return number if not self.ends_between(number, at, depth) else None
        return None

    def ends_between(self, start, end, depth):
        return any(self.lines[it] == " " * depth + "}" for it in range(start, end))

    def block_above(self, heading):
        """The type whose `impl` a function stands in, as the prover names it: with its trait, where the block has one."""
        depth = indentation(self.lines[heading])
        for number in range(heading - 1, -1, -1) if depth else ():
            if BLOCK.match(self.lines[number]) and indentation(self.lines[number]) < depth:
                return self.block_name(number)
        return None

    def block_name(self, number):
        text = ""
        for line in self.lines[number:]:
            text += " " + line.strip()
            if "{" in line:
                break
        text = without_brackets(text.partition("{")[0].partition(" where ")[0])
        of_trait = re.search(r"\bimpl\s+([\w:]+)\s+for\s+&?(?:mut )?([\w:]+)", text)
        if of_trait:
            return last_word(of_trait[2]) + last_word(of_trait[1])
        return last_word(re.search(r"\b(?:impl|trait)\s+([\w:]+)", text)[1])
