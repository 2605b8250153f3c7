"""Reads sources of Rattle by their lines, as far as the scripts of this repository need it: where a line stands, and clauses."""
import re

BLOCK = re.compile(r"(?:pub(?:\([^)]*\))? )?(?:unsafe )?(impl|trait)\b(.*)")
ITEM = re.compile(r"\s*(?:pub(?:\([^)]*\))? )?(?:const )?(fn|const|struct|enum|static) (\w+)")
CLAUSE = re.compile(r"\s*(?:pub )?(requires|ensures|invariant|inverse|ghost(?! use\b))\*?(?: (\w+))?\b")


def type_of(kind, rest):
    """The type of the line that begins an `impl` or a `trait`: of `impl<R> Target for FolderTarget<R> {` it is FolderTarget."""
    rest = re.sub(r"\{.*", "", rest)
    while rest != (rest := re.sub(r"<[^<>]*>", "", rest)):
        pass
    name = rest.split(" for ")[-1] if kind == "impl" else rest.split(":")[0]
    return name.strip().lstrip("&").split("::")[-1].split()[-1]


def placed(source):
    """Each line with the function or other item that it stands in or begins, as `Id::read`."""
    block = item = None
    for line in source.splitlines():
        if found := BLOCK.match(line):
            block, item = type_of(*found.groups()), None
        if found := ITEM.match(line):
            block = block if line[0].isspace() else None
            item = found.group(2)
        yield "::".join(name for name in (block, item) if name), line


def balance(line):
    """How many brackets of any kind the line leaves open."""
    return sum(line.count(c) for c in "{([") - sum(line.count(c) for c in "})]")


def clauses(source):
    """The clauses by their places, as `Id::read ensures some`, each in one line without the blanks that lay it out."""
    found, name, depth = {}, None, 0
    for place, line in placed(source):
        if depth == 0:
            begins = CLAUSE.match(line)
            if not begins:
                continue
            name = " ".join(word for word in (place, *begins.groups()) if word)
            while name in found:
                name += " again"
            found[name] = ""
        found[name] += " " + line.strip()
        depth = max(0, depth + balance(line))
    return {name: " ".join(text.split()) for name, text in found.items()}
