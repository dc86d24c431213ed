"""Finds the declarations of .antt files and the functions of .rt files, by their layout alone."""
import re

SIGNATURE = re.compile(r"((?:unfoldable |abbrev |axiom |pub )*)([^\s(){}.,;]+)(?: \{[^}]*\})? :(?:\s|$)")
# the files of a proof folder that answer for one function
OF_ONE_FUNCTION = ("Answers.antt", "Invariants.antt", "Proof.antt")

TYPE = re.compile(r"(?:pub )?(?:record|data) ([^\s(){}.,;]+)")


class Declaration:
    """A name with its marks (or `record`, `data`), and the lines that are its own."""

    def __init__(self, name, marks, begin):
        self.name, self.marks, self.begin, self.end = name, marks, begin, None


def declarations(text):
    """The declarations of an .antt text, at the top and in sections (`module .. where`).

    Fields, constructors and helpers behind a `where` stand further in than the level of their section.
    """
    found, levels, heading = [], [0], False
    opened = False  # a section has just begun: the next line sets its level
    for number, line in enumerate(text.split("\n")):
        words = line.strip()
        if not words or words.startswith("--"):
            continue
        indent = len(line) - len(line.lstrip())
        if heading:  # a section's parameters go on
            heading, opened = not words.endswith("where"), words.endswith("where")
            continue
        if opened:
            levels.append(indent)
            opened = False
        while indent < levels[-1]:
            levels.pop()
        if indent != levels[-1]:
            continue
        if words.startswith("module "):
            heading, opened = not words.endswith("where"), words.endswith("where")
            marks, name = None, None
        elif TYPE.match(words):
            marks, name = words.split(" where")[0].replace("pub ", "").split()[0], TYPE.match(words).group(1)
        elif SIGNATURE.match(words):
            marks, name = SIGNATURE.match(words).group(1), SIGNATURE.match(words).group(2)
        else:
            continue
        if found and found[-1].end is None:
            found[-1].end = number
        if name:
            found.append(Declaration(name, marks, number))
    if found and found[-1].end is None:
        found[-1].end = len(text.split("\n"))
    return found


def members(text, declaration):
    """The fields of a record or the constructors of a data type, each with its line."""
    if declaration.marks not in ("record", "data"):
        return []
    lines, found, level = text.split("\n"), [], None
    outer = len(lines[declaration.begin]) - len(lines[declaration.begin].lstrip())
    for number in range(declaration.begin + 1, declaration.end):
        words, indent = lines[number].strip(), len(lines[number]) - len(lines[number].lstrip())
        if not words or words.startswith("--") or indent <= outer:
            continue
        level = indent if level is None else level
        if indent == level and SIGNATURE.match(words):
            found.append((SIGNATURE.match(words).group(2), number))
    return found


def is_lemma(declaration):
    return not any(word in declaration.marks for word in ("record", "data", "abbrev", "unfoldable"))


BLANKED = re.compile(r"//[^\n]*|/\*.*?\*/|b?\"(?:\\.|[^\"\\])*\"|b?'(?:\\[^']*|[^'\\\n])'", re.S)


def plain(source):
    """The source with comments, texts and characters, which may hold braces, blanked out. Every place stays."""
    return BLANKED.sub(lambda m: re.sub(r"[^\n]", " ", m.group(0)), source)


def block(source, at):
    """Where the braces that open at `at` are closed."""
    depth = 0
    for end in range(at, len(source)):
        depth += (source[end] == "{") - (source[end] == "}")
        if depth == 0:
            return end + 1
    return len(source)


def blocks(source, heading):
    """The blocks behind a heading, which ends with the brace that opens them."""
    return [(m.start(), block(source, m.end() - 1)) for m in re.finditer(heading, source)]


class Function:
    """A function: its name, the type or impl that it belongs to, whether it has a body and where this begins and ends, whether callers
    outside see it, the names of its ensures clauses ("" for a clause without one), whether it is a test, and where it stands."""

    def __init__(self, name, owner, body, public, clauses, test, begin, span):
        self.name, self.owner, self.body, self.public, self.clauses = name, owner, body, public, clauses
        self.test, self.begin, self.span = test, begin, span

    def path(self):
        return "%s::%s" % (self.owner, self.name) if self.owner else self.name


IMPL = re.compile(r"^impl(?:<[^>]*>)? (?:([\w<>:, ]+) for )?(\w+|\([\w, ]+\))[^{]*?\s*\{", re.M)


def impl_name(trait, name):
    """The name that the check gives an impl: the type's, and behind it the trait's with its arguments, as RefusalFromFault, U8Field, Tuple2Field."""
    words = re.sub(r"\w+::", "", trait or "")
    name = "Tuple%d" % (name.count(",") + 1) if name[0] == "(" else name
    return "".join(word[0].upper() + word[1:] for word in [name] + re.findall(r"\w+", words))


def owners(source):
    """The blocks of impls, each with the name of its type, and behind it that of its trait where it has one, and whether it has one."""
    return [(m.start(), block(source, m.end() - 1), impl_name(m.group(1), m.group(2)), m.group(1) is not None) for m in IMPL.finditer(source)]


def functions(source):
    """The functions of an .rt source."""
    source = plain(source)
    tests = blocks(source, r"#\[cfg\(test\)\]\s*(?:pub )?mod \w+\s*\{")
    traits = blocks(source, r"\bpub trait \w+[^{;]*\{")
    impls = owners(source)
    found = []
    for match in re.finditer(r"(#\[test\]\s*)?((?:pub )?)(?:const |unsafe |extern )*fn (\w+)", source):
        at, clauses = match.end(), []
        while at < len(source) and source[at] not in "{;":
            clause = re.compile(r"(requires|ensures)\b([^{;]*)").match(source, at) if source[at - 1].isspace() else None
            if clause:
                clauses += [clause.group(2).strip()] if clause.group(1) == "ensures" else []
                at = block(source, clause.end())
            elif source[at] == "[":  # an array's type has a ';' of its own
                at = source.index("]", at) + 1
            else:
                at += 1
        inside = any(a <= match.start() < b for a, b in tests)
        public = bool(match.group(2)) or any(a <= match.start() < b for a, b in traits)
        body = at < len(source) and source[at] == "{"
        owner = next((name for a, b, name, _ in impls if a <= match.start() < b), "")
        span = (at, block(source, at)) if body else (at, at)
        found.append(Function(match.group(3), owner, body, public, clauses, inside or bool(match.group(1)), match.start(), span))
    return found
