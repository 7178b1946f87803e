"""How the checks of this folder read Rattle and antt sources: functions, constants and declarations, with their lines."""
import functools
import glob
import os
import re

ROOT = os.path.normpath(os.path.join(os.path.dirname(os.path.abspath(__file__)), ".."))
# A comment of either language, a string, or a character. A lifetime ('a) is none.
UNREAD = re.compile(r"//[^\n]*|--[^\n]*|/\*.*?\*/|\{-.*?-\}|\"(?:\\.|[^\"\\])*\"|'(?:\\[^']+|[^'\\])'", re.S)
FUNCTION = re.compile(r"\b(pub(?:\([^)]*\))?\s+)?(?:(?:const|unsafe|extern(?:\s*\"\s*\")?)\s+)*fn\s+(\w+)")
# A clause of a kind that has more than one bears a name.
CLAUSE = re.compile(r"\b(ghost|requires|ensures)\b\*?[ \t]*(?:\w+[ \t]*)?\{|\{")
# A name of antt is any run of characters but these.
NAME = r"[^\s(){}.;,@\"«»]+"
DECLARATION = re.compile(rf"^(?:(?:abbrev|unfoldable)\s+)?(?:pub\s+)?(?:(record|data)\s+({NAME})(?=\s)|({NAME})\s+:\s)")


def read(path):
    with open(os.path.join(ROOT, path)) as file:
        return file.read()


@functools.lru_cache
def crates():
    """The crates in their order, each with those that it uses."""
    lines = [line.split("#")[0] for line in read("crates.txt").splitlines()]
    return {name.split()[0]: used.split() for name, used in (line.split(":") for line in lines if line.strip())}


def libraries():
    return [crate for crate in crates() if os.path.exists(f"{ROOT}/crates/{crate}/src/lib.rt")]


def plain(text):
    """A text with comments, strings and characters made blank, each line and place where it was."""
    return UNREAD.sub(lambda found: re.sub(r"[^\n\"]", " ", found.group()), text)


def block_end(text, start):
    """The place behind the bracket that closes the one at `start`."""
    closing = {"{": "}", "(": ")", "[": "]"}[text[start]]
    depth = 0
    for place in range(start, len(text)):
        depth += (text[place] == text[start]) - (text[place] == closing)
        if depth == 0:
            return place + 1
    raise ValueError(f"no {closing} for the bracket at {start}")


class Item:
    """A function, a method or a constant of a crate: its name with the crate and, of a method, the type; its lines; a function's parts."""

    def __init__(self, crate, path, name, text, start, end):
        self.crate, self.path, self.name = crate, path, f"{crate}::{name}"
        self.text = text[start:end]
        self.lines = range(text.count("\n", 0, start), text.count("\n", 0, end) + 1)
        self.public = self.function = False
        # The name that it shares with those that call it and that it calls, where there is one.
        self.cycle = None
        # Of a trait's method, the type that has it.
        self.type = None
        self.generics, self.parameters, self.answer, self.clauses = "", "", "", []

    def says(self, other):
        """Whether the code calls a function of the crate by its name, or names a constant."""
        if not other.function:
            return re.search(rf"\b{other.name.split('::')[-1]}\b", self.text) is not None
        before = re.findall(rf"(?:(\w+)::)?(?<!fn )\b{other.name.split('::')[-1]}\s*(?:::<[^()]*>)?\(", self.text)
        return any(word not in crates() for word in before)

    def calls(self, other):
        """Whether the code calls another function of the crate, or names a constant. A trait's method is one for each type that has it: it is called where
        there is a value of that type, by the code or by what the value is handed to."""
        if not other.type:
            return self.says(other)
        return other.type in self.types and any(item.says(other) for item in [self, *self.called])

    @functools.cached_property
    def called(self):
        """The functions of the crate that it calls, without the methods of traits."""
        return [item for item in items(self.crate) if item.function and not item.type and self.says(item)]

    @functools.cached_property
    def types(self):
        """The types that the code has values of: those that it names, those that what it calls answers, in another crate too, and those of the fields of
        these that it names. One of the language, as usize, counts in an answer, and not in a field."""
        abroad = {f"{crate}::{name}" for crate, name in re.findall(r"\b(\w+)::(\w+)\(", self.text) if crate in crates()}
        called = self.called + [item for name in abroad for item in items(name.split("::")[0]) if item.name == name]
        found = {word for item in called for word in re.findall(r"\w+|\(\)", item.answer)} | set(re.findall(r"\b[A-Z]\w*", self.text))
        inside = [kind for owner, name, kind in fields() if owner in found and re.search(rf"\.{name}\b", self.text)]
        return found | set(re.findall(r"\b[A-Z]\w*", " ".join(inside)))


@functools.lru_cache
def fields():
    """The fields of the crates' structs: of which struct, the name, and the type."""
    texts = [plain(read(os.path.relpath(path, ROOT))) for path in sorted(glob.glob(f"{ROOT}/crates/*/src/**/*.rt", recursive=True))]
    structs = [found for text in texts for found in re.findall(r"(?ms)^(?:pub )?struct (\w+)[^{;]*\{(.*?)^\}", text)]
    return [(owner, name, kind) for owner, body in structs for name, kind in re.findall(r"(\w+): (.*),", body)]


def owner_of(trait, kind):
    """What the prover calls the functions of an impl by: the type, and the trait that it has, if it has one, with what that is for: UsizeValues2."""
    if not trait:
        return kind
    name = "Unit" if kind == "()" else kind[:1].upper() + kind[1:]
    return name + "".join(re.findall(r"\w+", trait))


def function_in(crate, path, text, found, types):
    """The function whose head was found; `types` are the places of the methods' types, each with what the prover calls it by and, for a trait, its name."""
    owner, kind = next((names for names, start, end in types if start < found.start() < end), (None, None))
    name = f"{owner}::{found.group(2)}" if owner else found.group(2)
    opening = text.index("(", found.end())
    at = behind = block_end(text, opening)
    clauses = []
    while (clause := CLAUSE.search(text, at)).group(1):
        at = block_end(text, clause.end() - 1)
        clauses.append((clause.group(1), text[clause.end():at - 1], clause.start()))
    item = Item(crate, path, name, text, found.start(), block_end(text, clause.end() - 1))
    item.function = True
    item.public = found.group(1) is not None
    item.type = kind
    cycle = re.search(r"#\[cycle\((\w+)\)\]\s*(?:#\[[^\]]*\]\s*)*$", text[:found.start()])
    item.cycle = cycle.group(1) if cycle else None
    item.generics = text[found.end():opening]
    item.parameters = text[opening + 1:behind - 1]
    item.answer = text[behind:clauses[0][2] if clauses else clause.start()].replace("->", "").strip()
    item.clauses = [clause[:2] for clause in clauses]
    return item


@functools.lru_cache
def items(crate):
    """The functions, methods and constants of a crate's sources."""
    found = []
    for path in sorted(glob.glob(f"{ROOT}/crates/{crate}/src/**/*.rt", recursive=True)):
        path = os.path.relpath(path, f"{ROOT}/crates/{crate}")
        text = plain(read(f"crates/{crate}/{path}"))
        types = [((owner_of(head.group(1), head.group(2)), head.group(1) and head.group(2)), head.start(), block_end(text, head.end() - 1))
                 for head in re.finditer(r"(?m)^impl\b(?:\s*<[^>]*>)?\s+(?:([^{]*?)\bfor\s+)?([\w()]+)[^{]*\{", text)]
        found += [function_in(crate, path, text, head, types) for head in FUNCTION.finditer(text)]
        found += [Item(crate, path, head.group(1), text, head.start(), block_end(text, head.end() - 1))
                  for head in re.finditer(r"(?m)^(?:pub )?const (\w+): [^=]*= \[", text)]
    return found


def public_functions():
    """The public functions and methods of the libraries."""
    return [item for crate in libraries() for item in items(crate) if item.public]


def reached(function, among):
    """A function with the private functions and the constants that it uses, directly or not."""
    found, left = [function], [function]
    while left:
        user = left.pop()
        new = [item for item in among if not item.public and item not in found and user.calls(item)]
        found += new
        left += new
    return found


class Declaration:
    """A declaration of an antt file: its name, whether it is a record or data, its type as one line, its text and its lines."""

    def __init__(self, kind, name, lines, first):
        self.kind, self.name = kind, name
        self.text = "\n".join(lines)
        self.lines = range(first, first + len(lines))
        head = self.text.split(" where", 1)[0] if kind else self.signature(lines)
        self.type = " ".join(head.split(name, 1)[1].split())

    @staticmethod
    def signature(lines):
        """The first line and those further in that follow it."""
        more = next((k for k, line in enumerate(lines[1:], 1) if line and not line[0].isspace()), len(lines))
        return "\n".join(lines[:more])

    def names(self):
        return set(re.findall(NAME, self.text))

    def fields(self):
        """The fields of a record, each with its type as one line."""
        parts = re.split(rf"(?m)^  (?:pub )?({NAME}) : ", self.text.split(" where", 1)[1])
        return {name: " ".join(kind.split()) for name, kind in zip(parts[1::2], parts[2::2])}


def declarations(path):
    """The declarations of an antt file, in order. What is declared inside a section, `module _ .. where`, is not among them."""
    lines = plain(read(path)).split("\n")
    starts = [(k, found) for k, found in ((k, DECLARATION.match(line)) for k, line in enumerate(lines)) if found]
    ends = [k for k, _ in starts[1:]] + [len(lines)]
    return [Declaration(found.group(1), found.group(2) or found.group(3), lines[k:end], k) for (k, found), end in zip(starts, ends)]


class Change:
    """A wrong answer that is tried: its crate, its name, and its steps, each a file, a text in it and what that becomes. An entry of the list
    has the public function that it is `of`, and the one that is `changed`."""

    def __init__(self, crate, name, steps, of=None, changed=None):
        self.crate, self.name, self.steps, self.of, self.changed = crate, name, steps, of, changed

    def lines(self):
        """The lines that it changes, each with its file. A step goes on from the text that those before it have left."""
        texts, found = {}, set()
        for path, old, new in self.steps:
            lines = texts.setdefault(path, read(f"crates/{self.crate}/{path}").split("\n"))
            for k, line in enumerate(lines):
                if old in line:
                    found.add((path, k))
                    lines[k] = line.replace(old, new)
        return found


def edits(folder="*"):
    """The must-fail edits of all crates, which rt tries, and their wrong definitions, which tests/wrong_answers tries; or those of one folder."""
    for path in sorted(glob.glob(f"{ROOT}/crates/*/{folder}/*.edit")):
        steps, where = [], None
        for line in read(path).splitlines():
            word, _, rest = line.partition(": ")
            if word == "file":
                where = rest
            elif word == "old":
                old = rest
            elif word == "new":
                steps.append((where, old, rest))
        yield Change(path.split("/")[-3], os.path.basename(path)[:-5], steps)


def wrong_answers():
    """The entries of tests/wrong_answers.txt."""
    for block in re.split(r"\n\n+", re.sub(r"(?m)^#.*\n", "", read("tests/wrong_answers.txt")).strip("\n")):
        head, old, new = block.split("\n")
        function, name, *private = head.split(" ")
        assert old[:2] == "- " and new[:2] == "+ " and private[:1] in ([], ["in"]) and len(private) in (0, 2), block
        crate = function.split("::")[0]
        yield Change(crate, name, [("src/lib.rt", old[2:], new[2:])], function, f"{crate}::{private[1]}" if private else function)


def promise_words(function):
    """The definitions of the function's crate that its promise names, directly or through one another."""
    among = [(os.path.relpath(path, f"{ROOT}/crates/{function.crate}"), declared)
             for path in sorted(glob.glob(f"{ROOT}/crates/{function.crate}/specs/*.antt")) for declared in declarations(path)]
    found, left = [], [set(re.findall(NAME, text)) for kind, text in function.clauses if kind == "ensures"]
    while left:
        names = left.pop()
        new = [pair for pair in among if pair not in found and pair[1].name in names]
        found += new
        left += [declared.names() for _, declared in new]
    return found


def touches(change, function):
    """Whether a change is of the function itself: of its own lines, of a private function's or a constant's that it uses, or of a definition of
    its crate that its promise names."""
    if change.crate != function.crate:
        return False
    parts = [(item.path, item.lines) for item in reached(function, items(function.crate))]
    parts += [(path, declared.lines) for path, declared in promise_words(function)]
    return any(path == where and line in lines for where, line in change.lines() for path, lines in parts)
