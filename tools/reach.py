"""What the contract of a function reaches: definitions of crates/*/specs, and types of crates/*/src.

A definition reaches each name that its text uses, by the imports of its file, through files that only hand names on
(`pub use`); where the name is that of a case, it reaches the type of the case. A type of the code that contracts see by a
model reaches what the model names, any other what its declaration names, and a trait what its ghost members name. Files of
proofs/ and the contracts of other functions are not followed. A name that is bound where it stands counts as the definition
of that name where the file has one: so what is listed may be too much, but not too little.
"""
import collections
import os
import re

ROOT = os.path.dirname(os.path.dirname(os.path.abspath(__file__)))

DEFINITION = re.compile(r"( *)(?:(?!unfoldable pub use )(?:abbrev|unfoldable)(?: pub)?|pub (?:record|data)) (?!mutual$)(?:\{[^}]*\} *)?([A-Za-z_]\w*)")
# In a block of definitions that use each other.
IN_MUTUAL = re.compile(r"( +)pub ([A-Za-z_]\w*) :")
IMPORT = re.compile(r"^ *(?:unfoldable )?(?:pub |ghost )*use Rattle\.(\w+)\.specs\.([\w.]+?)(?:\.\{([^}]*)\}| as (\w+));?$", re.M)
TYPE = re.compile(r"^(?:pub(?:\([^)]*\))? )?(?:struct|(enum|trait)|type) ([A-Za-z_]\w*)", re.M)
# A declaration is one line that ends it, or lines up to the bracket at the margin.
DECLARATION = re.compile(r"[^\n]*(?:;|\{\})$|[^\n]*\n(?:[^}\n][^\n]*\n|\n)*\}", re.M)
RUST_USE = re.compile(r"^(?:pub )?use (crate|sc_\w+)(?:::\w+)*?::(?:\{([^}]*)\}|(\w+(?: as \w+)?));", re.M)
USED = re.compile(r"(?<![\w.])[A-Za-z_]\w*")

# A definition, or a type of the code. Its comment is a list of lines, and `text` is what is searched for names.
Item = collections.namedtuple("Item", "name crate path is_type comment text")


def read(path):
    with open(os.path.join(ROOT, path), encoding="utf-8") as it:
        return it.read()


def files_below(folder, endings):
    found = []
    for at, folders, names in os.walk(os.path.join(ROOT, folder)):
        folders[:] = sorted(it for it in folders if it != "out")
        found += [os.path.relpath(os.path.join(at, it), ROOT) for it in sorted(names) if it.endswith(endings)]
    return found


def pairs_of(listed):
    """Of `a, B as C`: what each name is called there, by what it is called here."""
    found = {}
    for part in filter(None, (it.strip() for it in listed.split(","))):
        there, _, here = part.partition(" as ")
        found[here.strip() or there] = there
    return found


def imports_of(text):
    """What each imported name is: a crate, a path below its specs, and a name there."""
    found = {}
    for crate, path, listed, alias in IMPORT.findall(text):
        for here, there in pairs_of(listed or f"_ as {alias}").items():
            found[here] = (crate, path, there)
    return found


def without_texts(text):
    """A definition without comments and strings."""
    return re.sub(r"(?m)(?:^|\s)--\s.*$", "", re.sub(r'"[^"\n]*"', " ", text))


class SpecFile:
    """A file of specs/: the comment at its head, its definitions in order, and what its names are."""

    def __init__(self, crate, path):
        text = read(path)
        self.crate, self.path, self.head, self.items = crate, path, "", []
        self.imports = imports_of(text)
        self.read_items(text.splitlines())
        self.here = {}
        for it in self.items:
            if re.search(r"(?m)^ *pub data ", it.text):
                self.here.update((case, it) for case in re.findall(r"(?m)^ +([A-Za-z_]\w*) :", it.text))
        self.here.update((it.name, it) for it in self.items)

    def read_items(self, lines):
        comment, module, mutual = [], "", None
        for number, line in enumerate(lines):
            said = line.strip()
            if said.startswith("--"):
                comment.append(said.lstrip("-").strip())
                if number == 0:
                    self.head = comment[0]
                continue
            alone = DEFINITION.match(line)
            defined = alone or (mutual and IN_MUTUAL.match(line))
            if said == "abbrev mutual":
                mutual = comment
            elif re.match(r"module _ .*where$", line):
                module = line
            elif defined:
                mutual = None if alone else mutual
                text = (module if defined.group(1) else "") + "\n" + line + "\n"
                self.items.append(Item(defined.group(2), self.crate, self.path, False, tuple(mutual or comment), text))
            elif self.items and not re.match(r" *(?:unfoldable )?(?:pub )?use ", line):
                self.items[-1] = self.items[-1]._replace(text=self.items[-1].text + line + "\n")
            comment = []


class CodeFile:
    """A file of src/: the comment at its head, its types in order, and what its names are."""

    def __init__(self, crate, path):
        self.crate, self.path, self.text = crate, path, read(path)
        head = re.match(r"(?://!.*\n)*", self.text).group()
        self.head = " ".join(head.replace("//!", " ").split())
        self.imports = imports_of(self.text)
        self.uses = {}
        for where, listed, single in RUST_USE.findall(self.text):
            for here, there in pairs_of(listed or single).items():
                self.uses[here] = (crate if where == "crate" else where, there)
        self.items = [self.item(it) for it in TYPE.finditer(self.text)]
        self.here = {it.name: it for it in self.items}

    def item(self, found):
        kind, name = found.groups()
        comment = []
        for line in reversed(self.text[:found.start()].splitlines()):
            if line.startswith("///"):
                comment.insert(0, line[3:].strip())
            elif not line.startswith("#["):
                break
        declared = DECLARATION.match(self.text, found.start()).group()
        text = re.sub(r"(?m)^\s*(?://|#\[).*$", "", declared)
        model = re.search(rf"(?ms)^impl(?:<[^\n]*>)? Model for {name}\b.*?^\}}", self.text)
        if model:
            text = model.group()
        elif kind == "trait":
            text = "\n".join(re.findall(r"ghost \w+: \{[^}]*\}", declared))
        elif kind == "enum":
            # The names of the cases are no types.
            text = re.sub(r"(?m)^    \w+", "", text)
        return Item(name, self.crate, self.path, True, tuple(comment), text)


class Sources:
    """The files of some crates, in their order."""

    def __init__(self, crates):
        self.specs, self.code, self.types, self.missing = {}, {}, {}, set()
        self.files = []
        for crate in crates:
            for path in files_below(f"crates/{crate}/src", ".rt"):
                file = self.code[path] = CodeFile(crate, path)
                self.types.update(((crate, it.name), it) for it in file.items)
                self.files.append(file)
            for path in files_below(f"crates/{crate}/specs", ".antt"):
                file = SpecFile(crate, path)
                self.specs[crate, path[len(f"crates/{crate}/specs/"):-len(".antt")].replace("/", ".")] = file
                self.files.append(file)
        self.by_path = {it.path: it for it in self.files}
        self.crates = set(crates)

    def named(self, crate, path, name):
        """What a file's name is, or None where the file is of no crate of these."""
        if crate not in self.crates:
            return None
        if path.startswith("declared."):
            parts = [it for it in path.split(".")[1:] if it != "TheVariants"]
            file = self.code.get(f"crates/{crate}/src/{'/'.join(parts[:-1]) or 'lib'}.rt")
            it = file and file.here.get(parts[-1])
        else:
            file = self.specs.get((crate, path))
            it = file and (file.here.get(name) or (name in file.imports and self.named(*file.imports[name])))
        if not it:
            self.missing.add(f"{crate}.specs.{path}.{name}")
        return it or None

    def reached_by(self, item):
        """The items that the text of an item names."""
        file = self.by_path[item.path]
        return self.named_in_code(file, item.text) if item.path in self.code else self.named_in(file, file.imports, item.text)

    def named_in(self, file, imports, text):
        found = []
        for name in dict.fromkeys(USED.findall(without_texts(text))):
            it = file.here.get(name) or (name in imports and self.named(*imports[name]))
            found += [it] if it else []
        return found

    def named_in_code(self, file, text):
        """Besides the definitions the types, which are imported as Rust has it."""
        imports = {**file.imports, **imports_of(text)}
        text = re.sub(r"(?m)^ *ghost use .*$", "", text)
        types = [self.types.get(file.uses.get(it)) for it in re.findall(r"\b[A-Z]\w*", text)]
        return self.named_in(file, imports, text) + list(filter(None, types))

    def reach(self, path, function):
        """All items that the contract of a function reaches, and with each the item by which it was first reached."""
        file = self.code[path]
        contract = re.search(rf"(?ms)^pub fn {function}\b.*?^\{{", file.text).group()
        found = {it: None for it in self.named_in_code(file, contract)}
        left = list(found)
        while left:
            item = left.pop(0)
            for it in self.reached_by(item):
                if it not in found:
                    found[it] = item
                    left.append(it)
        return found
