"""What the tools know of the text of .rt and .antt files: comments, imports, names, contracts, modules, declarations."""
import os
import re
from dataclasses import dataclass

TOP = os.path.dirname(os.path.dirname(os.path.abspath(__file__)))
IMPORT = re.compile(r"^(?P<marks>(?:(?:pub|ghost|unfoldable)\s+)*)use\s+(?P<path>[^{};\n]+)(?:\{(?P<items>(?:[^{}]|\{[^{}]*\})*)\})?(?P<tail>[^\n]*)$", re.M)
COMMENTS = {
    ".antt": re.compile(r'("(?:[^"\\\n]|\\.)*")|\{-.*?-\}|(?<![^\s(){}.;,@])--[^\n]*', re.S),
    ".rt": re.compile(r"""("(?:[^"\\\n]|\\.)*"|b'(?:[^'\\]|\\.)')|/\*.*?\*/|//[^\n]*""", re.S),
}
QUOTED = re.compile(r'"(?:[^"\\]|\\.)*"')
# these characters end a name of antt, unless it stands between guillemets
NAME = r"«[^»]*»|[^\s(){}.;,@\"«»]+"
TOKEN = re.compile(NAME)
# a clause of a contract, with its name if it has one; a ghost field or member up to its type or its value
CLAUSE = re.compile(r"\b(?:(?:requires|ensures)\*?(?:[ \t]+\w+)?\s*|ghost[ \t]+\w+[^{};=]*)(?:=\s*)?\{|\bby\s*\{")
CLAUSE_LINE = re.compile(r"\s*(?:requires|ensures|ghost)\b")
ATTRIBUTE = re.compile(r"#!?\[tactic\((?P<words>[^\]]*)\)\]")
MARKED = re.compile(r"(?:(?:unfoldable|abbrev|pub|axiom)\s+)*")
ITEM = re.compile(
    r"(?P<pub>pub(?:\([^)]*\))? )?(?:(?:const|unsafe|async|extern \"C\") )*"
    r"(?:(?P<kind>fn|struct|enum|trait|const|static|type)\s+(?P<name>\w+)|(?P<impl>impl)\b(?P<head>[^{]*))"
)
OPERATOR = "◌"


def read(path):
    with open(path, encoding="utf-8") as file:
        return file.read()


def sources(top=TOP):
    """Every .rt and .antt file under crates/, but for what rt makes (out/)."""
    found = []
    for folder, below, names in os.walk(os.path.join(top, "crates")):
        below[:] = [name for name in below if name != "out"]
        found += [os.path.join(folder, name) for name in names if name.endswith((".rt", ".antt"))]
    return sorted(found)


def kind_of(path):
    return os.path.splitext(path)[1]


def spaces(text):
    """As long as the text, and with its line ends, so that every place in the file stays the same."""
    return re.sub(r"[^\n]", " ", text)


def without_comments(text, kind):
    return COMMENTS[kind].sub(lambda match: match.group(1) or spaces(match.group()), text)


def plain(name):
    return name.strip("«»")


# ---- imports
def brought(item):
    """The name that an item, or a path without items, brings."""
    return plain(re.split(r"::|\.", item.split(" as ")[-1].strip())[-1])


def imports(code):
    """Each import: its match, and its items as (what is written, the name it brings)."""
    for found in IMPORT.finditer(code):
        written = [found["path"]] if found["items"] is None else flat(found["items"]).split(",")
        above = brought(found["path"].rstrip().removesuffix("::"))
        yield found, [(item.strip(), above if item.strip() == "self" else brought(item)) for item in written if item.strip()]


def flat(items):
    """Items without braces among them: `a, b::{c, d}` is `a, b::c, b::d`."""
    return re.sub(r"([\w:]+)::\{([^{}]*)\}", lambda match: ",".join(f" {match[1]}::{item.strip()}" for item in match[2].split(",") if item.strip()), items)


def without_imports(code):
    return IMPORT.sub(lambda match: spaces(match.group()), code)


# ---- names
def parts(name):
    """The parts of an operator (of `◌+◌`, `+`); of any other name, the name."""
    return [part for part in name.split(OPERATOR) if part] if OPERATOR in name else [name]


def names_in(text):
    """The names written in antt text and the parts of its operators, but for those that a dot stands right before."""
    names = set()
    for token in TOKEN.finditer(text):
        if token.start() and text[token.start() - 1] == ".":
            continue
        name = token.group()
        names.add(plain(name))
        if not name.startswith("«"):
            names.update(parts(name))
    return names


def contracts(code):
    """What stands between the braces of the contracts and ghost members of an .rt file."""
    taken = []
    for clause in CLAUSE.finditer(code):
        depth, at = 1, clause.end()
        while depth and at < len(code):
            depth += {"{": 1, "}": -1}.get(code[at], 0)
            at += 1
        taken.append(code[clause.end():at])
    return "\n".join(taken)


def tactic_paths(code, crate):
    """What the attributes `#[tactic(auto, using(..), unfolding(..))]` of an .rt file name, as (module, name)."""
    for attribute in ATTRIBUTE.finditer(code):
        for path in re.findall(r"\w+(?:::[^\s,():]+)+", attribute["words"]):
            first, *middle, name = path.split("::")
            yield ".".join(["Rattle", crate if first in ("crate", "self") else first, *middle]), plain(name)


# ---- modules and proofs
def crate_of(path):
    """The name of the crate that a file lies in."""
    return path.replace(os.sep, "/").split("crates/")[-1].split("/")[0]


def module_of(path):
    """How others name the module that an .antt file is, as `Rattle.theory.specs.list.Seek`."""
    return "Rattle." + os.path.splitext(path.replace(os.sep, "/").split("crates/")[-1])[0].replace("/", ".")


def is_proof(path):
    """Whether the file is a function's proof, whose names Rattle looks for itself: one that lies in a folder of proofs/, and not a lemma file."""
    return re.search(r"/proofs/.+/(?:Proof|Invariants|Answers)\.antt$", path.replace(os.sep, "/")) is not None


# ---- declarations
@dataclass
class Declaration:
    kind: str  # definition, theorem, fn, or type (a struct, an enum, a constant)
    name: str
    line: int  # the first line, from 0
    end: int  # behind the last line
    public: bool
    text: str  # without comments, spaces made one
    contract: str = ""  # of a function: what stands before its body
    exported: bool = False
    named_elsewhere: bool = False  # of a function: a trait's, or a test, which nothing need name


def one_line(text):
    return " ".join(text.split())


def indent_of(line):
    return len(line) - len(line.lstrip())


def antt_head(line):
    """(kind, names) if the line begins a declaration."""
    rest = line.strip()
    marks = MARKED.match(rest).group().split()
    rest = rest[len(MARKED.match(rest).group()):]
    typed = re.match(rf"(data|record|ruleset)\s+({NAME})", rest)
    if typed:
        return "definition", [typed.group(2)]
    names = re.match(rf"((?:{NAME})(?:\s+(?:{NAME}))*?)\s+:(?:\s|$)", rest)
    if not names or "=" in names.group(1).split() or names.group(1).startswith(("unfolding ", "infix")):
        return None
    return "definition" if {"unfoldable", "abbrev"} & set(marks) else "theorem", names.group(1).split()


def antt_declarations(code):
    """Signatures with their clauses, records and data types; those of a `module _ (..) where` have its head in their text."""
    lines = without_imports(code).split("\n")
    blocks, found, open_ones = [(0, "")], [], []
    for at, line in enumerate(lines):
        if not line.strip():
            continue
        indent = indent_of(line)
        while len(blocks) > 1 and indent < blocks[-1][0]:
            blocks.pop()
        if indent == blocks[-1][0]:
            head = antt_head(line)
            if line.strip().startswith("module "):
                blocks.append((indent + 2, blocks[-1][1] + line.strip() + "\n"))
                open_ones = []
                continue
            if line.strip().startswith(("infix", "mod ", "pub mod ")):
                open_ones = []
                continue
            if head:
                public = "pub" in MARKED.match(line.strip()).group().split()
                open_ones = [Declaration(head[0], name, at, at, public, blocks[-1][1]) for name in head[1]]
                found += open_ones
        for declaration in open_ones:
            declaration.text += line + "\n"
            declaration.end = at + 1
    unfolded = {name for line in lines if line.strip().startswith("unfolding ") for name in line.split()[1:]}
    for declaration in found:
        declaration.text = one_line(declaration.text)
        if declaration.name in unfolded:
            declaration.kind = "definition"
    return found


def rt_declarations(code):
    """Functions, types and constants; methods as `Type::name`, those of a trait's impl as `Trait for Type::name`."""
    lines = without_imports(code).split("\n")
    found, at, owner, of_trait = [], 0, "", False
    while at < len(lines):
        line = lines[at]
        item = ITEM.match(line.strip())
        if line == "}":
            owner, of_trait = "", False
        if item and item["impl"]:
            owner = owner_of(item["head"]) + "::"
            of_trait = " for " in owner
        if not item or item["impl"]:
            at += 1
            continue
        end = end_of_item(lines, at)
        before = attributes_before(lines, at)
        kind = "fn" if item["kind"] == "fn" else "type"
        declared = Declaration(kind, owner + item["name"], at, end, bool(item["pub"]), one_line("\n".join(before + lines[at:end])))
        if kind == "fn":
            declared.contract = contract_of(before + lines[at:end])
            declared.exported = any("no_mangle" in attribute for attribute in before)
            declared.named_elsewhere = of_trait or any(attribute.strip() == "#[test]" for attribute in before)
        found.append(declared)
        at = end
    return found


def owner_of(head):
    """Whose methods an impl has: its type, and before it the trait if it is one's; without parameters and bounds."""
    head = head.split(" where ")[0]
    while re.search(r"<[^<>]*>", head):
        head = re.sub(r"<[^<>]*>", "", head)
    return " for ".join(part.strip().split("::")[-1] for part in head.split(" for "))


def attributes_before(lines, at):
    """The lines `#[..]` right before an item."""
    first = at
    while first and lines[first - 1].strip().startswith("#["):
        first -= 1
    return lines[first:at]


def end_of_item(lines, at):
    """Behind the item's closing brace, or its semicolon."""
    indent = " " * indent_of(lines[at])
    for end in range(at, len(lines)):
        if lines[end] == indent + "}" or lines[end].endswith("}") and end == at:
            return end + 1
        body = [line for line in lines[at:end + 1] if not CLAUSE_LINE.match(line)]
        if lines[end].endswith(";") and ("{" not in "".join(body) or lines[end].endswith("};") and indent_of(lines[end]) == len(indent) + 4 and indent + "{" not in body and not opens(body[0])):
            return end + 1
    return len(lines)


def opens(line):
    """Whether a line, but for one that begins a clause, ends with the brace of a body."""
    return line.endswith(" {") and not CLAUSE_LINE.match(line)


def contract_of(lines):
    """A function's lines up to the brace that opens its body."""
    taken = []
    for line in lines:
        if line.strip() == "{":
            break
        taken.append(line)
        if opens(line):
            break
    return one_line("\n".join(taken))


def own_names(code, declared):
    """Each declaration's text with every name that was imported under another one by its own."""
    renamed = {name: plain(written.split(" as ")[0].strip()) for found, items in imports(code) if found["items"] for written, name in items if " as " in written}
    for declaration in declared:
        for name, own in renamed.items():
            alone = rf"(?<![^\s(){{}}.;,@]){re.escape(name)}(?![^\s(){{}}.;,@])"
            declaration.text = re.sub(alone, own, declaration.text)
            declaration.contract = re.sub(alone, own, declaration.contract)
    return declared


def declarations(path, text):
    kind = kind_of(path)
    code = without_comments(text, kind)
    return own_names(code, antt_declarations(code) if kind == ".antt" else rt_declarations(code))
