"""What the checks share that read the files of crates/: declarations of an .antt file, public functions, and terms.

It reads as much of either language as the files of this repository are written in.
"""
import collections
import glob
import os
import re

# words that may stand before a declaration
MARKS = {"pub", "abbrev", "unfoldable"}
# words that begin a line of a file's header, and no declaration
HEADER = {"use", "mod", "infix", "infixl", "infixr", "unfolding"}

# kind: record, data, definition (a signature) or clause. head: what stands between the name and its colon, or its
# equals sign. type: what follows the colon. members: the fields of a record or the constructors of a data, by name,
# each with its type. body: what follows the equals sign of a clause.
Declaration = collections.namedtuple("Declaration", "name kind is_public head type members body")

# parameters: each with its name and how it is taken, "value", "shared" or "lent" (`&mut`), in their order.
# result: "none", "value" or "part" (a reference). ensures: the texts of the clauses, as they stand in their braces.
Function = collections.namedtuple("Function", "name path parameters result ensures")


def text(path):
    with open(path, encoding="utf-8") as f:
        return f.read()


def crates():
    return sorted(os.path.basename(os.path.dirname(p)) for p in glob.glob("crates/*/src"))


def without_remarks(source):
    return re.sub(r"(?m)(^|(?<=\s))--(\s.*)?$", "", source)


def items(source):
    """Each line in the first column, with the indented lines that belong to it."""
    found = []
    for line in without_remarks(source).split("\n"):
        if line.strip() and not line[0].isspace():
            found.append(line)
        elif found and line.strip():
            found[-1] += "\n" + line
    return found


def members(block):
    """The names that the lines after a `where` declare, each with its type: a line that is indented further goes on."""
    lines = [line for line in block.split("\n") if line.strip()]
    depth = min((len(line) - len(line.lstrip()) for line in lines), default=0)
    joined = []
    for line in lines:
        if len(line) - len(line.lstrip()) == depth:
            joined.append(line.strip())
        else:
            joined[-1] += " " + line.strip()
    found = {}
    for line in joined:
        names, colon, of = line.partition(" : ")
        for name in names.split() if colon else ():
            if name not in MARKS:
                found[name] = of.strip()
    return found


def split_at(term, word):
    """What stands before the first such word outside of brackets, and what after it."""
    depth = 0
    for m in re.finditer(r"[(){}]|\S+?(?=[\s(){}]|$)", term):
        depth += (m.group(0) in ("(", "{")) - (m.group(0) in (")", "}"))
        if depth == 0 and m.group(0) == word:
            return term[: m.start()].strip(), term[m.end() :].strip()
    return term.strip(), ""


def declarations(source):
    found = []
    for item in items(source):
        marks, rest = [], item
        while (word := rest.split(None, 1)[0]) in MARKS:
            marks.append(word)
            rest = rest.split(None, 1)[1]
        if word in HEADER:
            continue
        is_public = "pub" in marks
        if word in ("record", "data"):
            name, rest = re.match(r"\w+\s+(\S+)((?:.|\n)*)$", rest).groups()
            head, block = re.match(r"((?:.|\n)*?)\bwhere\b((?:.|\n)*)$", rest + " where").groups()
            head, of = split_at(head, ":")
            block = re.sub(r"\s*\bwhere$", "", block)
            found.append(Declaration(name, word, is_public, head, of, members(block), ""))
            continue
        rest = rest[len(word) :].strip()
        if re.match(r":\s", rest):
            found.append(Declaration(word, "definition", is_public, "", rest[1:].strip(), {}, ""))
        else:
            head, body = split_at(rest, "=")
            found.append(Declaration(word, "clause", is_public, head, "", {}, body))
    return found


def imports(source):
    """What each name that the file's `use` lines bring stands for: the module, and the name there."""
    found = {}
    form = r"(?m)^(?:ghost )?(?:pub )?use ([^\s{};]+)\.\{([^}]*)\}"
    for module, names in re.findall(form, without_remarks(source)):
        for name in filter(None, (n.strip() for n in names.split(","))):
            there, _, here = name.partition(" as ")
            found[here.strip() or there] = f"{module}.{there.strip()}"
    return found


def parameters_of(listed):
    """Parameters as they are written, with commas between them: brackets hold theirs together."""
    parts, depth = [""], 0
    for c in re.sub(r"//.*", "", listed):
        depth += (c in "([<{") - (c in ")]>}")
        if c == "," and depth == 0:
            parts.append("")
        else:
            parts[-1] += c
    found = []
    for part in filter(None, (p.strip() for p in parts)):
        name, _, of = part.removeprefix("mut ").partition(":")
        reference = re.match(r"&('\w+ )?(mut\b)?", of.strip())
        how = "value" if not reference else "lent" if reference.group(2) else "shared"
        found.append((name.strip(), how))
    return found


def function_at(path, source, start):
    """The function whose name stands at this place of a file."""
    name = re.match(r"\w+", source[start:]).group(0)
    begin = end = source.index("(", start)
    depth = 1
    while depth:
        end += 1
        depth += (source[end] == "(") - (source[end] == ")")
    parameters = parameters_of(source[begin + 1 : end])
    head = re.compile(r"\s*(?:->\s*(&)?[^{]*?)?(?=\{|\b(?:requires|ensures)\b)").match(source, end + 1)
    result = "none" if not source[end + 1 :].lstrip().startswith("->") else "part" if head.group(1) else "value"
    # clauses, each with a brace of its own, up to the brace that opens the body
    at, ensures, named = head.end(), [], []
    while clause := re.compile(r"\s*(requires|ensures)\s+(?:(\w+)\s+)?\{").match(source, at):
        at, depth = clause.end(), 1
        while depth:
            depth += (source[at] == "{") - (source[at] == "}")
            at += 1
        if clause.group(1) == "ensures":
            ensures.append(re.sub(r"(?m)(^|\s)//.*$", "", source[clause.end() : at - 1]).strip())
            named.append(clause.group(2))
    if not source[at:].lstrip().startswith("{"):
        raise ValueError(f"{path}: the contract of {name} can't be read")
    if len(named) > 1 and (None in named or len(set(named)) < len(named)):
        raise ValueError(f"{path}: the clauses of {name} don't each have a name of their own")
    return Function(name, path, parameters, result, ensures)


def public_functions(crate):
    """Those of lib.rt and of its public modules, those that it passes on, and what is exported to C; by name."""
    root = f"crates/{crate}/src"
    if not os.path.exists(f"{root}/lib.rt"):
        return {}
    lib = text(f"{root}/lib.rt")
    open_files = ["lib"] + re.findall(r"(?m)^pub mod (\w+);", lib)
    passed_on = re.findall(r"(?m)^pub use (?:crate::)?(\w+)::(\w+);", lib)
    for module, names in re.findall(r"(?m)^pub use (?:crate::)?(\w+)::\{([^}]*)\};", lib):
        passed_on += [(module, name.strip()) for name in names.split(",")]
    found = {}
    for path in sorted(glob.glob(f"{root}/**/*.rt", recursive=True)):
        source = text(path)
        module = os.path.relpath(path, root)[: -len(".rt")]
        for m in re.finditer(r'(?m)^((?:#\[[^\]]*\]\s*)*)[ \t]*pub (?:extern "C" )?fn (?=\w)', source):
            function = function_at(path, source, m.end())
            is_exported = "no_mangle" in m.group(1)
            if module in open_files or (module, function.name) in passed_on or is_exported:
                found[function.name] = function
    return found


def in_words(kind):
    """A type as part of a name: of a Result what it gives."""
    kind = re.sub(r"^Result<(\w+),.*$", r"\1", kind)
    return re.sub(r"(?<!^)(?=[A-Z])", "_", kind).lower()


def conversions(crate):
    """The public conversions, `impl From`, each as a function under the name of its two types; by name. Its contract is
    the law that it gives. What a type that is not public is made of, or made into, no caller sees. One that can't be
    read is an error, so that none is passed over."""
    seen, found = {}, {}
    for path in sorted(glob.glob("crates/*/src/**/*.rt", recursive=True)):
        for how, name in re.findall(r"(?m)^(pub(?:\(crate\))? |)(?:struct|enum) (\w+)", text(path)):
            seen[name] = seen.get(name, False) or how == "pub "
    for path in sorted(glob.glob(f"crates/{crate}/src/**/*.rt", recursive=True)):
        source = text(path)
        read = list(re.finditer(r"(?m)^impl From<(.+)> for (\w+) \{$", source))
        if len(read) != len(re.findall(r"(?m)^\s*impl\b[^{;]*\b(?:Try)?From<", source)):
            raise ValueError(f"{path}: a conversion can't be read")
        for m in read:
            if not all(seen.get(kind, True) for kind in re.findall(r"\w+", f"{m.group(1)} {m.group(2)}")):
                continue
            name = f"{in_words(m.group(2))}_from_{in_words(m.group(1))}"
            law = re.compile(r"\s*ghost from_gives = \{ λ (\w+) (\w+)\. (.*) \};\n").match(source, m.end())
            if not law or name in found:
                raise ValueError(f"{path}: the law of {name} can't be read, or another has its name")
            given, made, says = law.groups()
            found[name] = Function(name, path, [(given, "value")], "value", [re.sub(rf"\b{made}\b", "result", says)])
    return found


def tokens(term):
    """A term's words: brackets and commas stand alone, and so do the dot after what a λ binds and each `.field` that
    follows a variable or a bracket. A name with its module in front, as `Way.Waits`, is a word."""
    found = []
    for word in re.sub(r"([(){},;])", r" \1 ", term).split():
        if len(word) > 1 and word.endswith("."):
            found += [word[:-1], "."]
        elif re.match(r"(?:[a-z_]\w*'*|«\w+»)?\.\w", word):
            found += re.findall(r"^[^.]+|\.[^.]+", word)
        else:
            found.append(word)
    return found


def tree(words):
    """A term as nested lists, one for each bracket, but for a bracket around a single word, and one for each `.field`
    with what it is the field of.

    A function is ("λ", what it binds, its body), and what stands in braces ("{", what stands there).
    """
    left = list(words)

    def sequence(closing):
        found = []
        while left and left[0] != closing:
            word = left.pop(0)
            if word == "(":
                found.append(sequence(")"))
            elif word == "{":
                found.append(("{", sequence("}")))
            elif word == "λ":
                names = left[: left.index(".")]
                del left[: len(names) + 1]
                # a type may stand beside a name
                names = names[: names.index(":")] if ":" in names else names
                found.append(("λ", [n for n in names if n != "("], sequence(closing)))
                return found[0] if len(found) == 1 else found
            elif re.match(r"\.\w", word) and found:
                found.append([found.pop(), word])
            else:
                found.append(word)
        if left:
            left.pop(0)
        return found[0] if len(found) == 1 else found

    return sequence(None)


def shown(term):
    """A term as a line."""
    if isinstance(term, str):
        return term
    if isinstance(term, tuple):
        return f"(λ {' '.join(term[1])}. {shown(term[2])})" if term[0] == "λ" else "{ " + shown(term[1]) + " }"
    return " ".join(shown(t) if isinstance(t, (str, tuple)) else f"({shown(t)})" for t in term)
