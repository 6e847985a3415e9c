"""Which functions stand in which file, who calls them, and which tests come to them, read from the
sources of every crate that crates.txt lists: the page docs/ROOMS.md. `rooms.py` compares the page and
the crates' READMEs, each of which has a link to its part; `rooms.py --write` writes both anew.

Comments, attributes, strings, contracts and ghost lines are taken away first, so a name counts only
where code has it. A call is found by its name: a function by its import or its path, a method by its
type where that is written (`Type::name`, `Self::name`), and on a value (`.name(`) where the file names
the method's type or trait, or where no other function has that name. A method of a trait is found at
the trait; what an `impl` makes of it is called through the trait. A test is found in the same way: the
tests of a function are those that call it, else those that call one of its callers, and so on."""

import re
import sys
from collections import Counter, namedtuple
from pathlib import Path

TOP = Path(__file__).resolve().parent.parent
PAGE = TOP / "docs" / "ROOMS.md"
WIDTH = 100
# How many files of tests a row names.
MOST = 3
CRATES = [
    line.split(":")[0].split()[0]
    for line in (TOP / "crates.txt").read_text().splitlines()
    if ":" in line and not line.startswith("#")
]
HEAD = """# Rooms

Where each function stands, which files call it, and which tests come to it. `checks/rooms --write`
makes this page from the sources, and the gate compares it; calls are found by names, as
`checks/rooms.py` says in its first lines.

- Files are named without `src/` and `.rt`; *here* is the file itself, and a file of another crate has
  its crate in front.
- A **law** is a function whose contract is the law, most of them without a body: nothing calls it.
- A method that an `impl` of a trait has is called **through** the trait, by the trait's callers. Names
  don't tell which tests come to it where the trait is of std.
- **No code calls it**: it is there for callers outside, and for the tests.
- Tests are those that call the function; in brackets those that call one of its callers, or a caller
  of these, the nearest ones. Where the file's own tests are among them, these alone are named, else
  those of its crate, at most three of them. `none` is a function that no test comes to.

| crate | files | functions | laws |
|---|---|---|---|
"""
LINK = """## Rooms

[docs/ROOMS.md](../../docs/ROOMS.md#{}) names each file's functions, their callers and their tests.
"""

Function = namedtuple("Function", "file owner trait name law result body test")


def without(text, start, opening="{", closing="}"):
    """Where the group ends that opens at `start`."""
    depth = 0
    for at in range(start, len(text)):
        depth += (text[at] == opening) - (text[at] == closing)
        if depth == 0:
            return at + 1
    return len(text)


def code(path):
    """A file's code alone: no comments, strings, attributes, contracts, ghost lines."""
    text = re.sub(r"(?<![\"'])//[^\n]*", "", path.read_text())
    text = re.sub(r"b?'(?:\\.[^']*|[^'\\\n])'", "0", text)
    text = re.sub(r'b?"(?:\\.|[^"\\])*"', '""', text, flags=re.S)
    text = re.sub(r"\bghost use [^;]*;", "", text)
    for word in (r"#!?\[", r"\b(?:ensures|requires)\*?\s+(?:\w+\s+)?\{", r"\bghost\s+[\w]+\s*[=:]\s*\{"):
        while found := re.search(word, text):
            opening = text[found.end() - 1]
            end = without(text, found.end() - 1, opening, "]" if opening == "[" else "}")
            text = text[: found.start()] + text[end:].lstrip(";,")
    return text


def paths(tree, before=()):
    """The paths that a `use` names with the names they get, groups taken apart."""
    tree = tree.strip()
    group = re.fullmatch(r"(.*?)\{(.*)\}", tree, re.S)
    if not group:
        path, _, other = tree.partition(" as ")
        parts = tuple(part.strip() for part in path.split("::"))
        if parts[-1] == "self":
            parts = parts[:-1]
        yield before + parts, other.strip() or (before + parts)[-1]
        return
    before += tuple(part.strip() for part in group[1].split("::") if part.strip())
    depth, item = 0, ""
    for letter in group[2] + ",":
        depth += (letter == "{") - (letter == "}")
        if letter == "," and depth == 0:
            if item.strip():
                yield from paths(item, before)
            item = ""
        else:
            item += letter


def module_of(crate, path):
    parts = path.relative_to(TOP / "crates" / crate / "src").with_suffix("").parts
    return () if parts in (("lib",), ("main",)) else parts


FILES = {
    (crate, module_of(crate, path)): path
    for crate in CRATES
    for path in sorted((TOP / "crates" / crate / "src").rglob("*.rt"))
}
CODE = {file: code(path) for file, path in FILES.items()}


def is_test(file):
    return "tests" in file[1] or "testing" in file[1]


HEADER = re.compile(r"^(?:pub(?:\(\w+\))? )?(?:unsafe )?(impl|trait|mod)\b([^{;]*)\{", re.M)
FUNCTION = re.compile(r"(?<![\w(])(pub(?:\(\w+\))? )?(?:const |unsafe )*fn (\w+)")


def block_owner(kind, head):
    """The type that a block is of, and the trait, if it is an `impl` of one or is one."""
    head = head.strip()
    if head.startswith("<"):
        head = head[without(head, 0, "<", ">"):]
    head = head.split(" where ")[0].strip()
    word = re.compile(r"(?:&?(?:'\w+ )?(?:mut )?)?((?:\w+::)*\w+|\[\w+\])")
    if kind == "trait":
        return None, word.match(head)[1]
    trait, _, own = head.rpartition(" for ")
    found = word.match(own.strip())
    owner = found[1].split("::")[-1] if found else own.strip()
    if own.strip().startswith("&"):
        owner = own.strip()
    return owner, word.match(trait.strip())[1].split("::")[-1] if trait else None


def functions_of(file):
    """The functions of a file, in order."""
    text = CODE[file]
    blocks = []
    for found in HEADER.finditer(text):
        if found[1] != "mod":
            end = without(text, found.end() - 1)
            blocks.append((found.start(), end, *block_owner(found[1], found[2])))
    for found in FUNCTION.finditer(text):
        at = text.find("(", found.end())
        if text[found.end()] == "<":
            at = text.find("(", found.end() + without(text[found.end():], 0, "<", ">"))
        end = without(text, at, "(", ")")
        stop = end
        while stop < len(text) and text[stop] not in "{;":
            stop = without(text, stop, "[", "]") if text[stop] == "[" else stop + 1
        result = text[end:stop]
        body = text[stop : without(text, stop)] if text[stop:].startswith("{") else ""
        owner, trait = next((b[2:] for b in blocks if b[0] < found.start() < b[1]), (None, None))
        empty = "->" not in result and bool(re.fullmatch(r"\{\s*\}", body))
        law = bool(found[1]) and (empty or file[1][-1:] == ("laws",))
        yield Function(file, owner, trait, found[2], law, result, body, is_test(file))


ALL = [function for file in FILES for function in functions_of(file)]
BY_NAME = {}
for one in ALL:
    BY_NAME.setdefault(one.name, []).append(one)


def types_of(file):
    """The types and traits that a file declares."""
    return set(re.findall(r"\b(?:struct|enum|trait|type) (\w+)", CODE[file]))


TYPES = {file: types_of(file) for file in FILES}
ALIASES = {}
for text in CODE.values():
    for name, whole in re.findall(r"\btype (\w+)(?:<[^=]*>)? = (?:&(?:'\w+ )?(?:mut )?)?(\w+)", text):
        ALIASES[name] = whole


def file_at(crate, parts):
    """The deepest file on a path, through what its crate's root hands on."""
    for length in range(len(parts), 0, -1):
        if (crate, parts[:length]) in FILES:
            return crate, parts[:length]
    if parts:
        for tree in re.findall(r"pub use ([^;]*);", CODE.get((crate, ()), "")):
            for path, name in paths(tree):
                if name == parts[0] and len(path) > 1:
                    path = path[1:] if path[0] in ("crate", "self") else path
                    return file_at(crate, path)
    return crate, ()


def names_of(file):
    """The names that a file's `use` lines bring in, with the file that each is from, and its name there."""
    crate, module = file
    names = {}
    for tree in re.findall(r"(?:^|\n)\s*(?:pub(?:\(\w+\))? )?use ([^;]*);", CODE[file]):
        for path, name in paths(tree):
            above = module
            if path[0] == "crate":
                names[name] = file_at(crate, path[1:]), path[-1]
            elif path[0] == "self":
                names[name] = file_at(crate, module + path[1:]), path[-1]
            elif path[0] == "super":
                rest = path
                while rest and rest[0] == "super":
                    above, rest = above[:-1], rest[1:]
                if rest == ("*",):
                    for other in (*types_of((crate, above)), *free_names((crate, above))):
                        names[other] = (crate, above), other
                    names.update({k: v for k, v in names_of((crate, above)).items() if k not in names})
                else:
                    names[name] = file_at(crate, above + rest), path[-1]
            elif path[0] in CRATES:
                names[name] = file_at(path[0], path[1:]), path[-1]
    return names


def free_names(file):
    return [one.name for one in ALL if one.file == file and not one.owner and not one.trait]


NAMES = {file: names_of(file) for file in FILES}


def known_types(file):
    """The types and traits that a file names: its own and those it imports, through aliases."""
    names = TYPES[file] | {there for _, there in NAMES[file].values()}
    return names | {ALIASES[name] for name in names if name in ALIASES}


KNOWN = {file: known_types(file) for file in FILES}
SHARED = Counter(
    one.name for one in ALL if not one.test and not (one.owner and one.trait)
)


def given_types(file):
    """The types in the results of what a file's known types and imported functions answer."""
    known = KNOWN[file]
    imported = {there for there in NAMES[file].values()}
    return {
        word
        for one in ALL
        if (one.owner or one.trait) in known or (one.file, one.name) in imported
        for word in re.findall(r"\b[A-Z]\w+", one.result)
    }


GIVEN = {file: given_types(file) for file in FILES}
# Methods of std that a type of ours has by the same name.
OF_STD = {"as_bytes"}


def module_named(file, word):
    """The file that a word stands for in front of `::name`, if it is a module."""
    if word in NAMES[file]:
        there = NAMES[file][word][0]
        if there[1][-1:] == (word,) or NAMES[file][word][1] == there[1][-1:][0:1]:
            return there
        if there[1] and there[1][-1] == NAMES[file][word][1]:
            return there
    if (file[0], file[1] + (word,)) in FILES:
        return file[0], file[1] + (word,)
    if (file[0], (word,)) in FILES and word not in ("super", "self"):
        return file[0], (word,)
    if word in CRATES:
        return word, ()
    if word == "crate":
        return file[0], ()
    if word == "super":
        return file[0], file[1][:-1]
    return None


def handed_on(there, name):
    """The file that has the function which a file hands on under this name."""
    for tree in re.findall(r"pub(?:\(\w+\))? use ([^;]*);", CODE.get(there, "")):
        for path, other in paths(tree):
            if other == name and len(path) > 1:
                rest = path[1:] if path[0] in ("crate", "self") else path
                return file_at(there[0], rest)
    return there


CALL = re.compile(
    r"(?P<dot>(?<!\.)\.)?(?P<path>(?:\w+(?:::<[^;(){}]*?>)?::)*)"
    r"(?P<name>\b[a-z_]\w*)(?P<turbo>::<[^;(){}]*?>)?(?P<open>\s*\()?"
)


def calls_in(caller, text):
    """The functions that a body names."""
    file = caller.file
    for found in CALL.finditer(text):
        name = found["name"]
        if name not in BY_NAME:
            continue
        before = text[max(0, found.start() - 2) : found.start()].replace("..", " ")[-1:]
        if found["dot"]:
            if not found["open"]:
                continue
            yield from methods(caller, text, found.start(), name)
        elif found["path"]:
            word = re.sub(r"::<.*?>", "", found["path"]).rstrip(":").split("::")
            yield from by_path(caller, word, name)
        elif before != "." and (found["open"] or found["turbo"] or before in "(, !&=:|"):
            yield from free_function(file, name)


def free_function(file, name):
    if name in NAMES[file]:
        there, other = NAMES[file][name]
    else:
        there, other = file, name
    there = handed_on(there, other)
    for one in BY_NAME.get(other, ()):
        if one.file == there and not one.owner and not one.trait:
            yield one


def by_path(caller, words, name):
    file, last = caller.file, words[-1]
    if last == "Self" and (caller.owner or caller.trait):
        last = caller.owner or caller.trait
        yield from of_type(file, {last}, name)
        return
    real = NAMES[file].get(last, (None, last))[1]
    found = list(of_type(file, {last, real, ALIASES.get(real, real)}, name))
    if found:
        yield from found
        return
    if len(words) == 1 and re.fullmatch(r"[A-Z]\w?", last):
        yield from (one for one in BY_NAME[name] if not one.owner and one.trait in KNOWN[file])
        return
    there = module_named(file, last) if len(words) == 1 else None
    if len(words) > 1:
        start = words[0]
        crate, rest = file[0], tuple(words)
        if start in CRATES:
            crate, rest = start, tuple(words[1:])
        elif start == "crate":
            rest = tuple(words[1:])
        elif start in NAMES[file]:
            at, _ = NAMES[file][start]
            crate, rest = at[0], at[1] + tuple(words[1:])
        there = file_at(crate, rest)
    if there:
        there = handed_on(there, name)
        for one in BY_NAME[name]:
            if one.file == there and not one.owner and not one.trait:
                yield one


def of_type(file, types, name):
    """The functions of this name of these types or traits, those of the file itself or imported."""
    near = {file} | {there for there, _ in NAMES[file].values()}
    own = [one for one in BY_NAME[name] if one.owner in types and not one.trait]
    declared = [one for one in BY_NAME[name] if not one.owner and one.trait in types]
    through = [one for one in BY_NAME[name] if one.owner in types and one.trait]
    all_ = own + declared or through
    if len(all_) > 1:
        close = [one for one in all_ if one.file in near]
        all_ = close or [one for one in all_ if one.file[0] == file[0]] or all_
    yield from all_


def methods(caller, text, at, name):
    """The methods that `.name(` may call."""
    file = caller.file
    if re.search(r"(?<![\w.])self$", text[:at]) and (caller.owner or caller.trait):
        own = [
            one
            for one in BY_NAME[name]
            if one.file[0] == file[0]
            and (
                (caller.owner and one.owner == caller.owner)
                or (one.trait and not one.owner and one.trait == caller.trait)
            )
        ]
        if own:
            yield from own
            return
    all_ = [one for one in BY_NAME[name] if one.owner or one.trait]
    declared = {one.trait for one in all_ if one.trait and not one.owner}
    at_traits = [one for one in all_ if not (one.owner and one.trait in declared)]
    known = [one for one in at_traits if (one.owner or one.trait) in KNOWN[file] and fits(one, file)]
    bound = [one for one in at_traits if one.trait and one.trait in KNOWN[file]]
    given = [one for one in at_traits if (one.owner or one.trait) in GIVEN[file] and not one.test]
    known = known or bound or given
    if not known and "_" in name and SHARED[name] == 1 and name not in OF_STD:
        known = [one for one in at_traits if not one.test]
    yield from known


def fits(one, file):
    """Whether the type that a file knows by a method's owner is the one of that file."""
    owner = one.owner or one.trait
    if owner in TYPES[file]:
        return one.file == file or owner not in TYPES.get(one.file, ())
    there = [at for at, real in NAMES[file].values() if real == owner or ALIASES.get(real) == owner]
    return any(at[0] == one.file[0] for at in there) if there else True


CALLERS = {}
MADE = {}
for one in ALL:
    if one.trait and one.owner:
        declared = [
            other for other in BY_NAME[one.name] if other.trait == one.trait and not other.owner
        ]
        for other in declared:
            MADE.setdefault(one, []).append(other)
for file in FILES:
    macro = [m for m in re.finditer(r"macro_rules! (\w+)\s*\{", CODE[file])]
    macros = {m[1]: CODE[file][m.start() : without(CODE[file], m.end() - 1)] for m in macro}
    for one in (o for o in ALL if o.file == file):
        text = one.body
        for word, body in macros.items():
            if re.search(rf"\b{word}!", text):
                text += body
        for callee in set(calls_in(one, text)):
            CALLERS.setdefault(callee, set()).add(one)
    rest = CODE[file]
    for constant in re.finditer(r"\b(?:const|static) \w+[^;=]*=([^;]*);", rest):
        whole = Function(file, None, None, "", False, "", constant[1], is_test(file))
        for callee in set(calls_in(whole, constant[1])):
            CALLERS.setdefault(callee, set()).add(whole)


def shown(file, own):
    crate, module = file
    root = "main" if (TOP / "crates" / crate / "src/main.rt").exists() else "lib"
    name = "/".join(module) or root
    return f"`{name}`" if crate == own else f"`{crate}/{name}`"


def listed(files, own):
    files = sorted(files, key=lambda file: (file != own, file[0] != own[0], file))
    return ", ".join("here" if file == own else shown(file, own[0]) for file in files)


def is_helper(function):
    return "testing" in function.file[1] and function.name != ""


def is_by_std(function):
    """Whether names tell no callers: a method that an `impl` of a trait of std has."""
    return bool(function.trait and function.owner and function not in MADE)


def is_entry(function):
    return function.name == "main" and not function.file[1]


def tests_of(function):
    """The files of tests that call a function, whether they do so themselves (behind its trait, or by
    what the tests share, counts as such), and whether callers were met that names don't tell."""
    seen, now, direct, hidden, entry = {function}, {function}, True, False, False
    while now:
        hidden = hidden or any(is_by_std(one) for one in now)
        entry = entry or any(is_entry(one) for one in now)
        above = {up for one in now for up in CALLERS.get(one, set()) | set(MADE.get(one, ()))}
        while helped := {
            up for one in above if is_helper(one) for up in CALLERS.get(one, set())
        } - above:
            above |= helped
        found = {one.file for one in above if one.test and not is_helper(one)}
        if found:
            own = {file for file in found if file[0] == function.file[0]} or found
            beside = (function.file[0], function.file[1] + ("tests",))
            return {beside} if beside in own else own, direct, hidden
        now = {one for one in above if not one.test} - seen
        seen |= now
        direct = direct and all(one in MADE.get(function, ()) for one in now)
    return ({"the stored run"} if entry else set()), direct, hidden


def title(function):
    if function.trait and function.owner:
        return f"`{function.name}`"
    owner = function.owner or function.trait
    return f"`{owner}::{function.name}`" if owner else f"`{function.name}`"


def callers_text(function):
    if function.law:
        return "law"
    if is_entry(function):
        return "the system"
    if is_by_std(function):
        return f"through `{function.trait}`"
    if function in MADE:
        there = MADE[function][0].file
        return f"through `{function.trait}` of {listed({there}, function.file)}"
    found = {one.file for one in CALLERS.get(function, ()) if not one.test and one != function}
    if function.trait and not function.owner and not found:
        found = {
            one.file
            for made, traits in MADE.items()
            if function in traits
            for one in CALLERS.get(made, ())
            if not one.test
        }
    return listed(found, function.file) if found else "no code calls it"


def tests_text(function):
    if function.law or is_by_std(function):
        return ""
    files, direct, hidden = tests_of(function)
    if files == {"the stored run"}:
        return "the stored run"
    if not files:
        return "" if hidden else "none"
    order = sorted(files, key=lambda file: (file[0] != function.file[0], file))
    text = ", ".join(shown(file, function.file[0]) for file in order[:MOST])
    if len(order) > MOST:
        text += f" and {len(order) - MOST} more"
    return text if direct else f"({text})"


def rows_of(file):
    """The rows of a file: functions in a row that have the same callers and tests stand together."""
    groups = {}
    for function in (one for one in ALL if one.file == file):
        of = ""
        if function.trait and function.owner:
            of = f"`{function.owner}`'s "
        key = (of, callers_text(function), tests_text(function))
        names = groups.setdefault(key, [])
        if title(function) not in names:
            names.append(title(function))
    for (of, callers, tests), names in groups.items():
        line = ""
        for name in names:
            if line and len(line) + len(name) + 2 > WIDTH:
                yield f"| {of}{line} | {callers} | {tests} |"
                line = ""
            line += (", " if line else "") + name
        yield f"| {of}{line} | {callers} | {tests} |"


def first_sentence(path):
    doc = []
    for line in path.read_text().splitlines():
        if not line.startswith("//!"):
            break
        doc.append(line[3:].strip())
    return re.split(r"(?<=\.)\s", " ".join(doc))[0]


def wrapped(text, width=WIDTH):
    lines, line = [], ""
    for word in text.split():
        if line and len(line) + len(word) + 1 > width:
            lines.append(line)
            line = ""
        line += (" " if line else "") + word
    return "\n".join(lines + [line])


def part(crate):
    """A crate's part of the page."""
    lines = [f"## {crate}", ""]
    for file, path in FILES.items():
        if file[0] != crate or is_test(file):
            continue
        rows = list(rows_of(file))
        if not rows:
            continue
        name = shown(file, crate)
        lines += [wrapped(f"**{name}**: {first_sentence(path)}"), ""]
        lines += ["| functions | called by | tests |", "|---|---|---|", *rows, ""]
    return "\n".join(lines)


def page():
    counts = []
    for crate in CRATES:
        own = [one for one in ALL if one.file[0] == crate and not one.test]
        files = {one.file for one in own}
        laws = sum(one.law for one in own)
        counts.append(f"| [{crate}](#{crate}) | {len(files)} | {len(own) - laws} | {laws} |")
    return HEAD + "\n".join(counts) + "\n\n" + "\n".join(part(crate) for crate in CRATES)


def linked(crate, text):
    """A README with its section `Rooms`, which is a link."""
    wanted = LINK.format(crate)
    if "## Rooms\n" not in text:
        return text.rstrip("\n") + "\n\n" + wanted
    return re.sub(r"## Rooms\n.*?(?=\n## |\Z)", lambda _: wanted, text, flags=re.S)


def main():
    write = "--write" in sys.argv
    wanted = {PAGE: page()}
    for crate in CRATES:
        readme = TOP / "crates" / crate / "README.md"
        wanted[readme] = linked(crate, readme.read_text())
    stale = [path for path, text in wanted.items() if not path.exists() or path.read_text() != text]
    for path in stale:
        if write:
            path.write_text(wanted[path])
        else:
            print(f"rooms: {path.relative_to(TOP)} is behind the sources: checks/rooms --write")
    if stale and not write:
        return 1
    print(f"rooms: docs/ROOMS.md names the callers and tests of {len(CRATES)} crates' functions")
    return 0


if __name__ == "__main__":
    sys.exit(main())
