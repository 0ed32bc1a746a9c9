"""The sum under which the wrong bodies of a crate are refused: over its sources, its definitions and its wrong bodies, what the crates below state to it,
and the logic of the toolchain.

What a crate states is cut into pieces: a definition, a type, a public function with its clauses and without its body, an `impl` of a trait. Of the
crates below those pieces count that this crate names, and what these name in turn. So a new call of a lower crate, which nothing above calls, leaves the
sums above as they are, and so does each change of a body, of a private function or field, or of a comment.
"""
import hashlib
import os
import re

from toolchain import below, logic, text_of

WORD = re.compile(r"\w+")
QUOTED = r'"(?:\\.|[^"\\])*"|\'(?:\\.[^\']*|[^\'\\])\''


def statements(text):
    """A source without its comments and without what stands in the bodies of its functions."""
    text = re.sub(rf"({QUOTED})|//[^\n]*", lambda it: it[1] or "", text)
    kept, at = [], 0
    for head in re.finditer(r"\bfn\s+\w+", text):
        if head.start() < at:
            continue
        body = body_of(text, head.end())
        if body:
            kept.append(text[at : body[0]])
            at = body[1]
    return re.sub(r"\s+", " ", "".join([*kept, text[at:]]))


def body_of(text, at):
    """Where the body of a function begins and ends, whose head ends here, or none. A brace after the name of a clause is the clause's."""
    depth = start = 0
    for it in re.finditer(rf"{QUOTED}|[][(){{}};]", text[at:]):
        letter, place = it[0], at + it.start()
        if letter in "([":
            depth += 1
        elif letter in ")]":
            depth -= 1
        elif letter == ";" and not depth:
            return None
        elif letter == "{":
            if not depth:
                clause = re.search(r"\b((requires|ensures)\s*\*?(\s+\w+)?|ghost\s+\w+\s*:)\s*$", text[at:place][-80:])
                start = -1 if clause else place
            depth += 1
        elif letter == "}":
            depth -= 1
            if not depth and start >= 0:
                return start, place + 1
    return None


def words_in(text):
    return set(WORD.findall(text))


def split_generics(text):
    """A text that begins with generics in angle brackets: what stands in them, and what stands after."""
    depth = 0
    for at, letter in enumerate(text):
        depth += (letter == "<") - (letter == ">" and text[at - 1] != "-")
        if not depth:
            return (text[1:at], text[at + 1 :]) if letter == ">" else ("", text)
    return "", text


def items_of(text):
    """The items of a formatted source, one by one."""
    found, rows = [], []
    for row in re.sub(r"(?m)^[ \t]*(//|#!).*\n", "", text).split("\n"):
        if row.strip():
            rows.append(row)
        if row[:1].strip() and re.search(r"[;}]$", row.rstrip()):
            found.append("\n".join(rows))
            rows = []
    return found + ["\n".join(rows)] * bool(rows)


def imports(row):
    """What an import brings, name by name, in pieces as below; an operator, which no word names, has none."""
    path, _, names = re.sub(r"^(pub |ghost )*use ", "", row.strip().rstrip(";")).partition("{")
    for it in re.split(r",\s*", names.rstrip("} \n")) if names else [path]:
        yield [] if "◌" in it else [set(WORD.findall(it)[-1:])], path + it if names else it, set()


FN = r"(?:(?:const|unsafe|final) )*fn "
SEEN = r"(?:pub(?:\([^)]*\))? )?"


def methods(head, inside):
    """The public functions of an `impl`, each with its head and without its body."""
    for method in re.split(rf"(?m)^(?=    {SEEN}{FN})", inside)[1:]:
        if method.startswith("    pub "):
            yield re.search(r"\bfn (\w+)", method)[1], statements(f"{head} {{\n{method}")


def shown_part(item, opened):
    """What other crates see of a struct or of its `Model`: where no field is public, its head, and the value that clauses see. `opened` has the names of
    the structs with public fields."""
    head = re.search(r"(?m)^(?:pub )?struct (\w+)[^{;(]*", item)
    if head and head[1] not in opened:
        return item[: head.end()]
    model = re.search(r"(?m)^impl\b.* Model\s+for (\w+)", item)
    if model and model[1] not in opened:
        return "\n".join([model[0], *re.findall(r"ghost Value = [^;]*", item)])
    return item


def source_pieces(text, shown, opened):
    """What a source states to other crates, in pieces: names by which a piece can be meant, one of each set, its text, and the words that it means in turn.
    Where it has no name it is always meant. `shown` has the names that the crate shows."""
    for item in items_of(text):
        head = re.search(r"(?m)^(?:unsafe )?impl\b[^{]*", item)
        whole = statements(shown_part(item, opened))
        if head and re.search(r"\bfor\b", head[0]):
            generics, rest = split_generics(head[0].partition("impl")[2])
            trait, _, of = rest.partition(" for ")
            yield [words_in(of) - words_in(generics) or words_in(trait)], whole, words_in(whole)
        elif head:
            generics, of = split_generics(head[0].partition("impl")[2])
            owner = (words_in(of) - words_in(generics)) & shown
            for name, method in methods(head[0], item[head.end() :]) if owner else ():
                yield [{name}, owner], method, words_in(method)
        elif re.match(r"\s*(pub |ghost )*use\b", item):
            yield from imports(item)
        elif not re.search(r"(?m)^(pub )?mod \w+;", item):
            name = re.search(rf"(?m)^{SEEN}(?:(?:const|unsafe|final) )*(fn|struct|enum|union|trait|type|const|static) (\w+)", item)
            if not name or name[1] != "fn" or name[2] in shown:
                yield [{name[2]}] if name else [], whole, words_in(whole)


def specs_pieces(text):
    """What a file of definitions states, in pieces of the same kind."""
    found = []
    for piece in re.split(r"\n\s*\n", re.sub(r"(?m)^[ \t]*--.*\n", "", text)):
        rows = piece.strip("\n").split("\n")
        while rows and re.match(r"(pub )?(use|mod)\b", rows[0]):
            found.append(rows.pop(0))
        if rows and rows[0].startswith(" ") and found:
            found[-1] += "\n" + "\n".join(rows)
        else:
            found.append("\n".join(rows))
    for piece in filter(None, map(str.strip, found)):
        if re.match(r"(pub )?use\b", piece):
            yield from imports(piece)
        elif not re.match(r"(pub )?mod\b", piece):
            names = re.findall(r"\bpub (?:record |data |abbrev )?([^\s:({]+)", piece)
            yield ([set(names)] if names and not any("◌" in it for it in names) else []), piece, words_in(piece)


def pieces_of(crate):
    """All that a crate states, in pieces."""
    texts = [text_of(it) for it in crate.files("src")]
    shown = {word for text in texts for row in re.findall(r"(?m)^pub use [^;]*", text) for names, _, _ in imports(row) for it in names for word in it}
    opened = {name for text in texts for name, inside in re.findall(r"(?m)^(?:pub )?struct (\w+)[^{;(]*[{(]([^}]*)", text) if re.search(r"\bpub\b(?!\()", inside)}
    found = [it for text in texts for it in source_pieces(text, shown, opened)]
    return found + [it for file in crate.files("specs") for it in specs_pieces(text_of(file))]


def stated_below(crates, name):
    """What the crates below state and this one can mean: what its sources, definitions and wrong bodies name, and what that names in turn."""
    words = set().union(*[words_in(text_of(it)) for it in crates[name].files("src", "specs", "must-fail")])
    left, meant = [(dep, *it) for dep in below(crates, name) for it in pieces_of(crates[dep])], set()
    while True:
        found = [it for it in left if all(names & words for names in it[1])]
        if not found:
            return sorted(meant)
        left = [it for it in left if not all(names & words for names in it[1])]
        meant.update((dep, text) for dep, _, text, _ in found)
        words.update(*[more for _, _, _, more in found])


def uncommented(file):
    """A text without the lines that are comments."""
    return re.sub(r"(?m)^[ \t]*(//|--).*\n", "", text_of(file))


def sum_of(crates, name):
    """The sum under which the wrong bodies of a crate are refused."""
    top, sums = crates[name].top, hashlib.sha256(logic().encode())
    for file in crates[name].files("src", "specs", "must-fail"):
        sums.update(repr((os.path.relpath(file, top), uncommented(file))).encode())
    sums.update(repr(stated_below(crates, name)).encode())
    return sums.hexdigest()[:16]
