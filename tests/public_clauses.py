#!/usr/bin/env python3
"""Do the public contracts and laws of one tree stand word for word in another? tests/public_clauses.py BEFORE [AFTER]

A tree is a folder or a revision of this repository; AFTER is the tree that this script stands in, if it isn't given. Of each
library crate of BEFORE it takes what is public: each call with its signature and its clauses, each law, each trait, and what a
type shows (variants, public fields, what contracts see of it). It asks AFTER for the same text, in whatever crate. So it does
with each definition of `specs/` that these name, and that those name, and so on. Comments and the layout of lines don't
count, nor do proofs. What AFTER has besides is listed. The status is 1 where a text is gone or is another.
"""
import collections
import pathlib
import re
import subprocess
import sys
import tempfile

TOP = pathlib.Path(__file__).resolve().parent.parent
FUNCTION = re.compile(r"( *)(pub )?(?:const |unsafe |extern \"C\" )*fn (\w+)")
TYPE = re.compile(r"pub (struct|enum|trait|const|static|type) (\w+)")
IMPL = re.compile(r"impl(?:<.*?>)? (?:([\w:]+)(?:<.*>)? for )?&?(?:'\w+ )?(\w+)")
GHOST = re.compile(r"    ghost (\w+)[ :=]")
LAW = re.compile(r"    ghost (\w+): \{ \(")
# Of the ghosts of an `impl`, those that name private fields, and those of traits of std that are laws: what stands there is a proof.
UNSEEN = set("use view invariant laws respects_eq total matches_partial_cmp matches_eq inverse inverse_ok".split())
DECLARED = re.compile(r" *(?:(?:pub|abbrev|unfoldable|mutual) )*(?:(?:record|data) ([^\s:(){}]+)|([^\s:(){}]+) :)")
USE = re.compile(r"^ *(?:ghost |pub |unfoldable )*use ([^\s;{]+?)(?:\.\{(.*)\}|(\.\*))?(?: as (\w+))?;?$", re.MULTILINE)
WORD = re.compile(r"(?:(\w+)\.)?([^\W\d][\w'-]*)")


def unpacked(tree, folder):
    """The folder of a tree; a revision is unpacked into a folder."""
    if pathlib.Path(tree, "crates.txt").exists():
        return pathlib.Path(tree)
    packed = subprocess.run(["git", "-C", TOP, "archive", tree, "crates", "crates.txt"], check=True, stdout=subprocess.PIPE)
    subprocess.run(["tar", "-x", "-C", folder], input=packed.stdout, check=True)
    return pathlib.Path(folder)


def text_of(lines):
    """The words of lines without comments, with one space between."""
    return " ".join(" ".join(re.sub(r"(^|\s)(--|//)(\s.*|[/!].*)?$", "", line) for line in lines).split())


def given(crate):
    """The names that a crate's root gives, and its public modules."""
    root = (crate / "src" / "lib.rt").read_text(encoding="utf-8")
    names = set()
    for use in re.findall(r"pub use ([^;]+);", root):
        names |= set(re.findall(r"\w+", use.split("::", 1)[-1]))
    return names, set(re.findall(r"pub mod (\w+);", root)) | {"lib"}


def contract(lines, at):
    """A function's signature and clauses, without its body."""
    indent = re.match(" *", lines[at]).group()
    taken = []
    for line in lines[at:]:
        if line.startswith((indent + "{", indent + "}")):
            break
        taken.append(line)
        if line.endswith(";") or (line.endswith(" {") and not line.startswith(indent + "    ")):
            break
    return re.sub(r" \{$", "", text_of(taken))


def block(lines, at):
    """The lines up to the one that ends what begins here."""
    indent = re.match(" *", lines[at]).group()
    end = at
    while not re.search(r"[;}]$", lines[end]) or not (end == at or indent or lines[end].startswith("}")):
        end += 1
    return lines[at : end + 1]


def shown(lines):
    """What a type shows: all of an enum or a trait, the public fields of a struct."""
    if " struct " in f" {lines[0]}":
        return text_of([lines[0]] + [line for line in lines[1:] if line.strip().startswith("pub ")])
    return text_of(line for line in lines if not line.strip().startswith("ghost use"))


def public_items(path, names, whole, laws):
    """Each public item of a file by its name: its text."""
    lines = path.read_text(encoding="utf-8").splitlines()
    owner, trait = "", ""
    for at, line in enumerate(lines):
        if re.match(r"impl\b|(pub )?(\(crate\) )?trait ", line):
            found = IMPL.match(line)
            trait, owner = (found.group(1) or "", found.group(2)) if found else ("", "")
        item, function, ghost = TYPE.match(line), FUNCTION.match(line), GHOST.match(line)
        inside = owner and (whole or owner in names)
        if item and (whole or item.group(2) in names):
            yield item.group(2), shown(block(lines, at))
        elif function and function.group(1) and inside and (function.group(2) or trait):
            yield "::".join(filter(None, [owner, trait, function.group(3)])), contract(lines, at)
        elif function and not function.group(1) and function.group(2) and (whole or function.group(3) in names):
            yield function.group(3), contract(lines, at)
        elif ghost and inside and ghost.group(1) not in laws:
            yield "::".join(filter(None, [owner, trait, ghost.group(1)])), text_of(block(lines, at))


def definitions(lines):
    """Each declaration of a file of `specs/` by its name: its text, under the parameters of its modules."""
    modules, at = [], 0
    while at < len(lines):
        line, end = lines[at], at + 1
        indent = len(line) - len(line.lstrip())
        modules = [it for it in modules if it[0] < indent or not line.strip()]
        declared = DECLARED.match(line)
        if re.match(r" *module _", line):
            while not lines[end - 1].rstrip().endswith("where"):
                end += 1
            modules.append((indent, text_of(lines[at:end])))
        elif declared and not line.strip().startswith("--"):
            name = declared.group(1) or declared.group(2)
            while end < len(lines) and belongs(lines[end], indent, name):
                end += 1
            yield name, " ".join([it for _, it in modules] + [text_of(lines[at:end])])
        at = end


def belongs(line, indent, name):
    """Whether a line goes on with a declaration: it is deeper, or one of its equations."""
    deep = len(line) - len(line.lstrip())
    equation = line.strip().startswith((name + " ", name + "\n", "unfolding "))
    return not line.strip() or deep > indent or (deep == indent and equation)


class Tree:
    """A tree's public items, as the module and the text of each by its name, and its definitions by module and name."""

    def __init__(self, folder):
        self.items, self.defined, self.uses = collections.defaultdict(list), {}, {}
        crates = [line.split(":")[0].split(" ")[0] for line in (folder / "crates.txt").read_text(encoding="utf-8").splitlines()]
        found = [folder / "crates" / it for it in crates if not it.startswith("tests_")]
        crates = [it for it in found if (it / "src" / "lib.rt").exists()]
        sources = [path for crate in crates for path in (crate / "src").rglob("*.rt")]
        laws = UNSEEN | {law for path in sources for law in LAW.findall(path.read_text(encoding="utf-8"))}
        for crate in crates:
            self.read_code(crate, laws)
            self.read_specs(crate)

    def read_code(self, crate, laws):
        names, modules = given(crate)
        for path in sorted((crate / "src").rglob("*.rt")):
            place = path.relative_to(crate / "src")
            self.uses[path] = self.used(path, "")
            whole = place.parts[0].removesuffix(".rt") in modules
            for name, text in public_items(path, names, whole, laws):
                self.items[name].append((path, text))

    def read_specs(self, crate):
        for path in sorted((crate / "specs").rglob("*.antt")):
            module = ".".join(["Rattle", crate.name, *path.relative_to(crate).with_suffix("").parts]).removesuffix(".Lib")
            self.uses[module] = self.used(path, module)
            for name, text in definitions(path.read_text(encoding="utf-8").splitlines()):
                self.defined[module, name] = text

    def used(self, path, module):
        """Which module a file has each name from, under which word it knows each module, and of which it passes on all."""
        names, modules, whole = {}, {}, []
        for origin, listed, star, word in USE.findall(path.read_text(encoding="utf-8")):
            origin = origin if origin.startswith("Rattle") else f"{module}.{origin}"
            names.update({name.split(" as ")[-1]: (origin, name.split(" as ")[0]) for name in listed.split(", ") if name})
            modules.update({word: origin} if word else {})
            whole += [origin] if star else []
        return names, modules, whole

    def stands(self, module, name):
        """Where a definition stands that a module has or passes on, or None."""
        if (module, name) in self.defined:
            return module, name
        names, _, whole = self.uses.get(module, ({}, {}, []))
        if name in names and names[name] != (module, name):
            return self.stands(*names[name])
        return next(filter(None, (self.stands(origin, name) for origin in whole)), None)

    def cited(self):
        """The definitions that the public items name, at any remove, by their names."""
        waiting = [it for texts in self.items.values() for it in texts]
        reached = {}
        while waiting:
            module, text = waiting.pop()
            for owner, name in WORD.findall(text):
                aliased = self.uses[module][1].get(owner)
                for place in (self.stands(aliased, name) if aliased else None, self.stands(module, name), self.stands(module, owner)):
                    if place and place not in reached:
                        reached[place] = self.defined[place]
                        waiting.append((place[0], reached[place]))
        texts = collections.defaultdict(list)
        for (_, name), text in sorted(reached.items()):
            texts[name].append(text)
        return texts


def texts_by_name(named):
    """The second parts of what stands by each name."""
    texts = collections.defaultdict(list)
    for key, found in named:
        texts[key].append(found)
    return texts


def differences(before, after):
    """What of these texts stands no more."""
    for name, texts in sorted(before.items()):
        kept = collections.Counter(after.get(name, []))
        for text in texts:
            if kept[text]:
                kept[text] -= 1
            else:
                others = "".join(f"  after:  {it}\n" for it in kept.elements())
                yield f"{'changed' if others else 'gone'}: {name}\n  before: {text}\n{others}"


def main():
    if len(sys.argv) not in (2, 3):
        sys.exit(__doc__)
    with tempfile.TemporaryDirectory() as one, tempfile.TemporaryDirectory() as other:
        before = Tree(unpacked(sys.argv[1], one))
        after = Tree(unpacked(sys.argv[2], other) if len(sys.argv) == 3 else TOP)
    items = {name: [text for _, text in texts] for name, texts in before.items.items()}
    new_items = {name: [text for _, text in texts] for name, texts in after.items.items()}
    cited = before.cited()
    defined = texts_by_name((name, text) for (_, name), text in sorted(after.defined.items()))
    wrong = [*differences(items, new_items), *differences(cited, defined)]
    print("".join(wrong) + "".join(f"new: {name}\n" for name in sorted(new_items.keys() - items.keys())), end="")
    counts = f"{sum(map(len, items.values()))} contracts, laws and types, {sum(map(len, cited.values()))} definitions"
    print(f"{counts}; {len(wrong)} gone or changed")
    sys.exit(1 if wrong else 0)


if __name__ == "__main__":
    main()
