#!/usr/bin/env python3
"""Lists the words that the promise of `run` rests on, from the clauses of `run` through the imports of specs/.

    docs/definitions.py           prints the words by file, and how many lines of specs/ they take
    docs/definitions.py --write   writes that list into docs/DEFINITIONS.md, between its two markers, and the definitions that matter
                                  first, as they stand in specs/, between two others
    docs/definitions.py --check   fails where either is another one there, or the guide names a word that isn't reached
"""
import pathlib
import re
import sys

TOP = pathlib.Path(__file__).resolve().parent.parent
GUIDE = TOP / "docs" / "DEFINITIONS.md"
PROGRAM = TOP / "crates" / "vhdx_app" / "src" / "program.rt"
BEGIN, END = "<!-- list: begin -->", "<!-- list: end -->"
TEXT_BEGIN, TEXT_END = "<!-- first: begin -->", "<!-- first: end -->"
# The definitions that matter first, in reading order: what each says, and its words.
FIRST = [
    ("What a call does to the disk, a list of sectors of z bytes, and what it answers.", ["guest_model.specs.Calls.apply", "guest_model.specs.Calls.reply"]),
    ("The disk behind a history of calls.", ["guest_model.specs.History.replay"]),
    ("Which sectors of it a crash may leave otherwise: those written or trimmed since its last flush.", ["guest_model.specs.History.is_dirty"]),
    ("What a file with this header stands for: its bytes with what its log holds unapplied.", ["vhdx_format.specs.SettledFiles.Settles"]),
    ("What a file has of each sector: by its block's state nothing, zeros, or bytes of its own.", ["vhdx_format.specs.Layers.sector_by_state"]),
    ("The files to which a leaf's name leads.", ["chain_model.specs.Files.IsLinked", "chain_model.specs.Members.IsChainOf"]),
    ("The disk of a chain: each sector as the first file says that has it, from the leaf on.",
     ["chain_model.specs.Layers.through", "chain_model.specs.Layers.flat", "chain_model.specs.Members.disk_of"]),
    ("What a crash may leave of a file, change by change.", ["store_model.specs.File.IsImageAfter"]),
    ("What each such image of a folder is opened to: the disk of the first calls of the history, outside what is dirty or being written.",
     ["steps_command.specs.Crashes.EachImageOpens", "steps_command.specs.Crashes.OpensToFirst"]),
    ("What all guests are told is one history's.", ["serve_session.specs.Served.AreServed"]),
]
KINDS = ("abbrev pub ", "unfoldable pub ", "foldable pub ", "pub record ", "pub data ", "abbrev ", "unfoldable ", "record ", "data ", "pub ")
NAME = re.compile(r"[^\s(){}\[\],.:;λ→×⊎]+")
USE = re.compile(r"^(?:pub |unfoldable |ghost )*use Rattle\.([\w.«»]+?)(?:\.\{([^}]*)\}| as (\w+))?;?$")


class Module:
    """A file of specs/: its words with their lines, its imports, and of constructors the word that has them."""

    def __init__(self, path):
        self.words, self.names, self.modules, self.owners, self.inner = {}, {}, {}, {}, {}
        pending, word = [], None
        for line in path.read_text().split("\n"):
            found = USE.match(line)
            if found:
                self.add_use(*found.groups())
                continue
            if line.startswith("--") or not line.strip():
                pending = pending + [line] if line.startswith("--") else []
                word = None if not line.strip() else word
                continue
            new = self.name_of(line)
            if new:
                word = new
                self.words.setdefault(word, []).extend(pending)
                self.owners.setdefault(word, word)
            pending = []
            if word:
                self.words[word].append(line)
                inner = re.match(r"^ +(?:pub )?([^\s():]+) :", line)
                if inner:
                    self.inner.setdefault(word, set()).add(inner.group(1))
                    if any(first.startswith(("pub data ", "data ")) for first in self.words[word]):
                        self.owners.setdefault(inner.group(1), word)

    def add_use(self, path, names, alias):
        if names is not None:
            for name in names.split(","):
                name, _, new = name.strip().partition(" as ")
                if name:
                    self.names[new or name] = (path, name)
        elif alias:
            self.modules[alias] = path

    def name_of(self, line):
        for kind in KINDS:
            if line.startswith(kind):
                return line[len(kind):].split(" ")[0].rstrip(":")
        found = re.match(r"^(\S+) :", line)
        if found:
            return found.group(1)
        head = line.split(" ")[0]
        return head if head in self.words and not line.startswith(" ") else None


def file_of(path):
    """The file of specs/ that a module's path names, `vhdx_app.specs.Dump`."""
    parts = path.split(".")
    if len(parts) < 3 or parts[1] != "specs" or parts[2] == "declared":
        return None
    file = TOP / "crates" / parts[0] / "specs" / ("/".join(parts[2:]) + ".antt")
    return file if file.exists() else None


MODULES = {}


def module(path):
    if path not in MODULES:
        file = file_of(path)
        MODULES[path] = Module(file) if file else None
    return MODULES[path]


def operators(text):
    return [f"◌{word}◌" for word in text.split() if not word.isalnum()]


def mentions(text, names, modules, own):
    """The words that a text names: those of other files, and those of its own file."""
    text = re.sub(r"codes \"[^\"]*\"", "", re.sub(r"--.*", "", text))
    for alias, path in modules.items():
        for found in re.finditer(rf"\b{re.escape(alias)}\.(\w+)", text):
            yield path, found.group(1)
    for word in set(NAME.findall(text)) | set(operators(text)):
        if word in names:
            yield names[word]
        elif word in own:
            yield None, word


def resolve(path, name):
    """The word of a file that a name stands for: itself, the word of which it is a constructor, or the one it passes on."""
    there = module(path)
    if there is None:
        return None
    if name in there.owners:
        return path, there.owners[name]
    if name in there.names:
        return resolve(*there.names[name])
    return None


def roots():
    text = PROGRAM.read_text()
    program = Module(PROGRAM)
    for line in text.split("\n"):
        found = USE.match(line.replace("ghost use", "use"))
        if found:
            program.add_use(*found.groups())
    head = text[text.index("pub fn run<"):]
    clauses = head[:head.index("\n{\n")]
    yield from mentions(clauses[clauses.index("requires"):], program.names, program.modules, {})


def reached():
    found, queue = {}, [word for word in (resolve(*root) for root in roots()) if word]
    while queue:
        path, name = queue.pop()
        if name in found.setdefault(path, set()):
            continue
        found[path].add(name)
        there = module(path)
        for target, word in mentions("\n".join(there.words[name]), there.names, there.modules, there.owners):
            next_word = resolve(target or path, word)
            if next_word:
                queue.append(next_word)
    return found


def listing(found):
    order = sorted(found, key=lambda path: (CRATES.index(path.split(".")[0]), path))
    lines = count = 0
    rows = []
    for path in order:
        words = [word for word in module(path).words if word in found[path]]
        count += len(words)
        lines += sum(1 for word in words for line in module(path).words[word] if line.strip() and not line.strip().startswith("--"))
        crate, _, rest = path.partition(".specs.")
        rows.append(f"- `{crate}` {rest}: " + ", ".join(f"`{word}`" for word in words))
    whole = sum(1 for path in order for line in file_of(path).read_text().split("\n") if line.strip() and not line.startswith("use "))
    head = f"{count} words in {len(order)} files: {lines:,} lines without comments, in {whole:,} lines of these files without imports."
    return head, rows


def first_texts():
    """The definitions that matter first, whole, with what each says and where it stands."""
    blocks = []
    for number, (said, words) in enumerate(FIRST, 1):
        files, lines = [], []
        for place in words:
            path, word = place.rsplit(".", 1)
            file = f"`crates/{file_of(path).relative_to(TOP / 'crates')}`"
            files += [file] if file not in files else []
            lines += ["    "] if lines else []
            lines += ["    " + line for line in module(path).words[word] if not line.startswith("--")]
        blocks.append(f"{number}. {said} ({', '.join(files)})\n\n" + "\n".join(line.rstrip() for line in lines))
    return "\n\n".join(blocks)


CRATES = [line.split(":")[0].split()[0] for line in (TOP / "crates.txt").read_text().split("\n") if ":" in line and not line.startswith("#")]


def main():
    found = reached()
    head, rows = listing(found)
    text = "\n".join([head, ""] + rows)
    if "--write" not in sys.argv and "--check" not in sys.argv:
        print(text)
        return 0
    guide = GUIDE.read_text()
    before, rest = guide.split(BEGIN)
    old, after = rest.split(END)
    firsts = first_texts()
    head_part, rest_part = before.split(TEXT_BEGIN)
    old_firsts, tail_part = rest_part.split(TEXT_END)
    if "--write" in sys.argv:
        before = head_part + TEXT_BEGIN + "\n" + firsts + "\n" + TEXT_END + tail_part
        GUIDE.write_text(before + BEGIN + "\n" + text + "\n" + END + after)
        return 0
    status = 0
    if old_firsts.strip() != firsts.strip():
        print("the first definitions in docs/DEFINITIONS.md aren't those of specs/: run docs/definitions.py --write")
        status = 1
    if old.strip() != text.strip():
        print("the list in docs/DEFINITIONS.md isn't that of the imports: run docs/definitions.py --write")
        status = 1
    names = {word for words in found.values() for word in words}
    names |= {word for path, words in found.items() for owner in words for word in module(path).inner.get(owner, ())}
    guided = before.split("<!-- not reached: begin -->")[0]
    for row in re.findall(r"^\| (`.*?) \|", guided, re.M):
        for word in re.findall(r"`([^`]+)`", row):
            word = word.split(" ")[-1].split(".")[-1]
            if word and word not in names:
                print(f"the guide names `{word}`, which run doesn't reach")
                status = 1
    return status


if __name__ == "__main__":
    sys.exit(main())
