"""What the documents name exists: links, files, options, commands, and names of the sources.

A word in backquotes tells by its form what it is. Crates have the names that they define; an item of a list
or a row of a table that begins with crates names what is in them and below.
"""

import functools
import os
import pathlib
import re
import subprocess
from typing import Iterator

import pytest
from support import TOP

# Folders that hold what is built; nothing in them is a source.
BUILT = re.compile(r"out|\.(?!ci$).*|__pycache__|build|dist|node_modules|.*\.egg-info")
NO_SOURCE = re.compile(r"\.(md|png|svg|edit)$|/(lines|expected)\.txt$|^(?!crates/).*\btests/")
# What the documents name that stands elsewhere: in Rust and C, in the kit, in other tools, in run folders.
ELSEWHERE = """Global get_flag get_one fault_of subcommand_of malloc realloc rattle-kit-13f
    --anew --minutes --only --allow-holes --fix-imports FoldsTo elim omega refl grind returns-then-steps-self
    returns-then-p-lt0-clause-apart After-widened_side loop-x-init loop-x-preserved --host --memory-limit
    --nanny-port --nthreads --nworkers --worker-port --pipe pass-1 pass-2 host1 CARGO_TARGET_DIR""".split()
# What a source of a crate defines; elsewhere any word counts.
DEFINED = {
    ".rt": r"\b(?:fn|struct|enum|trait|type|const|mod|requires|ensures) (\w+)|^pub use ([^;]+);"
    r"|^    (?:pub(?:\(crate\))? )?(?:ghost )?(\w+)(?::|,$| = | \{|\()",
    ".antt": r"^ *(?:(?:pub|abbrev|unfoldable|record|data) )*(\S+)(?: .*)? :(?: |$)",
}
WORD, NAME = r"`[^`\n]+`", r"[A-Za-z_][\w-]*(?:::[A-Za-z_][\w-]*)*"
LIST = r"%s(?:(?:,|,? and|,? or) %s)*" % (WORD, WORD)
# Of `a` of `b`, `c` of `d`, only `b` is the owner of `a`.
OF = re.compile(r"(%s) of (%s(?:(?:,| and| or) %s)*(?!(?:,| and| or)? (?:of )?`)|%s)" % (LIST, *[WORD] * 3))
IN = re.compile(r"(%s)(?: of %s)? in `([^` ]+\.\w+)`" % (LIST, LIST))
# In what changed: names that were, and are not any more.
FORMER = r"`[^`]+` is gone|`[^`]+` is (?=`)|\(it was `[^`]+`\)|in place of `[^`]+`|constants `[^`]+` are"
VERDICT = r"(?:<machine> |[\dA-Z_-]+ )?([a-z]+)(?: [LR])?(?: (?:\d+|<[\w ]+>|steps|cells))+"
FILE = r"[\w./-]*/[\w./-]*|[\w.-]*\.(?:rt|antt|edit|md|py|mjs|html|h|c|rs|v|ml|txt|png|svg|wasm|a|so)"
COMMAND = r"\./\w+ |(?:bb|budlarem|make(?! -)) |(?:coq|tools|benchmarks|scripts)/\S+ "
VERSION = r'^(?:#define BB_VERSION "|(?:pub const )?VERSION(?:: &str)? = "|## |.*(?:\.version\("|"(?:bb|cover|recurrence) ))([0-9.]+)'
VERSIONED = """crates/bb_command/src/options.rt crates/bb/src/tests.rt docs/bb.1
    docs/cover.1 docs/recurrence.1 include/bb.h python/src/budlarem/_version.py CHANGELOG.md""".split()
DOCUMENTS = [*TOP.glob("*.md"), *TOP.glob("docs/*.md"), TOP / "examples" / "README.md"]
# Lines, and what is missing of each.
BROKEN = [
    ("A [link](verification.md#missing) to no heading.", "the link to verification.md#missing"),
    ("`Runner::missing_call` isn't defined.", "the name `Runner::missing_call`"),
    ("`bb_run::cyclers` is another crate's.", "the name `bb_run::cyclers`"),
    ("- `bb_run`: `ask` of a crate that it doesn't stand on.", "the name `ask`"),
    ("`record_pair` in `Tops.antt` isn't.", "`record_pair` in Tops.antt"),
    ("`verdict` of `cyclers` is one of another call.", "`verdict` of `cyclers`"),
    ("`bb decide --every` is none.", "the option --every of `bb decide --every`"),
    ("`make nothing` is no target.", "the target nothing"),
    ("`1RB1LB_1LA1RZ halts 6 4` isn't written.", "the line `1RB1LB_1LA1RZ halts 6 4`"),
    ("    tools/missing.py crates/bb/out/bb | ./bb decide", "the file `tools/missing.py`"),
]


def read(path: str) -> str:
    return (TOP / path).read_text(encoding="utf-8", errors="replace")


def backquoted(text: str) -> list[str]:
    return re.findall(r"`([^`\n]+)`", text)


@functools.lru_cache(maxsize=None)
def sources() -> dict[str, str]:
    """Read all files and folders but what is built; of documents and tests beside crates only the names."""
    found = {}
    for folder, folders, names in os.walk(TOP):
        folders[:] = [name for name in folders if not BUILT.fullmatch(name)]
        for path in (os.path.relpath(os.path.join(folder, name), TOP) for name in [*folders, *names]):
            found[path] = read(path) if (TOP / path).is_file() and not NO_SOURCE.search(path) else ""
    return found


@functools.lru_cache(maxsize=None)
def places() -> dict[str, set[str]]:
    """Index names by the files and folders that define them."""
    found: dict[str, set[str]] = {name: {"elsewhere"} for name in [*ELSEWHERE, *written_words(), *crates()]}
    for path, text in sources().items():
        form = DEFINED.get(os.path.splitext(path)[1], r"([\w-]+)")
        code = re.sub(r"/\*.*?\*/|//[^\n]*", "", text, flags=re.S) if path.endswith((".mjs", ".h")) else text
        words = [group for match in re.finditer(form, code, re.M) for group in match.groups() if group]
        for word in re.findall(r"[^\s,{}:]+", " ".join([*words, *re.split(r"[/.]", path)])):
            found.setdefault(word, set()).add(path)
    return found


def crates() -> dict[str, set[str]]:
    """Read what each crate stands on, directly or through others."""
    rows = re.findall(r"^([a-z_]+)[^:]*:(.*)", read("crates.txt"), flags=re.M)
    given = {name: set(below.split()) for name, below in rows}
    return {name: below.union(*(given.get(crate, set()) for crate in below)) for name, below in given.items()}


def homes(paths: set[str]) -> set[str]:
    """Return the crates that files are in, and the files that are in none."""
    return {path.split("/")[1] if path.startswith("crates/") else path for path in paths}


@functools.lru_cache(maxsize=None)
def options(program: bool) -> set[str]:
    """Return the options of the program alone, or of all commands."""
    source = read("crates/bb_command/src/command.rt")
    named = re.findall(r"(?:value|has_option)\(matches, \"([a-z-]+)\"\)", source)
    texts = [] if program else [text for path, text in sources().items() if not path.startswith("crates/")]
    others = [word for text in texts for word in re.findall(r"[\"'](--[a-z][a-z-]*)[\"' =]", text)]
    return {"--help", "--version", *("--" + name for name in named), *others, *ELSEWHERE}


def written_words() -> set[str]:
    """Return the words of the lines that the program writes: of verdicts, refusals and answers."""
    paths = ("bb_cert/src/verdict/line.rt", "bb_cert/src/checker/answer.rt", "bb_run/src/checking.rt")
    texts = re.findall(r"b\"([a-zLR ]+)\"", "".join(read("crates/" + path) for path in paths))
    return {word for text in texts for word in text.split()}


class Line:
    """A line of a document, and what it names that doesn't exist."""

    def __init__(self, path: str, text: str, blocks: set[str]) -> None:
        self.path, self.text, self.blocks = path, text, blocks
        begin = re.match(r"\| *(%s) *\|| *- (?:\*\*)?(%s)[:,.*]" % (LIST, LIST), text)
        self.about = set(backquoted(begin[0])) & set(crates()) if begin else set()

    def missing(self) -> Iterator[str]:
        if self.text.startswith("    "):
            parts = [part.strip().lstrip("$ ") for part in re.split(r"[|;&]+|\$\(", self.text)]
            yield from (what for part in parts if re.match(COMMAND, part) for what in self.in_command(part))
            return
        yield from (what for link in re.findall(r"\]\(([^)]*)\)", self.text) for what in self.in_link(link))
        text = re.sub(FORMER, "", self.text) if self.path == "CHANGELOG.md" else self.text
        yield from (what for word in backquoted(text) for what in self.in_word(word))
        for names, owners in OF.findall(text):
            pairs = [(name, owner) for name in backquoted(names) for owner in backquoted(owners)]
            yield from ("`%s` of `%s`" % pair for pair in pairs if not self.is_of(*pair))
        for names, file in IN.findall(text):
            texts = "".join(sources()[path] for path in self.files(file)) or names
            named = [name for name in backquoted(names) if re.fullmatch(NAME, name)]
            yield from ("`%s` in %s" % (name, file) for name in named if name.split("::")[-1] not in texts)

    def in_link(self, link: str) -> Iterator[str]:
        path, _, heading = link.partition("#")
        file = os.path.normpath(os.path.join(os.path.dirname(self.path), path)) if path else self.path
        heads = re.findall(r"^#+ (.*)", read(file), flags=re.M) if heading and file in sources() else []
        known = [re.sub(r"[^\w -]", "", head.lower()).replace(" ", "-") for head in heads]
        if "://" not in link and (file not in sources() or heading not in ["", *known]):
            yield "the link to %s" % link

    def in_word(self, word: str) -> Iterator[str]:
        """Yield what is missing of a word in backquotes, by its form."""
        called, verdict = re.match(r"(?:\w+\.)?(\w+)(?:\(| \{)", word), re.fullmatch(VERDICT, word)
        if re.match(COMMAND, word) or re.fullmatch(r"--[a-z-]+( .*)?", word):
            yield from self.in_command(word)
        elif re.fullmatch(FILE, word):
            yield from ["the file `%s`" % word] * (not self.is_file(word))
        elif verdict:
            yield from ["the line `%s`" % word] * (verdict[1] not in written_words())
        elif re.fullmatch(NAME, word) or called:
            yield from ["the name `%s`" % word] * (not self.is_name(called[1] if called else word))

    def is_name(self, word: str) -> bool:
        """Tell whether something has a name: the owner before it, or the crates that the line is about."""
        *before, last = word.split("::")
        found = places().get(last, set())
        if before and before[-1] not in crates():
            return bool(homes(found) & homes(places().get(before[-1], set())))
        seen = set(before[-1:]) or self.about.union(*(crates()[crate] for crate in self.about))
        owners = homes(found) & set(crates())
        is_seen = bool(owners & seen) if owners and seen else bool(found)
        return len(last) == 1 or is_seen or "elsewhere" in found

    def is_of(self, name: str, owner: str) -> bool:
        """Tell whether a crate or a function has a name, as far as the sources show."""
        found, owners = (places().get(word.split("::")[-1], set()) for word in (name, owner))
        calls = {path for path in owners if re.search(r"\bfn %s\b" % owner, sources().get(path, ""))}
        if owner in crates():
            return owner in homes(found) or not re.fullmatch(NAME, name)
        return not calls or not found or bool(found & calls)

    def is_file(self, word: str) -> bool:
        """Tell whether a file exists, is built or made by a command, or stands in a block of the document."""
        path = os.path.normpath(word) if word.startswith("./") else word
        folder, _, name = path.rpartition("/")
        is_made = (not folder or folder.isupper() or folder in self.blocks) and "." in name
        texts = (text for file, text in sources().items() if is_made and not file.startswith("crates/"))
        is_built = path.startswith(("/", "python/dist")) or "out" in path.split("/") or path in self.blocks
        beside = os.path.normpath(os.path.join(os.path.dirname(self.path), path))
        is_there = is_built or beside in sources() or bool(self.files(path))
        return is_there or any(name in text for text in texts)

    def files(self, path: str) -> list[str]:
        """List the files whose path ends so, maybe without a source's ending; those of the line's crates."""
        ends = tuple("/" + path.strip("/") + ending for ending in ("", ".rt", ".antt"))
        found = [file for file in sources() if ("/" + file).endswith(ends)]
        is_any = not self.about or path.split("/")[0] in crates() or path in found
        return [file for file in found if is_any or homes({file}) & self.about]

    def in_command(self, text: str) -> Iterator[str]:
        first, *words = text.split()
        if first == "make" and not re.search(r"^\.PHONY:.* %s\b" % words[0], read("Makefile"), flags=re.M):
            yield "the target %s" % words[0]
        if "/" in first and not self.is_file(first):
            yield "the file `%s`" % first
        wrong = set(re.findall(r"(?<!\S)--[a-z][a-z-]*", text)) - options(first in ("bb", "./bb"))
        yield from ("the option %s of `%s`" % (word, text) for word in sorted(wrong))


def findings(path: str, text: str) -> Iterator[str]:
    """Yield what a document names that doesn't exist, each with its line."""
    blocks = set(re.findall(r"[\w.-]+", "".join(re.findall(r"^    .*\n", text, flags=re.M))))
    for number, line in enumerate(text.split("\n"), 1):
        yield from ("%s:%d: %s" % (path, number, what) for what in Line(path, line, blocks).missing())


@pytest.mark.parametrize("path", [str(path.relative_to(TOP)) for path in DOCUMENTS])
def test_document_names_what_exists(path: str) -> None:
    assert "\n".join(findings(path, read(path))) == ""


@pytest.mark.parametrize("line, missing", BROKEN)
def test_what_is_missing_is_named(line: str, missing: str) -> None:
    assert list(findings("docs/architecture.md", line)) == ["docs/architecture.md:1: " + missing]


def test_manual_page_names_options_of_the_program() -> None:
    named = re.findall(r"--[a-z]+(?:-[a-z]+)*", read("docs/bb.1").replace("\\-", "-"))
    assert named and set(named) <= options(True)


def test_version_is_one() -> None:
    found = {path: re.findall(VERSION, read(path), flags=re.M)[:1] for path in VERSIONED}
    assert len({tuple(version) for version in found.values()}) == 1 and all(found.values()), found


def test_layers_agree_with_crates() -> None:
    """The table of docs/architecture.md has what each crate stands on."""
    rows = dict(re.findall(r"^\| `(\w+)` \|([^|]*)\|", read("docs/architecture.md"), flags=re.M))
    for crate, below in crates().items():
        if not crate.startswith("tests_of_"):
            named = set(backquoted(rows[crate])).union(*(crates()[name] for name in backquoted(rows[crate])))
            assert named & set(crates()) == below & set(crates()), crate


def test_manual_page_of_the_package_is_made(tmp_path: pathlib.Path) -> None:
    """Paragraphs are filled, and other lines fit beside the page's indent."""
    page = tmp_path / "budlarem.1"
    subprocess.run(["make", "-s", "-C", str(TOP), "manual", "manual_page=%s" % page], check=True)
    text = page.read_text(encoding="utf-8").replace("\\", "")
    kept = "".join(re.findall(r"\.nf\n(.*?)\.fi", text, re.S)).split("\n")
    assert ".br" not in text and len(kept) > 99 and max(map(len, kept)) <= 72
