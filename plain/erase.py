#!/usr/bin/python3
"""Erase the contracts: write the crates as an ordinary Cargo workspace in plain Rust.

    plain/erase.py OUT

Rattle is Rust with contracts. Each source is split into tokens, its clauses become comments, and a short list
of rules rewrites the calls that differ in Rattle's standard library. Anything else that is not plain Rust
stops the command, with file, line and token. The status is 1 then, and 2 for wrong arguments.
"""

import argparse
import json
import os
import pathlib
import re
import shutil
import sys
import textwrap
from typing import Iterator, List, Match, NamedTuple, NoReturn, Optional, Tuple

TOP = pathlib.Path(__file__).resolve().parents[1]
sys.path.insert(0, str(TOP))

from tools.build_info import header_version  # noqa: E402

SHIMS = pathlib.Path(__file__).resolve().parent / "shim"
DEBIAN = pathlib.Path("/usr/share/cargo/registry")

TOKEN = re.compile(
    r"""(?P<space>\s+)
    | (?P<comment>//[^\n]*|/\*.*?\*/)
    | (?P<text>b?r(?P<hash>\#*)".*?"(?P=hash)|[bc]?"(?:\\.|[^"\\])*")
    | (?P<char>b?'(?:\\(?:x[0-9a-fA-F]{2}|u\{[^}]*\}|.)|[^'\\])')
    | (?P<lifetime>'[A-Za-z_]\w*)
    | (?P<word>(?:r\#)?[A-Za-z_]\w*)
    | (?P<number>[0-9][0-9A-Za-z_]*)
    | (?P<mark>.)""",
    re.X | re.S,
)
# Inside a clause only braces, texts and comments matter; a name there may contain a quote.
IN_CLAUSE = re.compile(r'"(?:\\.|[^"\\])*"|--[^\n]*|//[^\n]*|[{}]|.', re.S)
CLAUSE = re.compile(r"\s+(?:\*?\s*[A-Za-z_]\w*\s+)?\*?\s*(?=\{)")
CLAUSES = ("requires", "ensures", "decreases")
GHOST = re.compile(r"\s+(?:use\b|[A-Za-z_]\w*\s*[:=])")
ATTRIBUTES = "allow cfg cold derive error inline must_use repr tactic test unsafe".split()
MACROS = """assert assert_eq eprint eprintln format matches panic print println unreachable value_parser vec
    write""".split()
# Rules: a name, a pattern and its replacement, over the text without clauses.
RULES: List[Tuple[str, str, str]] = [
    ("a proof tactic", r"#!?\[tactic\b[^\]]*\]\n?", ""),
    ("derive(Drop)", r"(#\[derive\([^)]*?)(?:, *\bDrop\b|\bDrop\b *,? *)([^)]*\))", r"\1\2"),
    ("an empty derive", r"[ \t]*#\[derive\(\)\]\n", ""),
    ("a writer of its own type", r"<W: fmt::Write>", ""),
    ("a formatter of a writer", r"Formatter<W>", "Formatter<'_>"),
    (
        "a call with an allocator",
        r"\.(collect|replace|to_vec|to_string|repeat)(::<[^;()]*>)?\((?=\s*(?:\w+\.)*alloc\b)",
        r".\1_with\2(",
    ),
    ("a copy that may fail", r"\.clone\(\)(?=\?)", ".clone_with()"),
    ("an expectation", r"\.expect\((?=\s*&?rt\b)", ".expect_with("),
    # A step is made by calls that belong into their loop; rustc leaves them outside, at twice the time.
    ("a call to inline", r"#\[inline\]", "#[inline(always)]"),
    ("a version", r'((?:\(|VERSION: &str = )"|"bb )(\d+\.\d+\.\d+)', r"\1\2 (plain)"),
    ("a program's start", r"fn main\((?=rt: HostRuntime\))", "std::main!(start);\n\nfn start("),
]
TEST = re.compile(r"(#\[test\]\s+(?:#\[[^\]]*\]\s+)*fn (\w+)\()(rt: HostRuntime)?\)(\s*->)?")
EXPORT = re.compile(r'#\[unsafe\(no_mangle\)\]\s*pub extern "C" fn (\w+)\((.*?)\)([^{]*)\{', re.S)
PARAMETER = re.compile(r"(\w+): ([^,]+),")
ERROR = re.compile(r'#\[error\(("[^"]*")\)\]\s*')
INNER = re.compile(r"(?:[ \t]*//![^\n]*\n|[ \t]*#!\[[^\n]*\n|[ \t]*\n)*")
# Crates have no name `std` of Rust's own; the shim takes its place.
ROOT = "#[macro_use]\nextern crate rattle_std as std;\n"
PRELUDE = "#[allow(unused_imports)]\nuse std::prelude::*;\n"
# A call that only this build of the library has, so that programs over it can tell it from the proved one.
PLAIN = """
/// 1: this library isn't proved.
#[unsafe(no_mangle)]
pub extern "C" fn bb_is_plain() -> u32 {
    1
}
"""
# Some calls, imports and parameters are there for clauses alone.
ALLOWED = "#![allow(dead_code, unused_imports, unused_variables)]\n"
NO_MAIN = "#![cfg_attr(all(unix, not(test)), no_main)]\n"
# The crates of the registry. The shim of clap names its version too.
VERSIONS = {"arrayvec": "0.7", "clap": "4", "itoa": "1", "memchr": "2"}
# The oldest rustc that compiles the workspace.
RUST = "1.88"
# Dependencies of the kit whose place a crate in `shim` takes.
SHIMMED = {"clap": "rattle_clap", "linked_list_allocator": "rattle_heap"}
ERASED = ("thiserror",)
# Lints that the sources don't follow, since the prover prefers another form, or a contract fixes it.
LINTS = """assign_op_pattern collapsible_if large_enum_variant legacy_numeric_constants manual_div_ceil
    manual_find manual_is_multiple_of manual_map manual_range_contains needless_lifetimes needless_range_loop
    new_without_default question_mark single_match too_many_arguments type_complexity""".split()
PROFILES = """
[profile.release]
lto = "fat"
codegen-units = 1
panic = "abort"

[profile.test]
opt-level = 2
overflow-checks = true
debug-assertions = true
"""


# What rustc does otherwise, and what it costs the single-pass run of the champion. Tests joined by `&&` become
# one without a branch: 80 instructions a step in place of 70. On some processors branches are slow that cross
# a multiple of 32 bytes, 1.3 of the time.
EVERYWHERE = ["simplifycfg-branch-fold-threshold=0"]
ON_X86 = [*EVERYWHERE, "x86-branches-within-32B-boundaries", "align-loops=32"]


def flags(options: List[str], *others: str) -> str:
    """Return rustflags with these options of LLVM."""
    words = [*others, *("llvm-args=-" + option for option in options)]
    return "rustflags = %s\n" % json.dumps([part for word in words for part in ("-C", word)])


# The processor is the one of the proved build.
FLAGS = """[target.'cfg(target_arch = "x86_64")']\n%s\n[target.'cfg(not(target_arch = "x86_64"))']\n%s""" % (
    flags(ON_X86, "target-cpu=x86-64-v2"),
    flags(EVERYWHERE),
)
FROM_DEBIAN = '\n[source.crates-io]\nreplace-with = "debian"\n\n[source.debian]\ndirectory = "%s"\n' % DEBIAN


class Token(NamedTuple):
    """A token; a whole clause is one of kind `clause`, another item for the proof one of kind `ghost`."""

    kind: str
    text: str
    line: int


class Source(NamedTuple):
    """A file of a crate; `name` is its path inside `src`."""

    path: pathlib.Path
    name: str

    def refuse(self, line: int, token: str) -> NoReturn:
        path = os.path.relpath(self.path, TOP)
        sys.exit("erase: %s:%d: `%s` has no rule" % (path, line, token.strip()[:60]))


def braces_end(text: str, at: int) -> int:
    depth = 0
    for found in IN_CLAUSE.finditer(text, at):
        depth += {"{": 1, "}": -1}.get(found[0], 0)
        if found[0] == "}" and depth == 0:
            return found.end()
    return len(text)


def ghost_end(text: str, at: int) -> int:
    """Return the end of `ghost .. ;` or `ghost .. ,`; the last field may have no comma."""
    depth = 0
    for found in IN_CLAUSE.finditer(text, at):
        if depth == 0 and found[0] == "}":
            return found.start()
        depth += {"{": 1, "}": -1}.get(found[0], 0)
        if depth == 0 and found[0] in ";,":
            return found.end()
    return len(text)


def proof_end(text: str, word: str, at: int) -> Optional[int]:
    """Return the end of the clause or ghost item that starts with `word`, if it is one."""
    if word == "ghost":
        return ghost_end(text, at) if GHOST.match(text, at) else None
    clause = CLAUSE.match(text, at) if word in CLAUSES else None
    return braces_end(text, clause.end()) if clause else None


def tokens(source: Source, text: str) -> Iterator[Token]:
    at, line, before = 0, 1, ""
    while at < len(text):
        found = TOKEN.match(text, at)
        assert found and found.lastgroup
        kind = "text" if found.lastgroup == "hash" else found.lastgroup
        end: Optional[int] = None
        if kind == "word" and before != ".":
            end = proof_end(text, found[0], found.end())
            if end is None and found[0] in ("ghost", *CLAUSES):
                source.refuse(line, found[0])
            kind = "word" if end is None else "ghost" if found[0] == "ghost" else "clause"
        token = Token(kind, text[at : end or found.end()], line)
        yield token
        before = before if kind in ("space", "comment") else token.text
        line += token.text.count("\n")
        at += len(token.text)


def check_names(source: Source, found: List[Token]) -> None:
    """Refuse an attribute or a macro without a rule."""
    code = [token for token in found if token.kind not in ("space", "comment", "clause", "ghost")]
    for first, second, third in zip(code, code[1:], code[2:]):
        if first.text == "#":
            name = third if second.text == "[" else code[code.index(third) + 1]
            if name.text not in ATTRIBUTES:
                source.refuse(name.line, name.text)
        is_macro = first.kind == "word" and second.text == "!" and third.text in "([{"
        if is_macro and first.text not in MACROS:
            source.refuse(first.line, first.text + "!")


def comment_of(proof: str, indent: str) -> str:
    """Return a clause or ghost item as a comment that ends with a newline."""
    text = " ".join(proof.rstrip(";, \n").split())
    text = re.sub(r"^(\w+(?: \*?\w+)?) ?\{ (.*) \}$", r"\1: \2", text)
    width = max(100 - len(indent), 40)
    lines = textwrap.wrap(text, width, break_long_words=False, break_on_hyphens=False)
    return "".join("%s// %s%s\n" % (indent, "    " if k else "", line) for k, line in enumerate(lines))


def plain_comments(kept: List[Token], start: int) -> None:
    """Turn the doc comment before an item that goes into plain comments."""
    at = len(kept)
    while at > start and kept[at - 1].kind in ("space", "comment"):
        at -= 1
        if kept[at].text.startswith("///"):
            kept[at] = kept[at]._replace(text="//" + kept[at].text[3:])


def without_proofs(found: List[Token]) -> str:
    """Join the tokens, each clause as a comment before its function, each ghost item in its place."""
    kept: List[Token] = []
    start, is_open = 0, True
    for token in found:
        if token.kind == "ghost":
            if not re.match(r"ghost\s+use\b", token.text):
                plain_comments(kept, start)
                kept.append(Token("space", comment_of(token.text, "").lstrip(), token.line))
            start, is_open = len(kept), True
        elif token.kind == "clause":
            indent = re.search(r"[ \t]*$", kept[start - 1].text if start else "")
            text = comment_of(token.text, indent[0] if indent else "").lstrip()
            kept.insert(start, Token("space", text + (indent[0] if indent else ""), token.line))
            start += 1
        else:
            if is_open and token.kind not in ("space", "comment"):
                start, is_open = len(kept), False
            kept.append(token)
            is_open = is_open or token.kind == "mark" and token.text in "{};"
    return "".join(token.text for token in kept)


def export_calls(text: str) -> str:
    """Add a call for C to each exported one: a slice is a pointer and a length, no allocator is passed."""
    found = list(EXPORT.finditer(text))
    text = EXPORT.sub(r"pub fn \1(\2)\3{", text)
    if not found:
        return text
    about = "\n/// The calls for C; `include/bb.h` states the caller's obligations.\n"
    calls = "\n".join(map(_call_for_c, found))
    return text + about + "pub mod exports {\nuse super::*;\n\n%s}\n" % calls


def _call_for_c(found: Match[str]) -> str:
    name, parameters, result = found.groups()
    taken, passed = [], []
    for parameter, kind in PARAMETER.findall(parameters + ","):
        kind = kind.strip()
        if kind == "Global":
            passed.append("std::alloc::Global")
        elif kind in ("&[u8]", "&mut [u8]"):
            pointer, mutable = ("mut", "_mut") if "mut" in kind else ("const", "")
            taken += ["%s: *%s u8" % (parameter, pointer), "%s_len: usize" % parameter]
            passed.append("unsafe { std::ffi::bytes%s(%s, %s_len) }" % (mutable, parameter, parameter))
        else:
            taken.append("%s: %s" % (parameter, kind))
            passed.append(parameter)
    head = '#[unsafe(export_name = "%s")]\npub unsafe extern "C" fn ' % name
    head += "%s(%s)%s" % (name, ", ".join(taken), result)
    return "%s{\n    super::%s(%s)\n}\n" % (head, name, ", ".join(passed))


def end_test(found: Match[str]) -> str:
    """Let a test end by its result, and give it the runtime if it takes one."""
    head, name, runtime, result = found.groups()
    call = "run_%s(%s)" % (name, "HostRuntime" if runtime else "")
    call = "std::test::end(%s)" % call if result else call
    return "%s) {\n    %s;\n}\n\nfn run_%s(%s)%s" % (head, call, name, runtime or "", result or "")


def with_messages(text: str) -> str:
    """Write out what `thiserror` derives: `Display` by the texts, and `Error`."""
    error = r"\b(?:thiserror::)?Error\b"
    text = re.sub(r"(#\[derive\([^)\n]*?)(?:, *%s|%s, *)" % (error, error), r"\1", text)
    text = re.sub(r"use thiserror::Error;\n", "", text)
    found = re.compile(r"((?:#\[error[^\n]*\n)?)pub (struct|enum) (\w+) ?(?:;|\{.*?\n\})", re.S)
    impls = "".join(_message(item) for item in found.finditer(text) if "#[error(" in item[0])
    return ERROR.sub("", text) + impls


def _message(item: Match[str]) -> str:
    if item[2] == "enum":
        pairs = re.findall(r'#\[error\(("[^"]*")\)\]\s*(?:///[^\n]*\s*)*(\w+)', item[0])
        arms = ("            %s::%s => %s,\n" % (item[3], variant, message) for message, variant in pairs)
        body = "f.write_str(match self {\n%s        })" % "".join(arms)
    else:
        message = ERROR.search(item[1])
        assert message
        names = re.findall(r"\{(\w+)\}", message[1])
        body = "write!(f, %s%s)" % (message[1], "".join(", %s = self.%s" % (one, one) for one in names))
    return (
        "\nimpl std::fmt::Display for %s {\n    fn fmt(&self, f: &mut std::fmt::Formatter<'_>) -> "
        "std::fmt::Result {\n        %s\n    }\n}\n\nimpl std::error::Error for %s {}\n"
    ) % (item[3], body, item[3])


def plain(source: Source) -> str:
    """Return a source in plain Rust."""
    found = list(tokens(source, source.path.read_text(encoding="utf-8")))
    check_names(source, found)
    text = with_messages(without_proofs(found))
    for _, pattern, replacement in RULES:
        text = re.sub(pattern, replacement, text, flags=re.S)
    text = export_calls(TEST.sub(end_test, text))
    inner = INNER.match(text)
    end = inner.end() if inner else 0
    head = text[:end].rstrip("\n") + "\n"
    if source.name in ("lib.rt", "main.rt"):
        head += "#![no_std]\n" + ALLOWED + (NO_MAIN if source.name == "main.rt" else "") + "\n" + ROOT
    text = head + PRELUDE + "\n" + text[end:].lstrip("\n")
    return re.sub(r"\n{3,}", "\n\n", re.sub(r"[ \t]+\n", "\n", text)).lstrip("\n")


class Crate(NamedTuple):
    """A line of crates.txt: the crate, whether it is the library for C, and the crates that it uses."""

    name: str
    is_static: bool
    needs: List[str]


def read_crates() -> List[Crate]:
    lines = (TOP / "crates.txt").read_text(encoding="utf-8").splitlines()
    rows = [re.fullmatch(r"(\w+)( staticlib)?: ?(.*)", line) for line in lines if not line.startswith("#")]
    return [Crate(row[1], bool(row[2]), row[3].split()) for row in rows if row]


def absent_from_debian() -> List[str]:
    """List the crates of the registry that Debian's folder lacks."""
    return [name for name, start in VERSIONS.items() if not list(DEBIAN.glob("%s-%s*" % (name, start)))]


def dependency(name: str, known: List[str]) -> str:
    if name in SHIMMED:
        return '%s = { path = "../%s", package = "%s" }\n' % (name, SHIMMED[name], SHIMMED[name])
    place = '{ path = "../%s" }' % name if name in known else '"%s"' % VERSIONS[name]
    return "%s = %s\n" % (name, place)


def write_crate(crate: Crate, known: List[str], out: pathlib.Path) -> None:
    folder = TOP / "crates" / crate.name / "src"
    for path in sorted(folder.rglob("*.rt")):
        name = str(path.relative_to(folder))
        target = out / crate.name / "src" / (name[:-3] + ".rs")
        target.parent.mkdir(parents=True, exist_ok=True)
        target.write_text(plain(Source(path, name)), encoding="utf-8")
    is_program = (folder / "main.rt").exists()
    root = '[[bin]]\nname = "%s"\npath = "src/main.rs"\n' % crate.name if is_program else "[lib]\n"
    if crate.is_static:
        root += 'crate-type = ["staticlib", "cdylib"]\n'
        library = out / crate.name / "src" / "lib.rs"
        library.write_text(library.read_text(encoding="utf-8") + PLAIN, encoding="utf-8")
    needs = "".join(dependency(name, known) for name in crate.needs if name not in ERASED)
    (out / crate.name / "Cargo.toml").write_text(
        '[package]\nname = "%s"\nversion = "%s"\nedition = "2024"\nrust-version = "%s"\n\n%s\n[lints]\nworkspace = true\n\n'
        "[dependencies]\n"
        'rattle_std = { path = "../rattle_std" }\n%s' % (crate.name, header_version(), RUST, root, needs)
    )


def write_workspace(out: pathlib.Path) -> None:
    crates = read_crates()
    known = [crate.name for crate in crates]
    shims = sorted(path.name for path in SHIMS.iterdir())
    for name in (*shims, *known):
        shutil.rmtree(out / name, ignore_errors=True)
    for name in shims:
        shutil.copytree(SHIMS / name, out / name)
    for crate in crates:
        write_crate(crate, known, out)
    members = json.dumps([*shims, *known])
    lints = "".join('%s = "allow"\n' % lint for lint in LINTS)
    shape = '[workspace]\nresolver = "2"\nmembers = %s\n\n[workspace.lints.clippy]\n%s%s'
    (out / "Cargo.toml").write_text(shape % (members, lints, PROFILES))
    config = out / ".cargo" / "config.toml"
    config.parent.mkdir(exist_ok=True)
    config.write_text(FLAGS + ("" if absent_from_debian() else FROM_DEBIAN))


def main() -> int:
    words = argparse.ArgumentParser(description=(__doc__ or "").partition("\n\n")[0])
    words.add_argument("out", metavar="OUT", type=pathlib.Path, help="the workspace's folder")
    out = words.parse_args().out
    out.mkdir(parents=True, exist_ok=True)
    write_workspace(out)
    return 0


if __name__ == "__main__":
    sys.exit(main())
