#!/usr/bin/env python3
"""Bundle the page, its worker, the examples and the engine into one file.

    python3 web/bundle.py

It reads `web/out/bb.wasm` and writes `web/out/bb.html`. A page opened from a disk can't load other files, so
esbuild (Debian's `esbuild`) bundles scripts and style, and the engine is embedded in base64. A content
security policy names script and style by their hashes: the browser runs no other script, and connects to
nothing. The build is reproducible.
"""

import base64
import hashlib
import json
import pathlib
import re
import shlex
import subprocess
import sys
from typing import Any, Iterator

WEB = pathlib.Path(__file__).resolve().parent
EXAMPLES = WEB.parent / "examples"
MOST_EXAMPLE_CHARACTERS = 20_000


def bundle(path: str, *options: str) -> str:
    """Return a minified script or style with its imports."""
    command = ["esbuild", str(WEB / path), "--bundle", "--minify", "--charset=utf8", "--target=es2022"]
    text = subprocess.run([*command, *options], check=True, stdout=subprocess.PIPE, text=True).stdout.strip()
    if "</script" in text or "</style" in text or "<!--" in text:
        sys.exit("bundle: %s can't be embedded in a page" % path)
    return text


def plan_of(words: list[str]) -> dict[str, Any]:
    """Return limits and switches by name from a command's options."""
    text = " ".join(words)
    off = dict.fromkeys(re.findall(r"--no-(\w+)", text), False)
    return {**off, **dict(re.findall(r"--(\w+) (\S+)", text))}


def examples() -> Iterator[dict[str, Any]]:
    """Yield the examples with lists of their own."""
    for path in sorted(EXAMPLES.glob("*/lines.txt")):
        call, *words = shlex.split((path.parent / "command").read_text(encoding="utf-8"))
        lines = path.read_text(encoding="utf-8")
        if len(lines) <= MOST_EXAMPLE_CHARACTERS:
            name = path.parent.name.replace("_", " ")
            yield {"name": name, "call": call, "plan": plan_of(words), "lines": lines}


def source_of(text: str) -> str:
    """Return the policy's source expression for a script or style: its hash."""
    return "'sha256-%s'" % base64.b64encode(hashlib.sha256(text.encode()).digest()).decode()


def policy(script: str, style: str) -> str:
    """Return the content security policy: its own script, workers and engine, and no connections."""
    allowed = "script-src %s 'wasm-unsafe-eval'; worker-src blob:; style-src %s; img-src data: blob:"
    sources = allowed % (source_of(script), source_of(style))
    return "default-src 'none'; %s; base-uri 'none'; form-action 'none'" % sources


def page_of(module: bytes) -> str:
    """Return the page with the engine's module embedded."""
    style = bundle("page/page.css")
    script = bundle("page/page.mjs", "--format=esm")
    worker = bundle("worker/worker.mjs", "--format=iife")
    data = json.dumps(list(examples())).replace("<", "\\u003c")
    scripts = [
        '<script type="application/json" id="examples-data">%s</script>' % data,
        '<script type="text/plain" id="module">%s</script>' % base64.b64encode(module).decode(),
        '<script type="text/plain" id="worker">%s</script>' % worker,
        '<script type="module">%s</script>' % script,
    ]
    allowed = '<meta http-equiv="content-security-policy" content="%s">' % policy(script, style)
    text = (WEB / "page" / "page.html").read_text(encoding="utf-8")
    page = "\n".join(line.strip() for line in text.splitlines()) + "\n"
    page = page.replace("<!--policy-->", allowed).replace("<!--style-->", "<style>%s</style>" % style)
    return page.replace("<!--scripts-->", "\n".join(scripts))


def main() -> None:
    page = WEB / "out" / "bb.html"
    made = page.with_name(page.name + ".new")
    made.write_text(page_of((WEB / "out" / "bb.wasm").read_bytes()), encoding="utf-8")
    made.replace(page)


if __name__ == "__main__":
    main()
