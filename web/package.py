#!/usr/bin/env python3
"""Build the npm package of the engine, with its types, and print its path.

    python3 web/package.py [--out FOLDER]

It needs `web/out/bb.wasm`, npm and tsc (Debian's `npm` and `node-typescript`), and no network. The types come
from the modules' comments. The version names the commit; `.changed` and a digest follow if files differ from
it. The build is reproducible.
"""

import argparse
import json
import pathlib
import shutil
import sys
import tempfile

WEB = pathlib.Path(__file__).resolve().parent
sys.path.insert(0, str(WEB.parent))

from tools.build_info import commit_version, output_of  # noqa: E402

MODULE = WEB / "out" / "bb.wasm"
TYPES = "--allowJs --declaration --emitDeclarationOnly --strict --lib es2022,dom --target es2022".split()
TYPES += "--module es2022 --moduleResolution node".split()


def fill(folder: pathlib.Path) -> None:
    """Write the package's files into a folder."""
    shutil.copytree(WEB / "lib", folder / "lib", ignore=shutil.ignore_patterns("*.md"))
    output_of("tsc", *TYPES, "--outDir", folder / "lib", *(WEB / "lib").glob("*.mjs"))
    shutil.copy(WEB / "lib" / "README.md", folder)
    (folder / "out").mkdir()
    shutil.copy(MODULE, folder / "out")
    facts = json.loads((WEB / "package.json").read_text(encoding="utf-8"))
    del facts["scripts"]
    files = sorted(path for path in folder.rglob("*") if path.is_file())
    version = "%s-%s" % commit_version(("web", "crates"), files)[:2]
    facts = {"name": facts.pop("name"), "version": version, **facts}
    (folder / "package.json").write_text(json.dumps(facts, indent=2) + "\n", encoding="utf-8")


def main() -> None:
    shape = argparse.RawDescriptionHelpFormatter
    parser = argparse.ArgumentParser(description=__doc__, formatter_class=shape)
    parser.add_argument("--out", type=pathlib.Path, default=WEB / "out", metavar="FOLDER")
    out = parser.parse_args().out.resolve()
    out.mkdir(parents=True, exist_ok=True)
    with tempfile.TemporaryDirectory() as name:
        fill(pathlib.Path(name))
        pack = ["npm", "pack", "--silent", "--offline", "--cache", name + "/cache"]
        print(out / output_of(*pack, "--pack-destination", out, name).splitlines()[-1])


if __name__ == "__main__":
    main()
