#!/usr/bin/python3
"""Build the Python package with the library in it, as a wheel, and print the wheel's path.

The version names the commit; where files differ from it, `.changed` and a digest stand behind it. With a library
that cargo built it begins its local part with `plain`. The same commit and library give the same bytes. Needs Debian's packages python3-pip, python3-setuptools, python3-wheel and
binutils, and no network.
"""

import argparse
import os
import pathlib
import platform
import shutil
import subprocess
import sys
import tempfile

TOP = pathlib.Path(__file__).resolve().parent.parent
sys.path.insert(0, str(TOP))

from tools.build_info import NEWEST_GLIBC, commit_version, glibc_of, is_plain, output_of  # noqa: E402

FILES = ("README.md", "pyproject.toml", "setup.py", "src")
# The files that the version's digest covers, where they differ from the commit.
CHANGEABLE = ("python", "crates", "include", "Makefile")
PIP = ("-m", "pip", "wheel", "--no-build-isolation", "--no-deps", "--no-index", "--disable-pip-version-check")
VERSION = '''"""The version, its commit, and how many bytes the library has."""

VERSION = "%s"
COMMIT = "%s"
LIBRARY_BYTES = %d
'''


def version_of(library: pathlib.Path) -> tuple[str, str]:
    """The version and the commit."""
    endings = (".py", ".md", ".html", ".txt", ".toml")
    sources = sorted(path for path in (TOP / "python").rglob("*") if path.suffix in endings)
    files = [library, *(path for path in sources if "tests" not in path.parts)]
    found = commit_version(CHANGEABLE, files)
    return "%s+%s%s" % (found.number, "plain." if is_plain(library) else "", found.suffix), found.commit


def platform_of(library: pathlib.Path) -> str:
    """The wheel's platform. A library of the kit never needs a newer glibc than the least; one by cargo may."""
    newest = glibc_of(library)
    if newest > NEWEST_GLIBC and not is_plain(library):
        asks = ".".join(map(str, newest))
        sys.exit("build_wheel: the library asks for glibc %s, which the wheel's tag doesn't say" % asks)
    major, minor = max(newest, NEWEST_GLIBC)[:2]
    return "manylinux_%d_%d_%s" % (major, minor, platform.machine())


def copy_sources(library: pathlib.Path, folder: pathlib.Path) -> None:
    """Copy into a folder all files that the wheel is made of."""
    skipped = shutil.ignore_patterns("__pycache__", "*.egg-info", "libbb.so")
    shutil.copytree(TOP / "python" / "src", folder / "src", ignore=skipped)
    for name in FILES[:-1]:
        shutil.copy(TOP / "python" / name, folder / name)
    if is_plain(library):
        project = folder / "pyproject.toml"
        text = project.read_text(encoding="utf-8").replace(
            "a proved library", "a library built without proofs"
        )
        project.write_text(text, encoding="utf-8")
    package = folder / "src" / "budlarem"
    shutil.copyfile(library, package / "libbb.so")
    os.chmod(package / "libbb.so", 0o755)
    text = VERSION % (*version_of(library), library.stat().st_size)
    (package / "_version.py").write_text(text, encoding="utf-8")


def build(library: pathlib.Path, out: pathlib.Path) -> pathlib.Path:
    """Build the wheel from a copy of the sources; return its path."""
    date = output_of("git", "log", "-1", "--format=%ct")
    environment = dict(os.environ, SOURCE_DATE_EPOCH=date, WHEEL_PLATFORM=platform_of(library))
    with tempfile.TemporaryDirectory() as name:
        folder, made = pathlib.Path(name) / "package", pathlib.Path(name) / "made"
        copy_sources(library, folder)
        os.umask(0o022)
        command = ["/usr/bin/python3", *PIP, "--quiet", "-w", str(made), str(folder)]
        if subprocess.run(command, env=environment, stdout=sys.stderr).returncode != 0:
            sys.exit("build_wheel: pip failed; it needs python3-pip, python3-setuptools and python3-wheel")
        (wheel,) = made.glob("*.whl")
        out.mkdir(parents=True, exist_ok=True)
        shutil.copyfile(wheel, out / (wheel.name + ".part"))
    os.replace(out / (wheel.name + ".part"), out / wheel.name)
    return out / wheel.name


def main() -> None:
    shape = argparse.RawDescriptionHelpFormatter
    parser = argparse.ArgumentParser(description=__doc__, formatter_class=shape)
    parser.add_argument("--library", type=pathlib.Path, required=True, metavar="FILE", help="the libbb.so")
    parser.add_argument("--out", type=pathlib.Path, default=TOP / "python" / "dist", metavar="FOLDER")
    asked = parser.parse_args()
    if not asked.library.is_file():
        parser.error("%s is no file" % asked.library)
    print(build(asked.library.resolve(), asked.out))


if __name__ == "__main__":
    main()
