"""The wheel has a library of one platform in it, and fits every Python 3: so it is tagged here.

`build_wheel.py` makes a copy of these files with the library, and names the platform. In a clone, as for
`pip install ./python`, this file builds the library first, and goes on in such a copy.
"""

import atexit
import os
import pathlib
import shutil
import subprocess
import sys
import tempfile

from setuptools import Distribution, setup
from wheel.bdist_wheel import bdist_wheel

HERE = pathlib.Path(__file__).resolve().parent


class LibraryDistribution(Distribution):
    """A distribution whose files belong to a platform."""

    def has_ext_modules(self) -> bool:
        return True


class LibraryWheel(bdist_wheel):  # type: ignore[misc]
    """A wheel for every Python 3 of the platform."""

    def get_tag(self) -> tuple[str, str, str]:
        return "py3", "none", os.environ.get("WHEEL_PLATFORM", "manylinux_2_17_x86_64")


def enter_copy() -> None:
    """Build the library, proved if the kit is installed, and change to a copy of these files that has it."""
    if not (HERE / "build_wheel.py").exists():
        sys.exit("setup: libbb.so isn't in src/budlarem; install from a clone or a wheel")
    is_proved = shutil.which("rt") is not None
    target, path = (
        ("library", "crates/bb_c/out") if is_proved else ("plain-library", "out/plain/target/release")
    )
    if subprocess.run(["make", "-s", "-C", str(HERE.parent), target], stdout=sys.stderr).returncode != 0:
        sys.exit("setup: `make %s` failed" % target)
    sys.path.insert(0, str(HERE))
    import build_wheel

    folder = pathlib.Path(tempfile.mkdtemp())
    atexit.register(shutil.rmtree, folder, ignore_errors=True)
    library = HERE.parent / path / "libbb.so"
    build_wheel.copy_sources(library, folder)
    os.environ["WHEEL_PLATFORM"] = build_wheel.platform_of(library)
    os.chdir(folder)


# An editable install takes the library where it is built.
if not (HERE / "src" / "budlarem" / "libbb.so").exists() and "editable_wheel" not in sys.argv:
    enter_copy()
setup(distclass=LibraryDistribution, cmdclass={"bdist_wheel": LibraryWheel})
