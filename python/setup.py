"""A wheel that brings the shared library or the program is of one system, and of any Python 3; without them it is pure."""
import pathlib

from setuptools import setup
from wheel.bdist_wheel import bdist_wheel

PACKAGE = pathlib.Path(__file__).resolve().parent / "src/hardieflax"
BROUGHT = [name for name in ("libhardieflax.so", "libhardieflax.dylib", "sql_tool") if (PACKAGE / name).exists()]


class Wheel(bdist_wheel):  # type: ignore[misc]
    """Tags the wheel by what it brings."""

    def finalize_options(self) -> None:
        super().finalize_options()
        self.root_is_pure = not BROUGHT

    def get_tag(self) -> "tuple[str, str, str]":
        python, abi, platform = super().get_tag()
        return ("py3", "none", platform) if BROUGHT else (python, abi, platform)


setup(cmdclass={"bdist_wheel": Wheel})
