"""The wheel holds a shared library for one kind of processor, and no code for one version of Python."""

import os
import platform

from setuptools import setup

try:
    from setuptools.command.bdist_wheel import bdist_wheel
except ImportError:
    from wheel.bdist_wheel import bdist_wheel


class LibraryWheel(bdist_wheel):
    """A wheel for every Python 3 on this kind of processor, with the C library of 2021 (2.34) or later."""

    def finalize_options(self):
        super().finalize_options()
        self.root_is_pure = False

    def get_tag(self):
        return "py3", "none", f"manylinux_2_34_{platform.machine()}"


setup(version=os.environ.get("BTX_VERSION", "0"), cmdclass={"bdist_wheel": LibraryWheel})
