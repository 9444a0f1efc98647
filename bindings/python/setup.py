"""Builds the package with its shared library. If that is missing, or does not answer as romtool.h says, building ends with an error."""

import importlib.util
import os
import shutil
import sys

from setuptools import Distribution, setup
from setuptools.command.build_py import build_py

try:
    from setuptools.command.bdist_wheel import bdist_wheel
except ImportError:  # before setuptools 70.1
    from wheel.bdist_wheel import bdist_wheel

HERE = os.path.dirname(os.path.abspath(__file__))


def library():
    """Returns the name of the library, after its answers were tried."""
    spec = importlib.util.spec_from_file_location("romtool_library", os.path.join(HERE, "romtool", "_library.py"))
    module = importlib.util.module_from_spec(spec)
    spec.loader.exec_module(module)
    try:
        found = module._find()
        module.load(found)
    except module.LibraryError as error:
        sys.exit("romtool: %s (README.md says how it is made)" % error)
    return found


class Build(build_py):
    """Builds the modules, and puts the library beside them. One that the system has stays there."""

    def run(self):
        found = library()
        super().run()
        beside = os.path.join(self.build_lib, "romtool", "libromtool.so")
        if os.path.dirname(found) and not getattr(self, "editable_mode", False):
            self.mkpath(os.path.dirname(beside))
            shutil.copyfile(found, beside)


class Wheel(bdist_wheel):
    """Names the wheel for each Python 3 on machines like this one."""

    def get_tag(self):
        return ("py3", "none", super().get_tag()[2])


class WithLibrary(Distribution):
    """Is a package with a library for one kind of machines."""

    def has_ext_modules(self):
        return True


setup(distclass=WithLibrary, cmdclass={"build_py": Build, "bdist_wheel": Wheel})
