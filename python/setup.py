"""Names the wheel for its machine if the shared library is in it: for each Python 3, since ctypes loads the library."""
import os

from setuptools import Distribution, setup
from wheel.bdist_wheel import bdist_wheel

HAS_LIBRARY = os.path.exists(os.path.join(os.path.dirname(os.path.abspath(__file__)), "olr_keep", "libolr_keep.so.1"))


class Package(Distribution):
    """A package that is for one machine if it has the library."""

    def has_ext_modules(self):
        return HAS_LIBRARY


class Wheel(bdist_wheel):
    """A wheel for each version of Python."""

    def get_tag(self):
        return "py3", "none", super().get_tag()[2]


setup(distclass=Package, cmdclass={"bdist_wheel": Wheel})
