"""Packs the Python files with the shared object that `bindings/python/build` makes of the proved archive."""

import os
import sys

from setuptools import setup

if not os.path.exists(os.path.join(os.path.dirname(os.path.abspath(__file__)), "yadvorkhul", "libyadvorkhul.so")):
    sys.exit("yadvorkhul/libyadvorkhul.so is not there: run bindings/python/build once, which needs rt and gcc")

try:
    from wheel.bdist_wheel import bdist_wheel
except ImportError:
    setup()
else:

    class Packed(bdist_wheel):
        """One wheel for every Python 3 on this kind of machine: the shared object is called through ctypes."""

        def finalize_options(self):
            super().finalize_options()
            self.root_is_pure = False

        def get_tag(self):
            return "py3", "none", super().get_tag()[2]

    setup(cmdclass={"bdist_wheel": Packed})
