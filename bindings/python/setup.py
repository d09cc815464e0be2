"""The wheel holds the library, so it is for one platform, but for each Python 3."""
from setuptools import Distribution, setup
from wheel.bdist_wheel import bdist_wheel


class WithLibrary(Distribution):
    def has_ext_modules(self):
        return True


class Wheel(bdist_wheel):
    def get_tag(self):
        return "py3", "none", "@PLATFORM@"


setup(distclass=WithLibrary, cmdclass={"bdist_wheel": Wheel})
