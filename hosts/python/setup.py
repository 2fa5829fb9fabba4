"""A wheel has the library of one kind of machine in it, and serves each Python 3 there."""

from setuptools import setup
from wheel.bdist_wheel import bdist_wheel


class OfEachPython(bdist_wheel):
    def get_tag(self):
        return "py3", "none", super().get_tag()[2]


setup(has_ext_modules=lambda: True, cmdclass={"bdist_wheel": OfEachPython})
