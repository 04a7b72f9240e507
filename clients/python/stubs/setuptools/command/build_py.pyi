from setuptools import Command

class build_py(Command):
    build_lib: str
