from setuptools import Command

class bdist_wheel(Command):
    def get_tag(self) -> tuple[str, str, str]: ...
