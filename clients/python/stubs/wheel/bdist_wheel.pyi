from setuptools.command.bdist_wheel import bdist_wheel as bdist_wheel
