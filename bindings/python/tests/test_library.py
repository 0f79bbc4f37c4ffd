"""Where the package finds the library."""

import os
import subprocess
import sys
import unittest
from pathlib import Path
from typing import List
from unittest import mock

import kroft.library
from kroft.library import NAME, places

HERE = Path(__file__).resolve()
PACKAGE = Path(kroft.library.__file__).resolve().parent


class Places(unittest.TestCase):
    @staticmethod
    def with_variable(value: str) -> List[Path]:
        with mock.patch.dict(os.environ, {"KROFT_LIB": value}):
            return list(places())

    def test_the_variable_names_a_folder_or_the_file(self) -> None:
        self.assertEqual(self.with_variable("/some/folder"), [Path("/some/folder") / NAME])
        self.assertEqual(self.with_variable(str(HERE)), [HERE])

    def test_the_package_and_the_prefix_come_before_the_repository(self) -> None:
        found = self.with_variable("")
        self.assertEqual(found[:2], [PACKAGE / NAME, Path(sys.prefix) / "lib" / NAME])
        is_in_repository = PACKAGE.parent.parts[-2:] == ("bindings", "python")
        in_repositories = [PACKAGE.parents[2] / "dist" / "x86_64-linux" / NAME] if is_in_repository else []
        self.assertEqual([place for place in found if place.parent.name == "x86_64-linux"], in_repositories)

    def test_the_system_comes_last(self) -> None:
        found = self.with_variable("")
        self.assertEqual(found[-2:], [Path("/usr/local/lib") / NAME, Path("/usr/lib") / NAME])
        known = {Path(sys.prefix), Path(sys.base_prefix), Path("/usr/local"), Path("/usr")}
        others = [place for place in found[1:] if place.parent.name == "lib" and place.parents[1] not in known]
        self.assertEqual(others, [])

    def test_the_prefix_of_the_package_comes_before_others(self) -> None:
        for packages, at_first in [("site-packages", Path("/opt/some")), ("dist-packages", Path("/opt/some")), ("target", Path(sys.prefix))]:
            module = f"/opt/some/lib/python3.9/{packages}/kroft/library.py"
            with self.subTest(packages=packages), mock.patch.object(kroft.library, "__file__", module):
                self.assertEqual(self.with_variable("")[1], at_first / "lib" / NAME)

    @staticmethod
    def ended(script: str, folder: Path, variable: str) -> "subprocess.CompletedProcess[str]":
        environment = {**os.environ, "KROFT_LIB": variable, "PYTHONPATH": str(PACKAGE.parent)}
        command = [sys.executable, "-c", script]
        return subprocess.run(command, cwd=folder, env=environment, stderr=subprocess.PIPE, check=False, universal_newlines=True)

    def test_what_is_missing_is_said_at_the_first_use(self) -> None:
        ended = self.ended("import kroft\nkroft.FlatJudge()", HERE.parent, "/nowhere")
        self.assertEqual(ended.returncode, 1)
        self.assertIn("kroft.errors.LibraryMissing: libkroft.so is nowhere", ended.stderr)

    def test_the_variable_may_be_relative(self) -> None:
        folder = next(place for place in places() if place.is_file()).resolve().parent
        for variable in (".", NAME, f"./{NAME}", f"../{folder.name}"):
            with self.subTest(variable=variable):
                ended = self.ended("import kroft\nkroft.FlatJudge()", folder, variable)
                self.assertEqual((ended.returncode, ended.stderr), (0, ""))

    def test_another_version_is_none_of_this_package(self) -> None:
        folder = next(place for place in places() if place.is_file()).resolve().parent
        ended = self.ended("import kroft\nkroft.__version__ = '0.0.9'\nkroft.Machine()", folder, str(folder))
        self.assertEqual(ended.returncode, 1)
        self.assertRegex(ended.stderr, rf"kroft.errors.LibraryMissing: .*{NAME} has the version {kroft.__version__}, and this package 0.0.9")


if __name__ == "__main__":
    unittest.main()
