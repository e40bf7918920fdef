"""The types of the public names."""

import inspect
import os
import pathlib
import shutil
import subprocess
import typing
import unittest

from support import SLOW, TOP, Case
from wokureti import EditList, Frame, Script, Session

HERE = pathlib.Path(__file__).resolve().parent


def public_calls():
    """The functions that a program calls, by their names."""
    for kind in (Session, Script, Frame):
        for name, member in vars(kind).items():
            function = member.fget if isinstance(member, property) else member
            if inspect.isfunction(function) and (not name.startswith("_") or name in ("__init__", "__enter__")):
                if kind is not Frame or name in ("i420", "rgb"):
                    yield f"{kind.__name__}.{name}", function
    for name in ("text", "save", "run", "run_step", "step"):
        yield f"EditList.{name}", inspect.unwrap(getattr(EditList, name))


class Types(Case):
    LIMIT = 120

    def test_each_public_call_has_types(self):
        count = 0
        for name, function in public_calls():
            hints = typing.get_type_hints(function)
            wanted = {parameter for parameter in inspect.signature(function).parameters if parameter != "self"} | {
                "return"
            }
            self.assertEqual(set(hints), wanted, name)
            count += 1
        self.assertGreater(count, 40)
        self.assertTrue((TOP / "clients/python/wokureti/py.typed").is_file())

    @unittest.skipUnless(shutil.which("mypy"), "mypy is not there")
    def test_mypy_reads_a_program(self):
        env = {**os.environ, "MYPYPATH": str(TOP / "clients/python")}
        with self.within(100):
            words = [
                shutil.which("mypy"),
                "--strict",
                "--follow-imports=silent",
                "--cache-dir",
                str(self.folder()),
                str(HERE / "typed.py"),
            ]
            done = subprocess.run(words, env=env, capture_output=True, text=True, timeout=100 * SLOW, check=False)
        self.assertEqual((done.returncode, done.stderr), (0, ""), done.stdout)


if __name__ == "__main__":
    unittest.main()
