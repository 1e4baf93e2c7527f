"""What the pages say runs as it stands there, and each public thing is described and typed."""

import ast
import base64
import contextlib
import hashlib
import io
import re
import subprocess
import sys
import tempfile
import unittest
import zipfile
from pathlib import Path
from typing import Iterator, List, Tuple, Union

from served import HERE, TOP, ServedCase

import annotate_client

PACKAGE = HERE.parent / "annotate_client"
Described = Union[ast.ClassDef, ast.FunctionDef]


def python_of(page: Path) -> str:
    """The first piece of a page that is set off as code and begins with an import of the client."""
    piece = r"^    from annotate_client import .*\n(?:(?:    .*)?\n)*"
    found = re.search(piece, page.read_text(encoding="utf-8"), re.MULTILINE)
    assert found is not None, page
    return re.sub(r"^    ", "", found.group(), flags=re.MULTILINE)


class Pages(ServedCase):
    def run_page(self, page: str, **replaced: str) -> List[str]:
        code = python_of(TOP / page)
        code, count = re.subn(r'Project\(".*"\)', f'Project("http://127.0.0.1:{self.served.port}", "ann")', code)
        self.assertEqual(count, 1, page)
        printed = io.StringIO()
        with contextlib.redirect_stdout(printed):
            exec(compile(code, page, "exec"), {})
        return printed.getvalue().splitlines()

    def test_readme(self) -> None:
        # On the first page ann marks Ann.
        self.commit(self.ann, "T1\tPerson 0 3\tAnn\n")
        printed = self.run_page("clients/python/README.md")
        self.assertEqual(printed, ["revision 2", "T1 Person 0 3 Ann", "T2 Person 8 11 Bob"])
        self.assertEqual(self.ann.layer("rome", "ann").notes[0].text, "which Bob?")

    def test_getting_started(self) -> None:
        self.cur.add_text("lima", "Juan lives in Lima\n")
        self.assertEqual(self.run_page("docs/getting-started.md"), ["T1 Person 0 4 Juan", "T2 Location 14 18 Lima"])

    def test_operating(self) -> None:
        self.assertEqual(self.run_page("docs/operating.md"), ["1"])
        self.assertEqual(self.ann.layer("rome", "ann").lines, ["T1\tPerson 8 11\tBob"])


class Wheel(unittest.TestCase):
    """The wheel that pip installs, made without any other package."""

    def test_it_holds_the_package(self) -> None:
        with tempfile.TemporaryDirectory() as folder:
            code = "import build_wheel, sys; print(build_wheel.build_wheel(sys.argv[1]))"
            words = [sys.executable, "-B", "-c", code, folder]
            made = subprocess.run(words, cwd=HERE.parent, check=True, stdout=subprocess.PIPE, text=True).stdout.strip()
            self.assertEqual(made, "annotate_client-1.0.0-py3-none-any.whl")
            with zipfile.ZipFile(f"{folder}/{made}") as wheel:
                names = set(wheel.namelist())
                self.assertEqual(
                    {name for name in names if name.startswith("annotate_client/")},
                    {f"annotate_client/{it.name}" for it in PACKAGE.iterdir() if it.suffix in (".py", ".typed")},
                )
                about = "annotate_client-1.0.0.dist-info"
                rows = [row.split(",") for row in wheel.read(f"{about}/RECORD").decode().splitlines()]
                self.assertEqual({row[0] for row in rows}, names)
                for name, digest, length in rows:
                    if name != f"{about}/RECORD":
                        content = wheel.read(name)
                        summed = base64.urlsafe_b64encode(hashlib.sha256(content).digest()).decode().rstrip("=")
                        self.assertEqual((digest, int(length)), (f"sha256={summed}", len(content)))


class Descriptions(unittest.TestCase):
    @staticmethod
    def public() -> Iterator[Tuple[str, Described]]:
        """Each public class, method and function of the package."""
        for file in sorted(PACKAGE.glob("*.py")):
            for node in ast.parse(file.read_text(encoding="utf-8")).body:
                if isinstance(node, (ast.ClassDef, ast.FunctionDef)) and not node.name.startswith("_"):
                    yield f"{file.name}: {node.name}", node
                    for inner in node.body:
                        if isinstance(inner, ast.FunctionDef) and not inner.name.startswith("_"):
                            yield f"{file.name}: {node.name}.{inner.name}", inner

    def test_each_public_thing_has_an_example(self) -> None:
        # The two classes and the function by which the package itself connects are no part of what it offers.
        inner = ("connection.py: Answer", "connection.py: Connection", "connection.py: Address.", "connection.py: slug")
        for name, node in self.public():
            said = ast.get_docstring(node) or ""
            self.assertTrue(said, name)
            if not name.startswith(inner):
                self.assertIn("Example:\n", said, name)

    def test_each_example_is_python(self) -> None:
        for name, node in self.public():
            said = ast.get_docstring(node) or ""
            if "Example:\n" in said:
                code = re.sub(r"^    ", "", said.split("Example:\n", 1)[1], flags=re.MULTILINE)
                ast.parse(code, name)

    def test_each_function_is_typed(self) -> None:
        for file in sorted(PACKAGE.glob("*.py")):
            for node in ast.walk(ast.parse(file.read_text(encoding="utf-8"))):
                if isinstance(node, ast.FunctionDef):
                    self.assertIsNotNone(node.returns, (file.name, node.name))
                    said = node.args
                    for argument in [*said.posonlyargs, *said.args, *said.kwonlyargs]:
                        typed = argument.annotation is not None or argument.arg in ("self", "cls")
                        self.assertTrue(typed, (file.name, node.name, argument.arg))

    def test_what_is_offered_is_there(self) -> None:
        for name in annotate_client.__all__:
            self.assertTrue(hasattr(annotate_client, name), name)


if __name__ == "__main__":
    unittest.main()
