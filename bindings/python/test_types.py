"""Every parameter of what the package offers has a type, and what it gives back too; the package says that it has types."""

import ast
import glob
import os
import unittest

PACKAGE = os.path.join(os.path.dirname(os.path.abspath(__file__)), "yadvorkhul")
NOT_OFFERED = {"__main__.py", "command.py", "console.py", "archive.py"}  # the command's own; `commands/` too
# A program of its own that is read by people and handed on as one file: it imports nothing of the package and is no part of what it offers.
ALONE = {"check_certificate.py"}


def offered(tree):
    """Public functions and methods of a module, `__init__` too."""
    for node in tree.body:
        if isinstance(node, ast.ClassDef) and not node.name.startswith("_"):
            for inner in node.body:
                if isinstance(inner, ast.FunctionDef) and (not inner.name.startswith("_") or inner.name == "__init__"):
                    yield f"{node.name}.{inner.name}", inner, 1
        elif isinstance(node, ast.FunctionDef) and not node.name.startswith("_"):
            yield node.name, node, 0


def untyped(path):
    with open(path, encoding="utf-8") as stream:
        tree = ast.parse(stream.read())
    for name, function, own in offered(tree):
        arguments = function.args
        for argument in (arguments.posonlyargs + arguments.args)[own:] + arguments.kwonlyargs:
            if argument.annotation is None:
                yield f"{os.path.basename(path)}: {name}: {argument.arg}"
        if function.returns is None and function.name != "__init__":
            yield f"{os.path.basename(path)}: {name}: what it gives back"


class Types(unittest.TestCase):
    def test_every_parameter(self):
        paths = [path for path in glob.glob(os.path.join(PACKAGE, "*.py")) if os.path.basename(path) not in NOT_OFFERED | ALONE]
        self.assertGreater(len(paths), 8)
        self.assertEqual([fault for path in sorted(paths) for fault in untyped(path)], [])

    def test_alone(self):
        """What is left out as a program of its own is one."""
        for name in ALONE:
            with open(os.path.join(PACKAGE, name), encoding="utf-8") as stream:
                text = stream.read()
            imported = [node for node in ast.walk(ast.parse(text)) if isinstance(node, (ast.Import, ast.ImportFrom))]
            names = {alias.name for node in imported for alias in node.names if isinstance(node, ast.Import)}
            self.assertTrue(text.startswith("#!") and names <= {"json", "sys"} and not any(isinstance(node, ast.ImportFrom) for node in imported), name)

    def test_marked(self):
        self.assertTrue(os.path.exists(os.path.join(PACKAGE, "py.typed")))


if __name__ == "__main__":
    unittest.main()
