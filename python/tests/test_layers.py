"""The layers of the package, which docs/developers/ARCHITECTURE.md has in a table, and the imports of its modules."""
import ast
import importlib
import pathlib
import pydoc
import re
import subprocess
import sys
import unittest
from collections.abc import Iterator

import warcdx

PACKAGE = pathlib.Path(__file__).resolve().parents[1] / "warcdx"
PAGE = PACKAGE.parents[1] / "docs/developers/ARCHITECTURE.md"
MODULES = {path.stem for path in PACKAGE.glob("*.py")}
_ROW = re.compile(r"\| ([a-z ]+) \| [^|]+ \| ((?:`[a-z0-9_]+`(?:, )?)+) \|")


def layers_of(page: str) -> dict[str, list[str]]:
    """Returns the modules of each layer of the table, the lowest first."""
    section = page.partition("## The Python package\n")[2].partition("\n## ")[0]
    return {found[1]: re.findall("`([^`]+)`", found[2]) for found in map(_ROW.fullmatch, section.splitlines()) if found}


def imports_of(text: str) -> Iterator[str]:
    """Yields the modules of the package that a module's source imports, also within its functions."""
    for node in ast.walk(ast.parse(text)):
        if isinstance(node, ast.Import):
            yield from (alias.name.partition(".")[2] or "__init__" for alias in node.names if alias.name.partition(".")[0] == "warcdx")
        elif isinstance(node, ast.ImportFrom):
            module = node.module or ""
            if not node.level and module.partition(".")[0] == "warcdx":
                module = module.partition(".")[2]
            elif not node.level:
                continue
            for alias in node.names:
                yield module or (alias.name if alias.name in MODULES else "__init__")


def misplaced(imports: dict[str, set[str]], layers: dict[str, list[str]]) -> list[str]:
    """Returns what is wrong with the imports of modules, by the layers in which these are."""
    level = {module: number for number, modules in enumerate(layers.values()) for module in modules}
    names = list(layers)
    found = [f"{module} isn't in the table" for module in imports if module not in level]
    found += [f"{module} of the table isn't there" for module in level if module not in imports]
    for module, imported in imports.items():
        for other in imported:
            if module in level and level.get(other, 0) > level[module]:
                found.append(f"{module} of {names[level[module]]} imports {other} of {names[level[other]]}")
            if other.endswith("_command"):
                found.append(f"{module} imports the command {other}")
    return sorted(found) + [f"a cycle: {' -> '.join(cycle)}" for cycle in cycles_in(imports)]


def cycles_in(imports: dict[str, set[str]]) -> Iterator[list[str]]:
    """Yields a cycle for each import that closes one."""
    done: set[str] = set()

    def visit(module: str, way: list[str]) -> Iterator[list[str]]:
        if module in way:
            yield [*way[way.index(module) :], module]
        elif module not in done:
            for other in sorted(imports.get(module, ())):
                yield from visit(other, [*way, module])
            done.add(module)

    for module in sorted(imports):
        yield from visit(module, [])


class Layers(unittest.TestCase):
    def test_each_module_imports_its_own_layer_and_those_below(self) -> None:
        imports = {path.stem: set(imports_of(path.read_text())) for path in PACKAGE.glob("*.py")}
        self.assertEqual([], misplaced(imports, layers_of(PAGE.read_text())))

    def test_what_is_wrong_is_found(self) -> None:
        layers = {"errors": ["a", "b"], "records": ["c"], "commands": ["x_command", "y_command"]}
        good: dict[str, set[str]] = {"a": set(), "b": {"a"}, "c": {"a", "b"}, "x_command": {"c"}, "y_command": set()}
        self.assertEqual([], misplaced(good, layers))
        for changes, wanted in (
            ({"d": set()}, ["d isn't in the table"]),
            ({"a": {"c"}}, ["a of errors imports c of records", "a cycle: a -> c -> a", "a cycle: a -> c -> b -> a"]),
            ({"a": {"b"}}, ["a cycle: a -> b -> a"]),
            (
                {"c": {"x_command"}},
                ["c imports the command x_command", "c of records imports x_command of commands", "a cycle: c -> x_command -> c"],
            ),
            ({"y_command": {"x_command"}}, ["y_command imports the command x_command"]),
        ):
            self.assertEqual(sorted(wanted), sorted(misplaced({**good, **changes}, layers)), changes)
        self.assertEqual(["c of the table isn't there"], misplaced({name: good[name] - {"c"} for name in good if name != "c"}, layers))

    def test_imports_of_all_forms_are_found(self) -> None:
        text = "import os, warcdx.index\nfrom . import __version__, faults\nfrom .record import Head\nfrom warcdx import Index\n"
        text += (
            "def f():\n    from .archive import Archive\n    from warcdx.query import Query\n    from os import path\n    import warcdx\n"
        )
        wanted = {"index", "__init__", "faults", "record", "archive", "query"}
        self.assertEqual(wanted, set(imports_of(text)))


class Start(unittest.TestCase):
    """What is loaded when the package is imported, and what it gives all the same."""

    def printed(self, text: str) -> list[str]:
        done = subprocess.run((sys.executable, "-S", "-c", text), cwd=PACKAGE.parent, stdout=subprocess.PIPE, check=True, text=True)
        return done.stdout.splitlines()

    def test_a_module_is_loaded_when_something_of_it_is_used(self) -> None:
        loaded = "import sys, warcdx\nprint(*sorted(name for name in sys.modules if name.startswith('warcdx')))\n"
        self.assertEqual(["warcdx"], self.printed(loaded))
        self.assertEqual(["warcdx warcdx.errors"], self.printed("from warcdx import Error\n" + loaded))

    def test_the_command_of_every_night_loads_nothing_that_reads_records(self) -> None:
        text = "import sys, warcdx.update_command\nprint(*sys.modules.keys() & {'warcdx.record', 'warcdx.index', 'dataclasses', 'inspect', 'pathlib'})\n"
        self.assertEqual([""], self.printed(text))

    def test_type_checkers_and_readers_find_what_the_package_gives(self) -> None:
        nodes = ast.walk(ast.parse((PACKAGE / "__init__.py").read_text()))
        read = [(node.module, alias.name) for node in nodes if isinstance(node, ast.ImportFrom) and node.level for alias in node.names]
        self.assertEqual(sorted(warcdx.__all__), sorted(name for _, name in read))
        self.assertLessEqual(set(warcdx.__all__), set(dir(warcdx)))
        self.assertIn("class Index(", pydoc.plain(pydoc.render_doc(warcdx)))
        for module, name in read:
            found = importlib.import_module(f"warcdx.{module or name}")
            self.assertIs(getattr(found, name) if module else found, getattr(warcdx, name))

    def test_a_name_that_is_not_there_is_an_error_of_an_attribute(self) -> None:
        text = "import warcdx\ntry:\n    warcdx.Indx\nexcept AttributeError as error:\n    print(error)\n"
        self.assertEqual(["module 'warcdx' has no attribute 'Indx'"], self.printed(text))


if __name__ == "__main__":
    unittest.main()
