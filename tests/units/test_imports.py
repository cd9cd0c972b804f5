"""The packages of mend-reel import each other in one direction, and the modules of a package in none that leads back."""
import ast
import collections
import pathlib
import unittest

TOOL = pathlib.Path(__file__).resolve().parents[2] / "tools/mend_reel"
# Each package imports from those before it alone. What lies beside the packages comes first.
ORDER = ["", "engine", "containers", "judging", "copies", "mending", "reports", "program"]


def imports(path):
    """The modules of the tool that a module imports, by their paths below it."""
    package = path.relative_to(TOOL).parent
    for node in ast.walk(ast.parse(path.read_text())):
        if isinstance(node, ast.ImportFrom) and node.level:
            folder = (TOOL / package / "/".join([".."] * (node.level - 1)) / (node.module or "").replace(".", "/")).resolve()
            for name in node.names:
                found = folder / f"{name.name}.py"
                yield (found if found.exists() else folder.with_suffix(".py")).relative_to(TOOL)


class ImportsTest(unittest.TestCase):
    def setUp(self):
        self.modules = {path.relative_to(TOOL): set(imports(path)) for path in TOOL.rglob("*.py")}

    def test_packages_import_in_one_direction(self):
        for module, found in self.modules.items():
            own = ORDER.index(str(module.parent) if str(module.parent) != "." else "") if module.name != "__main__.py" else len(ORDER)
            for other in found:
                with self.subTest(module=str(module), other=str(other)):
                    self.assertTrue((TOOL / other).exists())
                    self.assertLessEqual(ORDER.index(str(other.parent) if str(other.parent) != "." else ""), own)

    def test_no_modules_import_each_other_in_a_circle(self):
        left = collections.defaultdict(set, {module: {each for each in found if each in self.modules} for module, found in self.modules.items()})
        while left:
            free = {module for module, found in left.items() if not found & left.keys() - {module}}
            self.assertTrue(free, sorted(map(str, left)))
            for module in free:
                del left[module]


if __name__ == "__main__":
    unittest.main()
