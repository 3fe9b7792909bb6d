"""What the tests share: the tools run as a user runs them."""
import os
import shutil
import subprocess
import tempfile
import unittest

TOOLS = os.path.dirname(os.path.dirname(os.path.abspath(__file__)))
EXAMPLES = os.path.join(os.path.dirname(TOOLS), "examples")
DESIGNS = os.path.join(TOOLS, "tests", "designs")


def program():
    """The path of vfault as the tools find it, or None."""
    built = os.path.join(TOOLS, "..", "crates", "vfault", "out", "vfault")
    given = os.environ.get("VFAULT")
    if given:
        return shutil.which(given)
    return os.path.abspath(built) if os.access(built, os.X_OK) else shutil.which("vfault")


def needs(*packages):
    """Skips a test where one of these commands isn't there; `vfault` is the program."""
    absent = [it for it in packages if not (program() if it == "vfault" else shutil.which(it))]
    return unittest.skipIf(absent, f"{', '.join(absent)} not there")


def read(*parts):
    with open(os.path.join(*parts), encoding="utf-8", newline="") as file:
        return file.read()


class Tools(unittest.TestCase):
    """A test with a folder of its own."""

    def setUp(self):
        self.folder = tempfile.mkdtemp(prefix="vfault-tools-")
        self.addCleanup(shutil.rmtree, self.folder)

    def file(self, name, text):
        path = os.path.join(self.folder, name)
        with open(path, "w", encoding="utf-8", newline="") as file:
            file.write(text)
        return path

    def run_tool(self, name, *words, given="", environment=None):
        """Runs a tool in the test's folder: its status, its output and what it said."""
        ran = subprocess.run(
            [os.path.join(TOOLS, name), *words], input=given, stdout=subprocess.PIPE, stderr=subprocess.PIPE, encoding="utf-8", cwd=self.folder,
            env={**os.environ, **(environment or {})}, check=False)
        return ran.returncode, ran.stdout, ran.stderr

    def good(self, name, *words, **more):
        """The output of a tool that ends well."""
        status, out, said = self.run_tool(name, *words, **more)
        self.assertEqual(status, 0, said)
        return out

    def bad(self, wanted, words_said, name, *words, **more):
        """A tool ends with this status, and says these words."""
        status, _, said = self.run_tool(name, *words, **more)
        self.assertEqual(status, wanted, said)
        self.assertIn(words_said, said)
