"""Runs each command of tools/README.md and of the examples' pages on tools as it stands, in a copy of what it names."""
import os
import re
import shutil
import subprocess

from shared import EXAMPLES, TOOLS, Tools, needs, program, read

# Commands that need a second machine or Slurm; examples/farm says so.
ELSEWHERE = ("--sshlogin", "sbatch ")


def commands(text):
    """The indented lines of a page that are commands."""
    return [it[4:] for it in text.split("\n") if re.match(r"    (?:tools/|vfault |cat |printf )", it)]


class Readme(Tools):
    def run_page(self, *page):
        os.symlink(TOOLS, os.path.join(self.folder, "tools"))
        shutil.copytree(EXAMPLES, os.path.join(self.folder, "examples"))
        os.mkdir(os.path.join(self.folder, "bin"))
        os.symlink(program(), os.path.join(self.folder, "bin", "vfault"))
        place = {**os.environ, "HOME": self.folder, "PATH": f"{self.folder}/bin:{os.environ['PATH']}"}
        outputs = {}
        for command in commands(read(*page)):
            if not any(it in command for it in ELSEWHERE):
                ran = subprocess.run(["sh", "-c", command], cwd=self.folder, env=place, stdout=subprocess.PIPE, stderr=subprocess.PIPE, encoding="utf-8", check=False)
                self.assertEqual(ran.returncode, 0, f"{command}\n{ran.stderr}")
                outputs[command] = ran.stdout
        return outputs

    def made(self, name):
        return read(self.folder, name)

    @needs("vfault", "yosys", "parallel")
    def test_tools(self):
        outputs = self.run_page(TOOLS, "README.md")
        self.assertEqual(len(outputs), 12)
        self.assertEqual(self.made("report"), read(EXAMPLES, "counter", "report.txt"))
        self.assertIn('{"site": "q2", "value": 1, "verdict": "detected", "time": 3}\n', next(it for it in outputs.values() if it.startswith("{")))
        self.assertEqual(self.made("flat.v"), read(EXAMPLES, "counter", "design.v"))
        self.assertEqual(self.made("plan").split("\n")[4:], [it for it in read(EXAMPLES, "netlist", "better.plan").split("\n")[5:]])

    @needs("vfault", "yosys")
    def test_example_of_a_netlist(self):
        self.run_page(EXAMPLES, "netlist", "README.md")
        for name in ("netlist.v", "design.v", "faults.txt"):
            self.assertEqual(self.made(f"examples/netlist/{name}"), read(EXAMPLES, "netlist", name))

    @needs("vfault", "parallel")
    def test_example_of_a_farm(self):
        outputs = self.run_page(EXAMPLES, "farm", "README.md")
        reports = [out for command, out in outputs.items() if "--cut" not in command]
        self.assertEqual(reports, [read(EXAMPLES, "pipeline", "report.txt")] * 2)
