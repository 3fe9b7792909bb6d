"""Tests of tools/install, the manual page and the completion."""
import os
import shutil
import subprocess

from shared import EXAMPLES, TOOLS, Tools, needs, read

STAND_IN = "#!/bin/sh\necho \"stand-in $*\"\n"
FILES = ("bin/vfault", "share/man/man1/vfault.1", "share/bash-completion/completions/vfault")


class Install(Tools):
    def setUp(self):
        super().setUp()
        self.program = self.file("stand-in", STAND_IN)
        os.chmod(self.program, 0o755)
        self.prefix = os.path.join(self.folder, "a prefix")

    def below(self):
        return sorted(os.path.relpath(os.path.join(folder, it), self.prefix) for folder, _, files in os.walk(self.prefix) for it in files)

    def test_there_and_back(self):
        for _ in range(2):
            self.good("install", self.prefix, environment={"VFAULT": self.program})
            self.assertEqual(self.below(), sorted(FILES))
        ran = subprocess.run([f"{self.prefix}/bin/vfault", "check"], stdout=subprocess.PIPE, encoding="utf-8", check=True)
        self.assertEqual(ran.stdout, "stand-in check\n")
        self.assertEqual([read(self.prefix, it) for it in FILES[1:]], [read(TOOLS, it) for it in ("vfault.1", "vfault.bash")])
        self.file("a prefix/bin/other", "")
        self.assertIn("removed", self.good("install", "--remove", self.prefix))
        self.assertEqual(self.below(), ["bin/other"])
        self.assertEqual(os.listdir(self.prefix), ["bin"])
        self.assertIn("isn't there", self.good("install", "--remove", self.prefix))

    def test_places(self):
        self.good("install", "--program", self.program, "inner/", environment={"DESTDIR": ""})
        self.assertTrue(os.path.exists(f"{self.folder}/inner/bin/vfault"))
        self.good("install", "--program", self.program, "/usr/local", environment={"DESTDIR": self.folder})
        self.assertTrue(os.path.exists(f"{self.folder}/usr/local/bin/vfault"))
        self.assertIn("usage:", self.good("install", "--help"))

    def test_refused(self):
        self.bad(2, "usage:", "install")
        self.bad(2, "no such word: --delete", "install", "--delete", self.prefix)
        self.bad(2, "one PREFIX, not two", "install", "one", "two")
        self.bad(3, "no program at /nowhere", "install", "--program", "/nowhere", self.prefix)
        self.file("flat", "")
        self.bad(1, "cannot make the folder", "install", "--program", self.program, "flat")
        self.assertFalse(os.path.exists(self.prefix))

    @needs("man", "groff")
    def test_manual_page(self):
        shown = subprocess.run(["man", "--warnings", "-l", f"{TOOLS}/vfault.1"], stdout=subprocess.PIPE, stderr=subprocess.PIPE, encoding="utf-8", check=True)
        self.assertEqual(shown.stderr, "")
        self.assertIn("vfault grade DESIGN PLAN TOP WORKERS [strict]", shown.stdout)

    @needs("bash")
    def test_completion(self):
        design = os.path.join(EXAMPLES, "pipeline", "design.v")
        for words, wanted in (
            (["gr"], ["grade"]), ([""], ["grade", "check", "faults", "soak", "dict", "diagnose", "certify", "audit", "pick"]), (["grade", design[:-2]], [design]),
            (["grade", design, "plan", ""], ["stage", "top"]), (["check", design, "t"], ["top"]), (["check", design, "top", ""], ["strict"]),
            (["grade", design, "plan", "top", "4"], ["4"]), (["grade", design, "plan", "top", "1", "s"], ["strict"]), (["soak", ""], []),
            (["dict", design, "plan", "t"], ["top"]), (["pick", design, "plan", "top", ""], ["strict"]), (["diagnose", design, "plan", "top", design[:-2]], [design]),
            (["diagnose", design, "plan", "top", "response", ""], ["strict"]), (["audit", design, "plan", "top", design[:-2]], [design]), (["certify", design, "plan", "top", ""], []),
            (["certify", design, "plan", "top", "1", "s"], ["strict"]), (["check", design, "top", "strict", ""], []), (["other", ""], []),
        ):
            with self.subTest(words):
                script = f'source {TOOLS}/vfault.bash; COMP_WORDS=(vfault "$@"); COMP_CWORD=$#; _vfault; printf "%s\\n" "${{COMPREPLY[@]}}"'
                ran = subprocess.run(["bash", "-c", script, "bash", *words], stdout=subprocess.PIPE, stderr=subprocess.PIPE, encoding="utf-8", check=True)
                self.assertEqual([it for it in ran.stdout.split("\n") if it], wanted, ran.stderr)
        self.assertTrue(shutil.which("bash"))
