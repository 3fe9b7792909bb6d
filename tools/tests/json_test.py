"""Tests of tools/json over all reports of the examples."""
import glob
import json
import os

from shared import EXAMPLES, Tools, read


def reports():
    """Each report of the examples with the words that made it: its folder, its design, its text."""
    for runs in sorted(glob.glob(f"{EXAMPLES}/*/runs")):
        folder = os.path.dirname(runs)
        for line in read(runs).split("\n"):
            words = line.split()
            if words[2:3] == ["grade"] and words[0] == "0":
                yield folder, os.path.join(folder, words[3]), os.path.join(folder, words[1])


def line_of(told):
    """The line of a report that an object is of."""
    head = f"{told['site']} sa{told['value']} {told['verdict']}"
    if told["verdict"] != "race":
        return head + (f" {told['time']}" if "time" in told else "")
    accesses = " ".join(f"{it['kind']} {it['object']} p{it['process']} l{it['line']}" for it in told["accesses"])
    return f"{head} {told['side']} {told['time']}.{told['phase']} {accesses}"


class Json(Tools):
    def test_the_report_can_be_made_of_it(self):
        seen = 0
        for _, design, report in reports():
            with self.subTest(report):
                told = [json.loads(it) for it in self.good("json", report, "--design", design).split("\n")[:-1]]
                self.assertEqual([line_of(it) for it in told], read(report).split("\n")[1:-2])
                self.assertTrue(all(access["file"] == design for it in told for access in it.get("accesses", ())))
                seen += 1
        self.assertGreater(seen, 15)

    def test_joined_files(self):
        lines = read(EXAMPLES, "race", "design.v").split("\n")
        first, second = self.file("first.v", "\n".join(lines[:4]) + "\n"), self.file("second.v", "\n".join(lines[4:]))
        out = self.good("json", "-", "--design", first, "--design", second, given=read(EXAMPLES, "race", "report.txt"))
        accesses = json.loads(out.split("\n")[0])["accesses"]
        self.assertEqual([(it["file"], it["line"]) for it in accesses], [(first, 4), (second, 1)])

    def test_sarif(self):
        for _, design, report in reports():
            with self.subTest(report):
                told = json.loads(self.good("json", report, "--design", design, "--sarif"))
                run, = told["runs"]
                self.assertEqual((told["version"], run["tool"]["driver"]["name"]), ("2.1.0", "vfault"))
                rules = [it["id"] for it in run["tool"]["driver"]["rules"]]
                races = [it.split(" ") for it in read(report).split("\n")[1:-2] if it.split(" ")[2] == "race"]
                self.assertEqual(sorted(f"{it[0]} {it[1]}" for it in races), sorted(it for result in run["results"] for it in result["properties"]["faults"]))
                self.assertEqual(len({(it[3], *it[5:]) for it in races}), len(run["results"]))
                for result in run["results"]:
                    self.assertEqual(rules[result["ruleIndex"]], result["ruleId"])
                    self.check_places(result, design, races)

    def check_places(self, result, design, races):
        """A result's two places are those of its first fault's line."""
        race, = [it for it in races if f"{it[0]} {it[1]}" == result["properties"]["faults"][0]]
        places = [result["locations"][0]["physicalLocation"], result["relatedLocations"][0]["physicalLocation"]]
        self.assertEqual([f"l{it['region']['startLine']}" for it in places], [race[8], race[12]])
        self.assertTrue(all(it["artifactLocation"]["uri"] == "file://" + design for it in places))
        self.assertEqual(result["level"], "error" if race[3] == "good" else "warning")

    def test_refused(self):
        report = os.path.join(EXAMPLES, "race", "report.txt")
        self.bad(1, "the design has 1 lines, and the report speaks of line 4", "json", report, "--design", self.file("design.v", "module top; endmodule"))
        self.bad(2, "--sarif needs --design", "json", report, "--sarif")
        self.bad(1, "cut short", "json", "-", given="vfault 1\n")
