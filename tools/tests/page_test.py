"""Tests of tools/page: the numbers on the page against the report, and what a browser shows."""
import glob
import os
import re
import subprocess
from collections import Counter
from html.parser import HTMLParser

from shared import EXAMPLES, Tools, needs, read
from json_test import reports

KINDS = ("detected", "possible", "undetected", "race", "hyper")
EMPTY = {"meta", "input", "br", "img", "polyline"}


class Page(HTMLParser):
    """The elements of a page with their texts; each one that is opened has to be closed."""

    def __init__(self, text):
        super().__init__()
        self.open, self.elements, self.wrong = [], [], []
        self.feed(text)
        self.wrong += [it["tag"] for it in self.open]

    def handle_starttag(self, tag, attrs):
        element = {"tag": tag, "text": "", **dict(attrs)}
        self.elements.append(element)
        if tag not in EMPTY:
            self.open.append(element)

    def handle_startendtag(self, tag, attrs):
        self.elements.append({"tag": tag, "text": "", **dict(attrs)})

    def handle_endtag(self, tag):
        if not self.open or self.open.pop()["tag"] != tag:
            self.wrong.append(tag)

    def handle_data(self, data):
        for element in self.open:
            element["text"] += data

    def having(self, name):
        return [it for it in self.elements if name in it]


def instance_of(site):
    """The instance of a site by the manual's spelling of sites."""
    names = site.split(".")
    return ".".join(names[:-2] if re.fullmatch(r"\d+", names[-1]) else names[:-1])


def plan_of(runs_folder, report):
    for line in read(runs_folder, "runs").split("\n"):
        words = line.split()
        if words[1:2] == [os.path.basename(report)] and words[2] == "grade":
            return os.path.join(runs_folder, words[4])
    return None


class Pages(Tools):
    def page(self, folder, design, report, *more):
        return self.good("page", design, plan_of(folder, report), report, *more)

    def test_numbers(self):
        for folder, design, report in reports():
            with self.subTest(report):
                self.check_numbers(Page(self.page(folder, design, report)), [it.split(" ") for it in read(report).split("\n")[1:-2]], read(design))

    def check_numbers(self, page, lines, design):
        self.assertEqual(page.wrong, [])
        self.assertEqual({it["data-total"]: int(it["text"]) for it in page.having("data-total")}, {kind: sum(it[2] == kind for it in lines) for kind in KINDS})
        top = {it["data-instance"].split(".")[0] for it in page.having("data-instance")}
        wanted = Counter((".".join(filter(None, [*top, instance_of(it[0])])), it[2]) for it in lines)
        self.assertEqual(Counter({(it["data-instance"], it["data-kind"]): int(it["text"]) for it in page.having("data-instance") if int(it["text"])}), wanted)
        self.assertEqual(sum(int(it["text"]) for it in page.having("data-site")), len(lines))
        self.assertEqual(Counter({int(it["data-strobe"]): int(it["text"]) for it in page.having("data-strobe")}), Counter(int(it[3]) for it in lines if it[2] == "detected"))
        left = [it for it in lines if it[2] in ("undetected", "possible", "hyper")]
        self.assertEqual(sorted(it["text"].split("held")[0] for it in page.having("data-left")), sorted(it[0] for it in left))
        races = Counter((it[3], *it[5:]) for it in lines if it[2] == "race")
        self.assertEqual(sorted(int(it["data-faults"]) for it in page.having("data-faults")), sorted(races.values()))
        marked = {it["id"] for it in page.elements if "raced" in it.get("class", "").split()}
        self.assertEqual(marked, {word for race in races for word in (race[4], race[8])})
        source = [it for it in page.elements if "line" in it.get("class", "").split()]
        self.assertEqual([re.sub(r"^\d+!?", "", it["text"]) for it in source], design.rstrip("\n").split("\n"))

    def test_coverage_of_the_counter(self):
        folder = os.path.join(EXAMPLES, "counter")
        text = self.page(folder, os.path.join(folder, "design.v"), os.path.join(folder, "report.txt"), "--title", "<counter> & more", "--version", "commit 1")
        self.assertIn("<h1>&lt;counter&gt; &amp; more</h1>", text)
        self.assertIn('<p class="figure">90.9 %</p><p>180 of 198 faults detected</p>', text)
        self.assertIn("commit 1", text)
        kinds = Counter()
        for it in Page(text).having("data-site"):
            kinds[it["data-site"]] += int(it["text"])
        self.assertEqual(kinds, {"bit of a reg": 36, "bit of a wire": 82, "input of a gate": 80})
        self.assertEqual(re.findall(r"https?://|\bsrc=|@import|url\(", text), [])

    def test_unproved_is_said_where_it_is_told(self):
        folder = os.path.join(EXAMPLES, "race")
        plain, told = (self.page(folder, os.path.join(folder, "design.v"), os.path.join(folder, "report.txt"), *more) for more in ([], ["--unproved"]))
        self.assertNotIn("without proofs", plain)
        self.assertEqual([it["text"] for it in Page(told).elements if it.get("class") == "warning"], ["Made by a build without proofs: report none of these results."])
        self.assertLess(told.index("without proofs"), told.index("</header>"))

    @needs("chromium")
    def test_browser(self):
        """The page as a browser has it once its script has run; and it draws it."""
        folder = os.path.join(EXAMPLES, "counter")
        text = self.page(folder, os.path.join(folder, "design.v"), os.path.join(folder, "report.txt"))
        page = self.file("page.html", text)
        typed = self.file("typed.html", text.replace("</body>", '<script>box.value = "count[1"; box.dispatchEvent(new Event("input"));</script></body>'))
        words = ["chromium", "--headless", "--no-sandbox", "--disable-gpu", f"--user-data-dir={self.folder}/browser"]
        shown = [self.browser(*words, "--dump-dom", f"file://{it}") for it in (page, typed)]
        self.assertIn('id="filter"', shown[0])
        self.assertNotIn('hidden=""', shown[0])
        rows = re.findall(r'<tr data-left="undetected"( hidden="")?><td class="name code">([^<]*)', shown[1])
        self.assertEqual(sorted(name for hidden, name in rows if not hidden), [f"count[{it}]" for it in range(10, 16)])
        picture = os.path.join(self.folder, "page.png")
        self.browser(*words, "--window-size=400,2000", f"--screenshot={picture}", f"file://{page}")
        self.assertGreater(os.path.getsize(picture), 20000)

    def browser(self, *words):
        return subprocess.run(words, stdout=subprocess.PIPE, stderr=subprocess.DEVNULL, encoding="utf-8", timeout=120, check=True).stdout

    def test_refused(self):
        folder = os.path.join(EXAMPLES, "race")
        design, plan, report = (os.path.join(folder, it) for it in ("design.v", "plan.txt", "report.txt"))
        other = os.path.join(EXAMPLES, "counter", "plan.txt")
        self.bad(1, "has no strobe: is it the plan that was graded?", "page", design, other, report)
        self.bad(1, "lists 1 faults, and", "page", design, self.file("plan", "end 5\nfault d 0\n"), report)
        self.bad(1, "is it the design that was graded?", "page", self.file("d.v", "module top; endmodule"), plan, report)
        self.bad(1, "line 2: no line of a plan: strob 3", "page", design, self.file("plan", "end 5\nstrob 3\n"), report)
        self.bad(1, "a plan has a line `end`", "page", design, self.file("plan", "\n"), report)
        self.bad(1, "cut short", "page", design, plan, self.file("report", "vfault 1\nd sa0"))

    def test_no_faults(self):
        report = self.file("report", "vfault 1\ntotal 0 detected 0 possible 0 undetected 0 race 0 hyper 0\n")
        text = self.good("page", self.file("d.v", "module top; endmodule\n"), self.file("plan", "end 5\n"), report)
        self.assertIn("nothing can be detected", text)
        self.assertEqual(Page(text).wrong, [])

    def test_all_reports_are_seen(self):
        self.assertGreaterEqual(len(list(reports())), len(glob.glob(f"{EXAMPLES}/lines/*.report")) - 1)
