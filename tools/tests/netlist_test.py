"""Tests of tools/netlist and of examples/netlist."""
import os
import re
import shutil
import subprocess

from shared import DESIGNS, EXAMPLES, Tools, needs, program, read

EXAMPLE = os.path.join(EXAMPLES, "netlist")
# What the tool says of each design that can't be used, and the text.
REFUSED = (
    ("module missing isn't in the files", "module top(input a, output y); missing u(a, y); endmodule"),
    ("the files hold a testbench ($finish was met)", "module top; initial #10 $finish; endmodule"),
    ("Yosys can't read this text: look at the place", "module top(input a, output y)\nassign y = a;\nendmodule"),
    ("module top stands twice in the files", "module top(input a, output y); assign y = a; endmodule module top(input a, output y); assign y = a; endmodule"),
    ("no module with anything in it", "module top; endmodule"),
    ("do two modules hold each other?", "module a(input i, output o); b u(i, o); endmodule module b(input i, output o); a u(i, o); endmodule"),
    ("the module top has no output", "module top; reg a; wire y = ~a; initial a = 0; endmodule"),
    ("pad is an inout", "module top(input e, input a, inout pad, output y); assign pad = e ? a : 1'bz; assign y = pad; endmodule"),
    ("the port a has 200 bits", "module top(input [199:0] a, output y); assign y = ^a; endmodule"),
)
REFUSED_BY_PROGRAM = (
    ("a loop of gates", "module top(input a, b, output q, p); nor n1(q, a, p); nor n2(p, b, q); endmodule"),
    ("a bit has two drivers", "module top(input [1:0] s, input a, b, output y); bufif1 b1(y, a, s[0]); bufif1 b2(y, b, s[1]); endmodule"),
)


def random_bench(text, renamed=lambda it: it):
    """A testbench that drives all inputs of a netlist's ports with random bits and writes its outputs at each falling edge of clk."""
    name = re.search(r"^module (\w+)", text, re.M)[1]
    ports = re.findall(r"^  (input|output) (\[\d+:\d+\] )?(\w+);", text, re.M)
    inputs = [it for kind, _, it in ports if kind == "input"]
    drawn = [it for it in inputs if it not in ("clk", "rst")]
    lines = ["module bench;"]
    first = {it: f" = {1 if it == 'rst' else 0}" for it in inputs}
    lines += [f"  {'reg' if it in first else 'wire'} {wide}{it}{first.get(it, '')};" for _, wide, it in ports]
    lines += [f"  {name} dut({', '.join(f'.{renamed(it)}({it})' for _, _, it in ports)});", "  always #5 clk = ~clk;"]
    lines += ["  integer seed = 1;", "  initial begin #22 rst = 0; #4000 rst = 1; #20 $finish; end", "  always @(negedge clk) begin"]
    lines += ["    $display(\"" + " ".join(["%b"] * (len(ports) - len(inputs))) + "\", " + ", ".join(it for kind, _, it in ports if kind == "output") + ");"]
    lines += ["    #2;", *[f"    {it} = {{$random(seed), $random(seed)}};" for it in drawn], "  end", "endmodule"]
    return "\n".join(lines) + "\n"


class Netlist(Tools):
    def simulated(self, *files):
        out = os.path.join(self.folder, "simulation")
        subprocess.run(["iverilog", "-o", out, *files], check=True)
        return subprocess.run(["vvp", out], stdout=subprocess.PIPE, encoding="utf-8", check=True).stdout

    @needs("yosys")
    def test_example_is_the_tools(self):
        wanted = read(EXAMPLE, "netlist.v")
        got = self.good("netlist", os.path.join(EXAMPLE, "device.v"))
        if got.split("\n")[0] != wanted.split("\n")[0]:
            self.skipTest(f"{wanted.split(chr(10))[0]} made the example, here is another Yosys")
        self.assertEqual(got, wanted)

    def test_example_is_joined(self):
        self.assertEqual(read(EXAMPLE, "netlist.v") + read(EXAMPLE, "testbench.v"), read(EXAMPLE, "design.v"))

    @needs("iverilog")
    def test_example_netlist_does_as_the_device(self):
        bench = os.path.join(EXAMPLE, "testbench.v")
        runs = [self.simulated(os.path.join(EXAMPLE, it), bench) for it in ("device.v", "netlist.v")]
        self.assertEqual(*runs)
        self.assertIn("\n330 11 001\n", runs[0])

    @needs("yosys", "iverilog")
    def test_netlists_do_as_their_designs(self):
        for name in sorted(os.listdir(DESIGNS)):
            with self.subTest(name):
                design = os.path.join(DESIGNS, name)
                text = self.good("netlist", design)
                netlist = self.file("netlist.v", text)
                own = {"a_b": "\\a.b ", "y_0": "\\y[0] ", "n_design": "\\design ", "n_use": "\\use ", "n_small": "\\small "} if name == "names.v" else {}
                runs = [self.simulated(netlist, self.file("bench.v", random_bench(text)))]
                runs += [self.simulated(design, self.file("bench.v", random_bench(text, lambda it: own.get(it, it))))]
                self.assertGreater(len(set(runs[0].split("\n"))), 2)
                self.assertEqual(*runs)

    @needs("yosys", "vfault")
    def test_netlists_are_accepted_without_races(self):
        # a latch reads its enable and its data in the phase in which this testbench writes them, which is a race
        for name in sorted(set(os.listdir(DESIGNS)) - {"latches.v"}):
            with self.subTest(name):
                text = self.good("netlist", os.path.join(DESIGNS, name))
                bench = re.sub(r"\{\$random\(seed\), \$random\(seed\)\}", "seed", random_bench(text)).replace("    #2;", "    #2 seed = seed * 5 + 1;")
                design = self.file("design.v", text + bench)
                watched = re.findall(r"^  output (?:\[\d+:\d+\] )?(\w+);", text, re.M)
                plan = self.file("plan", "end 90\nstrobe 9 10 89\n" + "".join(f"watch {it}\n" for it in watched) + "fault rst 0\n")
                ran = subprocess.run([program(), "grade", design, plan, "bench", "1"], stdout=subprocess.PIPE, stderr=subprocess.STDOUT, encoding="utf-8", check=False)
                self.assertEqual(ran.returncode, 0, ran.stdout)
                self.assertNotIn(" race ", ran.stdout.split("total")[0])

    @needs("yosys")
    def test_refused(self):
        for wanted, text in REFUSED:
            with self.subTest(wanted):
                self.bad(1, wanted, "netlist", self.file("design.v", text))

    @needs("yosys", "vfault")
    def test_refused_by_the_program(self):
        for wanted, text in REFUSED_BY_PROGRAM:
            with self.subTest(wanted):
                self.bad(1, wanted, "netlist", self.file("design.v", text))

    @needs("yosys")
    def test_words(self):
        two = "module first(input a, output y); assign y = ~a; endmodule module second(input a, output y); assign y = a; endmodule"
        design = self.file("a design.v", two)
        self.assertIn("module other(a, y);", self.good("netlist", design, "-top", "first", "-name", "other"))
        self.bad(1, "no module third in the files", "netlist", design, "-top", "third")
        self.bad(1, "no name of a module: -x", "netlist", design, "-name=-x")
        self.bad(3, "cannot read nowhere.v", "netlist", "nowhere.v")

    def test_without_yosys(self):
        self.bad(3, "Yosys isn't there: install it", "netlist", "--yosys", "/nowhere/yosys", os.path.join(EXAMPLE, "device.v"))


class FlattenText(Tools):
    def test_without_a_preprocessor(self):
        first = self.file("first.v", "\ufeff`timescale 1ns/1ps\nmodule first(input \\i[0] , output o);\n(* keep *) assign o = \\i[0] ; // `define (* no *)\nendmodule")
        second = self.file("second.v", "`timescale 1ns / 1ps\nmodule top; reg c; always @(*) c = 0; always @( * ) $display(\"(* no *)\"); endmodule\n")
        status, out, said = self.run_tool("flatten-text", first, second)
        wanted = "`timescale 1ns/1ps\nmodule first(input i_0 , output o);\n  assign o = i_0 ; // `define (* no *)\nendmodule\n\n"
        self.assertEqual((status, out), (0, wanted + read(second).split("\n", 1)[1]))
        for it in ("first.v:1: byte order mark dropped", "first.v:2: the name \\i[0] is written i_0", "first.v:3: attribute dropped: (* keep *)", "second.v:1: dropped: `timescale"):
            self.assertIn(it, said)

    @needs("iverilog")
    def test_directives(self):
        self.file("words.vh", "`define WIDTH 4\n")
        design = self.file("design.v", "`include \"words.vh\"\n`ifdef OTHER\n`else\nmodule top;\n  (* x *) reg [`WIDTH-1:0] q;\nendmodule\n`endif\n")
        status, out, said = self.run_tool("flatten-text", design)
        self.assertEqual(status, 0, said)
        self.assertIn("reg [4-1:0] q;", out)
        place = 1 + [it.strip() for it in out.split("\n")].index("reg [4-1:0] q;")
        self.assertIn(f"line {place} of the written text: attribute dropped: (* x *)", said)

    def test_time_scale_behind_words(self):
        first, second = self.file("first.v", "module first; endmodule\n"), self.file("second.v", "// a comment\n`timescale 1ns / 1ps // more\nmodule second; endmodule")
        status, out, said = self.run_tool("flatten-text", first, second)
        self.assertEqual((status, out), (0, "`timescale 1ns/1ps\nmodule first; endmodule\n// a comment\n\nmodule second; endmodule\n"))
        self.assertIn("second.v:2: put to the front", said)

    def test_refused(self):
        first, second = self.file("first.v", "`timescale 1ns/1ps\n"), self.file("second.v", "`timescale 1ps/1ps\n")
        self.bad(1, "second.v:1: `timescale 1ps / 1ps after `timescale 1ns / 1ps", "flatten-text", first, second)
        self.bad(3, "cannot read nowhere.v", "flatten-text", "nowhere.v")
        design = self.file("design.v", "\n`define A 1\n")
        self.bad(3, "design.v:2: `define needs a preprocessor", "flatten-text", "--iverilog", "/nowhere/iverilog", design)

    @needs("vfault", "iverilog")
    def test_the_program_takes_it(self):
        design = self.file("design.v", "`define N 3\nmodule top; (* keep *) reg [`N:0] q; initial q = 0; endmodule\n")
        text = self.file("text.v", self.good("flatten-text", design))
        self.assertEqual(subprocess.run([program(), "check", text, "top"], stdout=subprocess.PIPE, check=True).stdout, b"objects 1 nodes 0 processes 1\n")
        self.assertTrue(shutil.which("iverilog"))
