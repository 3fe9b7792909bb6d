"""Tests of tools/farm, tools/merge and examples/farm."""
import os
import shutil
import socket
import subprocess
import time

from shared import EXAMPLES, Tools, needs, program, read

PIPELINE = os.path.join(EXAMPLES, "pipeline")
WORDS = [os.path.join(PIPELINE, "design.v"), os.path.join(PIPELINE, "plan.txt"), "top"]
REPORT = read(PIPELINE, "report.txt")
# Stands for ssh: leaves out the options and the host, and runs the words on this machine.
SSH = """#!/bin/sh
while [ $# -gt 0 ]; do
    case $1 in
        -l | -o | -p | -S | -i) shift 2 ;;
        -*) shift ;;
        *) break ;;
    esac
done
echo "$1" >> "$HOSTS"
shift
[ "$1" != -- ] || shift
exec sh -c "$*"
"""
# Runs vfault, but the first time that it is given part 3 it is killed on the way, with half a report written.
KILLED = """#!/bin/sh
case "$*" in
    *part-0003.plan*)
        if [ ! -e "$MARK" ]; then
            touch "$MARK"
            printf 'vfault 1\\nclk sa0 pos'
            kill -9 $$
        fi ;;
esac
echo "$*" >> "$RUNS"
exec PROGRAM "$@"
"""
# A server of ssh that takes one key, and runs all words in a home of its own, as a second machine would.
SERVER = """ListenAddress 127.0.0.1
Port NUMBER
HostKey FOLDER/host
AuthorizedKeysFile FOLDER/key.pub
StrictModes no
UsePAM no
PidFile none
ForceCommand FOLDER/second
"""
SECOND = """#!/bin/sh
HOME=FOLDER/home
SESSION=$PPID
export HOME SESSION
cd || exit
echo "$SSH_ORIGINAL_COMMAND" >> FOLDER/asked
exec sh -c "$SSH_ORIGINAL_COMMAND"
"""
# What a machine of its own network runs: it says its name, and has a home of its own.
OWN = """#!/bin/sh
HOME=FOLDER/NAME/home
export HOME
cd || exit
echo "$(hostname)" >> FOLDER/NAME/asked
exec sh -c "$SSH_ORIGINAL_COMMAND"
"""
# Runs vfault there, but the first time that it is given part 5 the connection breaks.
BROKEN = """#!/bin/sh
case "$*" in
    *part-0005.plan*)
        if [ ! -e FOLDER/broken ]; then
            touch FOLDER/broken
            kill -9 "$SESSION"
            exit 1
        fi ;;
esac
exec FOLDER/killed "$@"
"""
CLIENT = """Host second
HostName 127.0.0.1
Port NUMBER
IdentityFile FOLDER/key
IdentitiesOnly yes
UserKnownHostsFile FOLDER/known
StrictHostKeyChecking accept-new
BatchMode yes
"""


class Farm(Tools):
    def setUp(self):
        super().setUp()
        # what GNU parallel keeps goes to the test's folder
        self.place = {"HOME": self.folder, "RUNS": os.path.join(self.folder, "runs"), "MARK": os.path.join(self.folder, "mark"), "HOSTS": os.path.join(self.folder, "hosts")}

    def script(self, name, text):
        path = self.file(name, text)
        os.chmod(path, 0o755)
        return path

    def farm(self, *words, **more):
        return self.good("farm", *words, *WORDS, environment={**self.place, **more})

    @needs("vfault", "parallel")
    def test_killed_part_is_run_again(self):
        killed = self.script("killed", KILLED.replace("PROGRAM", program()))
        self.assertEqual(self.farm("--program", killed, "-parts", "8", "-jobs", "2"), REPORT)
        self.assertTrue(os.path.exists(self.place["MARK"]))
        self.assertEqual(sum("grade" in it for it in read(self.place["RUNS"]).split("\n")), 8)

    @needs("vfault", "parallel")
    def test_goes_on(self):
        counted = self.script("counted", KILLED.replace("PROGRAM", program()))
        self.file("mark", "")
        folder = os.path.join(self.folder, "parts")
        words = ["--program", counted, "--folder", folder, "-parts", "4", "-jobs", "2"]
        self.assertEqual(self.farm(*words), REPORT)
        os.remove(os.path.join(folder, "part-0002.report"))
        self.assertEqual(self.farm(*words), REPORT)
        self.assertEqual(sum("grade" in it for it in read(self.place["RUNS"]).split("\n")), 5)
        self.file("parts/part-0004.report", "vfault 1\nclk sa0 pos")
        self.bad(1, "cut short", "farm", *words, *WORDS, environment=self.place)
        self.bad(1, "parts of another run", "farm", "--folder", folder, "-parts", "5", "--program", counted, *WORDS, environment=self.place)

    @needs("vfault", "parallel", "rsync", "perl")
    def test_other_machines(self):
        ssh = self.script("ssh", SSH)
        got = self.farm("-parts", "4", "--sshlogin", "first", "--sshlogin", "second", "-jobs", "1", PARALLEL_SSH=ssh)
        self.assertEqual(got, REPORT)
        self.assertLessEqual({"first", "second"}, set(read(self.place["HOSTS"]).split("\n")))

    def second_machine(self):
        """Starts a server of ssh on this machine for this test alone; gives the words that call ssh so that the host `second` is that server."""
        with socket.socket() as it:
            it.bind(("127.0.0.1", 0))
            number = it.getsockname()[1]
        os.mkdir(os.path.join(self.folder, "home"))
        for name, text in (("server", SERVER), ("client", CLIENT)):
            self.file(name, text.replace("FOLDER", self.folder).replace("NUMBER", str(number)))
        self.script("second", SECOND.replace("FOLDER", self.folder))
        for name in ("host", "key"):
            subprocess.run(["ssh-keygen", "-q", "-t", "ed25519", "-N", "", "-f", os.path.join(self.folder, name)], check=True)
        with open(os.path.join(self.folder, "said"), "w", encoding="utf-8") as said:
            server = subprocess.Popen([shutil.which("sshd"), "-D", "-e", "-f", os.path.join(self.folder, "server")], stderr=said)
        self.addCleanup(server.wait)
        self.addCleanup(server.terminate)
        for _ in range(100):
            with socket.socket() as it:
                if it.connect_ex(("127.0.0.1", number)) == 0:
                    return f"ssh -F {self.folder}/client"
            if server.poll() is not None:
                break
            time.sleep(0.1)
        return self.skipTest("sshd doesn't start: " + read(self.folder, "said").strip())

    @needs("vfault", "parallel", "rsync", "perl", "ssh", "sshd", "ssh-keygen")
    def test_second_machine(self):
        ssh = self.second_machine()
        there = KILLED.replace("$MARK", self.place["MARK"]).replace("$RUNS", self.place["RUNS"]).replace("PROGRAM", program())
        self.script("killed", there)
        broken = self.script("there", BROKEN.replace("FOLDER", self.folder))
        got = self.farm("-parts", "8", "-jobs", "2", "--sshlogin", "second", "--remote-program", broken, PARALLEL_SSH=ssh)
        self.assertEqual(got, REPORT)
        self.assertTrue(os.path.exists(self.place["MARK"]) and os.path.exists(os.path.join(self.folder, "broken")))
        self.assertEqual(sum("grade" in it for it in read(self.place["RUNS"]).split("\n")), 8)
        self.assertIn("rsync --server", read(self.folder, "asked"))

    def machine(self, name, number):
        """Starts a machine with a network, a host's name and a home of its own, and a server of ssh in it; gives its address. It stands for this test alone."""
        space, here, there = f"vf{os.getpid()}n{number}", f"vf{os.getpid()}h{number}", f"vf{os.getpid()}t{number}"
        address = f"10.77.{number}.2"

        def ip(*words, inside=False):
            subprocess.run(["ip", *(["netns", "exec", space, "ip"] if inside else []), *words], check=True, stdout=subprocess.DEVNULL, stderr=subprocess.DEVNULL)

        try:
            ip("netns", "add", space)
        except subprocess.CalledProcessError:
            self.skipTest("a network of its own can't be made here")
        self.addCleanup(ip, "netns", "del", space)
        ip("link", "add", here, "type", "veth", "peer", "name", there)
        ip("link", "set", there, "netns", space)
        ip("addr", "add", f"10.77.{number}.1/24", "dev", here)
        ip("link", "set", here, "up")
        ip("addr", "add", f"{address}/24", "dev", there, inside=True)
        ip("link", "set", there, "up", inside=True)
        os.makedirs(os.path.join(self.folder, name, "home"))
        self.script(f"{name}/run", OWN.replace("FOLDER", self.folder).replace("NAME", name))
        text = SERVER.replace("127.0.0.1", address).replace("NUMBER", "22").replace("FOLDER/second", f"FOLDER/{name}/run").replace("FOLDER", self.folder)
        self.file(f"{name}/server", text)
        server = [shutil.which("sshd"), "-D", "-e", "-f", os.path.join(self.folder, name, "server")]
        script = f"hostname {name} && exec \"$@\""
        with open(os.path.join(self.folder, name, "said"), "w", encoding="utf-8") as said:
            ran = subprocess.Popen(["ip", "netns", "exec", space, "unshare", "--uts", "sh", "-c", script, "sh", *server], stderr=said)
        self.addCleanup(ran.wait)
        self.addCleanup(ran.terminate)
        for _ in range(100):
            with socket.socket() as it:
                if it.connect_ex((address, 22)) == 0:
                    return address
            if ran.poll() is not None:
                break
            time.sleep(0.1)
        return self.skipTest("sshd doesn't start: " + read(self.folder, name, "said").strip())

    @needs("vfault", "parallel", "rsync", "perl", "ssh", "sshd", "ssh-keygen", "ip", "unshare")
    def test_two_machines(self):
        if os.geteuid():
            self.skipTest("only root can make machines with networks of their own")
        for name in ("host", "key"):
            subprocess.run(["ssh-keygen", "-q", "-t", "ed25519", "-N", "", "-f", os.path.join(self.folder, name)], check=True)
        text = ""
        for number, name in enumerate(("first", "second"), 1):
            text += CLIENT.replace("127.0.0.1", self.machine(name, number)).replace("NUMBER", "22").replace("second", name).replace("FOLDER", self.folder)
        self.file("client", text)
        got = self.farm("-parts", "8", "-jobs", "1", "--sshlogin", "first", "--sshlogin", "second", PARALLEL_SSH=f"ssh -F {self.folder}/client")
        self.assertEqual(got, REPORT)
        for name in ("first", "second"):
            self.assertEqual(set(read(self.folder, name, "asked").split()), {name})

    @needs("vfault", "parallel")
    def test_slurm_array(self):
        os.mkdir(os.path.join(self.folder, "bin"))
        os.symlink(program(), os.path.join(self.folder, "bin", "vfault"))
        folder = os.path.join(self.folder, "parts")
        self.farm("--cut", "--folder", folder, "-parts", "8")
        for task in range(1, 9):
            place = {**os.environ, "SLURM_ARRAY_TASK_ID": str(task), "PATH": f"{self.folder}/bin:{os.environ['PATH']}"}
            subprocess.run([os.path.join(EXAMPLES, "farm", "part.sbatch"), folder, "top"], env=place, check=True)
        reports = [os.path.join(folder, f"part-{task:04d}.report") for task in range(1, 9)]
        self.assertEqual(self.good("merge", *reports), REPORT)
        self.assertEqual(self.farm("--folder", folder, "-parts", "8"), REPORT)

    @needs("vfault", "parallel")
    def test_lists(self):
        design = self.file("design.v", "module top; reg a = 0; reg [1:0] q = 0; initial begin #10 a = 1; q = 1; end endmodule\n")
        plan = self.file("plan", "# a comment\nend 20\nwatch a # all of it\n\nfault q[1] 1\nwatch q\nfaults all\nfault a 0\nfault a 0\nstrobe 15\n")
        whole = subprocess.run([program(), "grade", design, plan, "top", "1"], stdout=subprocess.PIPE, encoding="utf-8", check=True).stdout
        for parts in ("1", "3", "9", "50"):
            self.assertEqual(self.good("farm", "-parts", parts, "-jobs", "2", design, plan, "top", environment=self.place), whole)
        none = self.file("none", "end 20\nwatch a\nstrobe 15")
        self.assertEqual(self.good("farm", design, none, "top", environment=self.place), "vfault 1\ntotal 0 detected 0 possible 0 undetected 0 race 0 hyper 0\n")

    @needs("vfault", "parallel")
    def test_refused(self):
        design = self.file("design.v", "module top; reg a = 0; reg b = 0; endmodule\n")
        plan = self.file("plan", "end 20\nfaults all\nwatch a\nfault a 0\nfault c 1\n")
        self.bad(1, "farm: vfault: plan 5: unknown name", "farm", "-parts", "3", "-jobs", "1", design, plan, "top", environment=self.place)
        self.bad(1, "no module of that name", "farm", design, plan, "other", environment=self.place)
        loop = [os.path.join(EXAMPLES, "lines", it) for it in ("good_loop.v", "good_loop.plan")]
        self.bad(6, "farm: vfault: the good machine loops at time 0", "farm", "-jobs", "1", *loop, "top", environment=self.place)
        self.bad(3, "cannot read", "farm", design, "nowhere", "top")
        self.bad(2, "no number from 1", "farm", "-parts", "0", design, plan, "top")
        self.bad(3, "no program at /nowhere", "farm", "--program", "/nowhere", design, plan, "top")


class Merge(Tools):
    def test_merge(self):
        lines = REPORT.split("\n")[1:-2]
        parts = []
        for number, (start, end) in enumerate(((0, 1), (1, 1), (1, 20), (20, len(lines)))):
            mine = lines[start:end]
            totals = [sum(f" {kind}" in it for it in mine) for kind in ("detected", "possible", "undetected", "race", "hyper")]
            total = f"total {len(mine)} detected {totals[0]} possible {totals[1]} undetected {totals[2]} race {totals[3]} hyper {totals[4]}"
            parts.append(self.file(f"part{number}", "\n".join(["vfault 1", *mine, total, ""])))
        self.assertEqual(self.good("merge", *parts), REPORT)

    def test_refused(self):
        short = self.file("short", REPORT[:-30])
        other = self.file("other", REPORT.replace("vfault 1", "vfault 2", 1))
        wrong = self.file("wrong", REPORT.replace("detected 38\n", "possible 38\n", 1))
        bad = self.file("bad", REPORT.replace("sa0", "sa2", 1))
        for words, name in (("cut short", short), ("no report of vfault", other), ("don't count its lines", wrong), ("bad line 2: no line of a report", bad)):
            self.bad(1, words, "merge", os.path.join(PIPELINE, "report.txt"), name)
        self.bad(3, "cannot read nowhere", "merge", "nowhere")
