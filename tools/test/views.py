"""What the tests of rv-steps, rv-perfetto and rv-timeline share: the runs, the tools, and stored outputs."""
import difflib
import os
import random
import subprocess
import sys
import tempfile

ROOT = os.path.dirname(os.path.dirname(os.path.dirname(os.path.abspath(__file__))))
sys.dont_write_bytecode = True
sys.path.insert(0, f"{ROOT}/tools/lib")
from rv_tool import Parser  # noqa: E402
from ending import Skips, check_built, run_test  # noqa: E402, F401 (the tests take run_test from here)

STORED = os.path.join(ROOT, "tools", "test", "views")
VIEWS = "tools/test/views"


def runs(with_monitors=True):
    """The runs of the repository: a name, the folder, the bindings and the trace."""
    for line in open(f"{ROOT}/examples/list", encoding="utf-8"):
        name = line.split()[0]
        yield name, ROOT, f"examples/{name}/{name}.rv", f"examples/{name}/{name}.txt"
    for name in ("mixed", "panic", "shared"):
        yield name, ROOT, f"{VIEWS}/{name}.rv", f"{VIEWS}/mixed.txt"
    if with_monitors:
        for line in open(f"{ROOT}/monitors/list", encoding="utf-8"):
            name, _, bindings, trace, *_ = line.split()
            yield f"{name} {trace}", f"{ROOT}/monitors/{name}", bindings, trace


def ranges(folder, trace, count=3):
    """Some parts of a trace, by their first and last lines."""
    made = random.Random(trace)
    with open(os.path.join(folder, trace), "rb") as file:
        lines = sum(1 for _ in file)
    for _ in range(count):
        first = made.randrange(1, lines + 1)
        yield first, min(lines, first + made.choice((0, 5, 50, lines)))


def behind_the_part(test, bindings, trace, text_of):
    """What is behind a part is not looked at, but by rv."""
    with tempfile.TemporaryDirectory() as room:
        with open(f"{ROOT}/{trace}", encoding="utf-8") as file:
            lines = file.readlines()
        far, words = os.path.join(room, "far.txt"), ("--lines", f"3-{len(lines)}", bindings)
        with open(far, "w", encoding="utf-8") as file:
            file.writelines([*lines, f"t-1 [000] {'9' * 40}.5: sched_waking: comm=t pid=1\n"])
        test.same("a stamp that no clock counts", 3, test.run(bindings, far)[0])
        test.same("the same behind a part", (0, "", text_of(test.run(*words, trace)[1])), (lambda status, out, err: (status, err, text_of(out)))(*test.run(*words, far)))
        with open(far, "a", encoding="utf-8") as file:
            file.write("no event\n")
        test.same("a refusal behind a part", (3, "", f"{test.name}: rv: refused 24 in {far} line {len(lines) + 2}\n"), test.run(*words, far))


class Test:
    """Counts cases, and prints each that differs."""

    def __init__(self, tool, text):
        parser = Parser(text)
        parser.add_argument("--rv", metavar="PROGRAM", default=f"{ROOT}/crates/rv/out/rv")
        parser.add_argument("--write", action="store_true")
        given = parser.parse_args()
        self.name, self.tool, self.rv, self._write = tool, f"{ROOT}/tools/{tool}", os.path.abspath(given.rv), given.write
        self.agree = self.differ = 0
        self.skips = Skips()
        check_built(given.rv, "rv")

    def run(self, *words, folder=ROOT, given=subprocess.DEVNULL):
        """The status, output and errors of the tool."""
        done = subprocess.run([self.tool, "--rv", self.rv, *words], cwd=folder, stdin=given, capture_output=True, check=False)
        return done.returncode, done.stdout.decode("utf-8", "surrogateescape"), done.stderr.decode("utf-8", "surrogateescape")

    def program(self, *words, folder=ROOT):
        done = subprocess.run([self.rv, *words], cwd=folder, stdin=subprocess.DEVNULL, capture_output=True, check=False)
        return done.returncode, done.stdout.decode("utf-8", "surrogateescape")

    def case(self, what, agrees, told=""):
        if agrees:
            self.agree += 1
        else:
            self.differ += 1
            print(f"{what}: {told or 'differs'}")

    def same(self, what, wanted, came):
        self.case(what, wanted == came, f"wanted {wanted!r}\n    came {came!r}")

    def stored(self, name, text):
        """Compares a text with the stored one."""
        path = f"{STORED}/{name}"
        if self._write:
            with open(path, "w", encoding="utf-8", errors="surrogateescape") as file:
                file.write(text)
        with open(path, encoding="utf-8", errors="surrogateescape") as file:
            wanted = file.read()
        changes = difflib.unified_diff(wanted.splitlines(), text.splitlines(), f"stored {name}", "came", n=1, lineterm="")
        self.case(name, wanted == text, "\n".join(list(changes)[:20]))

    def wrong_uses(self, *rest):
        """What every tool says of wrong words and of files that cannot be read; `rest` stands behind the trace."""
        wip, trace = "examples/wip/wip.rv", "examples/wip/wip.txt"
        told = self.run("--help")
        self.case("--help", told[0] == 0 and told[1].startswith(f"usage: {self.name} ") and "Exit status: 0" in told[1], told)
        for words, status in [
            ([wip, *rest], 2),
            (["--no-such", wip, trace, *rest], 2),
            (["no/such.rv", trace, *rest], 3),
            ([wip, "no/such.txt", *rest], 3),
            ([wip, "examples", *rest], 3),
            ([wip, "/dev/null", *rest], 3),
            ([trace, wip, *rest], 3),
            ([wip, wip, *rest], 3),
            (["--rv", "/no/such/program", wip, trace, *rest], 3),
            (["--rv", "true", wip, trace, *rest], 3),
            (["--rv", "echo", wip, trace, *rest], 3),
        ]:
            came, out, err = self.run(*words)
            self.case(f"{' '.join(words)}", came == status and not out and err and "Traceback" not in err, f"status {came}, output {out[:80]!r}, errors {err[-300:]!r}")

    def standard_input(self, *files, shown=str):
        """Standard input in place of each file: a file of the shell's is read as by its name, and a pipe is refused."""
        wanted = self.run(*files)
        for place, file in enumerate(files):
            for name in ("/dev/stdin", "/dev/fd/0", "/proc/self/fd/0"):
                words = [*files[:place], name, *files[place + 1:]]
                with open(os.path.join(ROOT, file), "rb") as given:
                    status, out, err = self.run(*words, given=given)
                self.case(f"{' '.join(words)} < {file}", (status, shown(out.replace(name, file)), err) == (wanted[0], shown(wanted[1]), wanted[2]), (status, out[:80], err))
                with subprocess.Popen(["cat", file], cwd=ROOT, stdout=subprocess.PIPE) as pipe:
                    refused = self.run(*words, given=pipe.stdout)
                self.same(f"cat {file} | {' '.join(words)}", (3, "", f"{self.name}: {name} is no regular file, and is read more than once: save it first\n"), refused)

    def end(self):
        print(f"{self.name}: {self.agree} of {self.agree + self.differ} cases agree{self.skips}")
        sys.exit(1 if self.differ else 0)
