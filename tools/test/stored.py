"""What tests of tools with stored outputs share: each case is a command of the shell, and what it prints has to be what is stored.

The commands run in a copy of the repository's top without its crates, where `rv` and `rv-coverage` are the built programs and the tools
are on the PATH.
"""
import difflib
import os
import re
import shutil
import subprocess
import sys
import tempfile

ROOT = os.path.dirname(os.path.dirname(os.path.dirname(os.path.realpath(__file__))))
sys.dont_write_bytecode = True
sys.path.insert(0, f"{ROOT}/tools/lib")
from rv_tool import Parser  # noqa: E402
from ending import check_built, need, run_test  # noqa: E402, F401 (the tests take these from here)

LATEST = 300  # seconds for a command
# by the option that names another program: the command and the crate
PROGRAMS = {"--rv": ("rv", "rv"), "--rv-coverage": ("rv-coverage", "coverage")}


def blocks_of(path):
    """The stored outputs by their commands."""
    try:
        with open(path, encoding="utf-8", errors="surrogateescape", newline="\n") as file:
            parts = re.split(r"^\$ (.*)\n", file.read(), flags=re.M)
    except FileNotFoundError:
        parts = [""]
    return dict(zip(parts[1::2], parts[2::2]))


def run(command, top, environment):
    """What a command prints, standard error behind standard output, and its status."""
    ran = subprocess.run(["bash", "-c", command], cwd=top, env=environment, stdin=subprocess.DEVNULL, capture_output=True, check=False, timeout=LATEST)
    text = (ran.stdout + ran.stderr).decode("utf-8", "surrogateescape")
    return text + ("" if text.endswith("\n") or not text else "\n") + f"status {ran.returncode}\n"


def changes(before, after, names):
    """What differs, as lines."""
    return difflib.unified_diff(before.splitlines(), after.splitlines(), *names, lineterm="")


def compare(name, commands, top, environment, is_writing, twin=None):
    """Runs the commands in a folder, prints what differs from what is stored, or stores it; returns the status of the test.

    A twin is what has to print the same in place of the first word of each command.
    """
    path, outputs, differ, twins = f"{ROOT}/tools/test/{name}.stored", [], 0, 0
    stored = blocks_of(path)
    for command in commands:
        said = run(command, top, environment).replace(top, "TOP")
        outputs.append(f"$ {command}\n{said}")
        if said != stored.get(command):
            differ += 1
            if not is_writing:
                print(f"$ {command}", *changes(stored.get(command, ""), said, ("stored", "said")), sep="\n    ")
        if twin:
            other = run(" ".join([twin, *command.split(" ")[1:]]), top, environment).replace(top, "TOP")
            if other != said:
                twins += 1
                print(f"$ {command}", *changes(other, said, ("twin", "said")), sep="\n    ")
    for command in [] if is_writing else set(stored) - set(commands):
        differ += 1
        print(f"$ {command}\n    it is stored, and no command")
    if is_writing:
        with open(path, "w", encoding="utf-8", errors="surrogateescape", newline="\n") as file:
            file.write("".join(outputs))
        print(f"{name}: {len(outputs)} outputs stored, {differ} of them new")
        return 1 if twins else 0
    told = f", and {len(commands) - twins} with the twin" if twin else ""
    print(f"{name}: {len(commands) - differ} of {len(commands)} commands agree{told}")
    return 1 if differ or twins else 0


def main(name, describe, commands, needs=(), files=(), option="--rv", twin=None, others=()):
    """Runs the commands; ends with 0 where all agree, 1 where one differs or a program that an option names is missing."""
    parser = Parser(describe)
    for it in (option, *others):
        parser.add_argument(it, metavar="PROGRAM", default="{0}/crates/{1}/out/{1}".format(ROOT, PROGRAMS[it][1]))
    parser.add_argument("--write", action="store_true")
    given = parser.parse_args()
    for tool in needs:
        need(tool)
    programs = [(*PROGRAMS[it], getattr(given, it[2:].replace("-", "_"))) for it in (option, *others)]
    for command, _, program in programs:
        check_built(program, command)
    with tempfile.TemporaryDirectory() as room:
        top = os.path.join(os.path.realpath(room), "top")
        os.makedirs(f"{top}/bin")
        for it in ("docs", "tools"):
            shutil.copytree(f"{ROOT}/{it}", f"{top}/{it}")
        for it in ("examples", "monitors"):
            shutil.copytree(os.path.realpath(f"{ROOT}/{it}"), f"{top}/{it}")
        for command, crate, program in programs:
            os.makedirs(f"{top}/crates/{crate}/out")
            for link in (f"crates/{crate}/out/{crate}", f"bin/{command}"):
                os.symlink(os.path.abspath(program), f"{top}/{link}")
        for file, text in files:
            with open(f"{top}/{file}", "w", encoding="utf-8", errors="surrogateescape", newline="\n") as to:
                to.write(text)
        environment = dict(os.environ, LC_ALL="C.UTF-8", PATH=f"{top}/tools:{top}/bin:{os.environ['PATH']}")
        return compare(name, commands, top, environment, given.write, twin)


def finish(*words, **more):
    run_test(lambda: main(*words, **more))
