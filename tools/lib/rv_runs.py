"""Runs of rv on many traces: what each leaves behind, and who runs them: this machine, others over ssh, or any engine by a plan.

A run leaves its report, and beside it a line `STATUS KEY SUM`: rv's status, the key of what it read, and the sum of the report. Both
are written aside and moved, so a run that was cut off leaves nothing, and two that write at once leave the whole of one of them.
"""
import concurrent.futures
import contextlib
import ctypes
import hashlib
import os
import select
import shlex
import shutil
import signal
import socket
import subprocess
import sys
import tempfile
import threading
import time

from rv_tool import UNREADABLE, WRONG_USE, Trouble, writing

ENDS = (0, 1, 2, 6)  # the statuses that the files alone determine: no other try changes them
PR_SET_CHILD_SUBREAPER = 36  # of Linux's prctl
OTHER_TRY = (3, 4, 5)  # cannot read, cannot write, no memory: another host or hour may do better, and the last one counts
OTHER_FILES, UNWRITTEN = 120, 74  # how a run's command ends where a host has other files, or a report cannot be written
CAUSES = {
    OTHER_FILES: "the program, the bindings or a specification is another one there", UNWRITTEN: "its report could not be written",
    126: "the program cannot be run", 127: "the program is not there", 137: "it was killed, as for want of memory", 153: "a file grew too large",
    255: "the host is gone",
}
# What a host runs, in sh alone: PROGRAM BINDINGS TRACE REPORT SUMS KEY, and `ssh` where it ends with its connection. It ends with 0 where no other try is wanted.
RUNNER = f"""# replays a trace for rv-many; what comes of it is written aside and moved
new=$4.new.$(uname -n).$$
run='' watch=''
trap 'rm -f "$new" "$new.status"' 0
trap 'kill $run $watch 2> /dev/null; exit 143' 1 2 15
# (a link that another put there is not followed)
rm -f "$new" "$new.status"
set -C
if ! sha256sum --check --status "$5"; then
    echo "rv-many: on $(uname -n) the program, the bindings or a specification is another one" >&2
    exit {OTHER_FILES}
fi
"$1" replay "$2" "$3" > "$new" < /dev/null &
run=$!
if [ "$7" = ssh ] && [ -r "/proc/$$/status" ]; then
    # where the sshd above is gone, nobody waits for the run
    above=$$
    while [ "${{above:-1}}" -gt 1 ]; do
        case $(cat "/proc/$above/comm" 2> /dev/null) in sshd*) break ;; esac
        above=$(sed -n 's/^PPid:[^0-9]*//p' "/proc/$above/status" 2> /dev/null)
    done
    while kill -0 "$run"; do
        if [ "${{above:-1}}" -le 1 ] || ! [ -d "/proc/$above" ]; then kill "$run"; fi
        sleep 1
    done > /dev/null 2>&1 &
    watch=$!
fi
wait "$run"
status=$?
[ -z "$watch" ] || kill "$watch" 2> /dev/null
case $status in
0 | 1 | 2 | 6) ;;
3 | 4 | 5)
    # (never in place of what ended well)
    read -r old key rest 2> /dev/null < "$4.status" && [ "$key" = "$6" ] && case $old in 0 | 1 | 2 | 6) exit 0 ;; esac ;;
*) exit "$status" ;;
esac
read -r sum rest << END
$(sha256sum < "$new")
END
[ -n "$sum" ] && printf '%s %s %s\\n' "$status" "$6" "$sum" > "$new.status" && mv -f "$new" "$4" && mv -f "$new.status" "$4.status" || exit {UNWRITTEN}
case $status in 3 | 4 | 5) exit "$status" ;; esac
exit 0
"""
SSH = "-o BatchMode=yes -o ConnectTimeout=10 -o ServerAliveInterval=5 -o ServerAliveCountMax=3"  # a host that is gone or frozen is noticed in 15 seconds


def sum_of(path):
    """The sum of a file's bytes, or None where it cannot be read, or has no end."""
    total = hashlib.sha256()
    if not os.path.isfile(path):
        return None
    try:
        with open(path, "rb") as file:
            for piece in iter(lambda: file.read(1 << 20), b""):
                total.update(piece)
    except OSError:
        return None
    return total.hexdigest()


def sums_text(sums):
    """A list of sums as sha256sum reads it, which begins a line by a backslash where a name has one or a line end."""
    lines = []
    for path, total in sums.items():
        quoted = path.replace("\\", "\\\\").replace("\n", "\\n").replace("\r", "\\r")
        lines.append(f"{chr(92) if quoted != path else ''}{total}  {quoted}\n")
    return "".join(lines)


def create(path):
    """A new file to write: a link that another put there is not followed."""
    with contextlib.suppress(FileNotFoundError):
        os.remove(path)
    return open(path, "xb")


def write_new(path, text):
    """Writes a file aside and moves it."""
    aside = f"{path}.new.{os.getpid()}"
    with writing(path):
        try:
            with create(aside) as file:
                file.write(os.fsencode(text))
            os.replace(aside, path)
        finally:
            with contextlib.suppress(OSError):
                os.remove(aside)


class Run:
    """A replay of a trace, whose report is wanted in a file."""

    def __init__(self, bindings, trace, report, sums):
        """The sums are those of the program, the bindings and the specifications, as text."""
        self.bindings, self.trace, self.report, self.why = bindings, trace, report, None
        try:
            told = os.stat(trace)
            place = f"{told.st_size} {told.st_mtime_ns}"
        except OSError:
            place = "none"
        self.key = hashlib.sha256(os.fsencode(f"{sums}{bindings}\n{trace}\n{place}\n")).hexdigest()

    def status(self):
        """The status of the run of just these files, where it ended by itself, else None."""
        try:
            with open(f"{self.report}.status", encoding="ascii") as file:
                status, key, total = file.read().split()
        except (OSError, ValueError):
            return None
        is_whole = status.isdigit() and int(status) <= 6 and key == self.key and total == sum_of(self.report)
        return int(status) if is_whole else None

    def take_away(self):
        """Takes away what an earlier run left."""
        for path in (f"{self.report}.status", self.report):
            with writing(path), contextlib.suppress(FileNotFoundError):
                os.remove(path)

    def keep(self, aside, status):
        """Keeps a report that was written aside."""
        write_new(f"{self.report}.status", f"{status} {self.key} {sum_of(aside)}\n")
        with writing(self.report):
            os.replace(aside, self.report)

    def said(self):
        """Why there is no verdict, in a few words."""
        if self.why is None:
            return "did not end by itself"
        return CAUSES.get(self.why) or ("it took too long" if self.why == "timeout" else f"it ended with {self.why}")


# ---- this machine


class Here:
    """Runs on this machine, some at once. What it began ends with it."""

    def __init__(self, program, jobs, timeout):
        self.program, self.jobs, self.timeout, self.running, self.lock, self.is_over = program, jobs or os.cpu_count() or 1, timeout, set(), threading.Lock(), False

    def replay(self, run):
        aside = f"{run.report}.new.{socket.gethostname()}.{os.getpid()}"
        try:
            with writing(run.report), create(aside) as file, self.lock:
                if self.is_over:
                    return
                words = [self.program, "replay", run.bindings, run.trace]
                try:
                    process = subprocess.Popen(words, stdin=subprocess.DEVNULL, stdout=file, start_new_session=True)
                except OSError:
                    run.why = 126
                    return
                self.running.add(process)
            try:
                run.why = process.wait(self.timeout)
            except subprocess.TimeoutExpired:
                self.kill(process)
                run.why = "timeout"
            finally:
                with self.lock:
                    self.running.discard(process)
            if run.why in ENDS + OTHER_TRY and not self.is_over:
                run.keep(aside, run.why)
            elif isinstance(run.why, int) and run.why < 0:
                run.why = 128 - run.why
        finally:
            with contextlib.suppress(OSError):
                os.remove(aside)

    @staticmethod
    def kill(process):
        with contextlib.suppress(OSError):
            os.killpg(process.pid, signal.SIGKILL)
        process.wait()

    def run(self, runs):
        shows = sys.stderr is not None and sys.stderr.isatty()
        pool = concurrent.futures.ThreadPoolExecutor(min(self.jobs, len(runs)))
        try:
            waiting = [pool.submit(self.replay, run) for run in runs]
            for count, done in enumerate(concurrent.futures.as_completed(waiting), 1):
                done.result()
                if shows:
                    sys.stderr.write_own(f"\r{count} of {len(runs)} runs" + ("\n" if count == len(runs) else ""))
                    sys.stderr.flush()
        finally:
            self.is_over = True
            pool.shutdown(wait=False, cancel_futures=True)
            with self.lock:
                left = list(self.running)
            for process in left:
                self.kill(process)
            pool.shutdown()


# ---- any engine


def write_runner(folder, sums):
    """The files that commands need beside their own: what a host runs, and the sums that it looks at."""
    write_new(f"{folder}/replay", RUNNER)
    write_new(f"{folder}/sums", sums)


def words_of_run(program, folder, run):
    return ["sh", f"{folder}/replay", program, run.bindings, run.trace, run.report, f"{folder}/sums", run.key]


def command_of(program, folder, run):
    """A line of sh that runs it, from wherever."""
    return f"cd {shlex.quote(os.getcwd())} && {shlex.join(words_of_run(program, folder, run))}"


# ---- other machines


def check_parallel():
    """Trouble where GNU parallel is missing; moreutils has another program of that name."""
    told = subprocess.run(["parallel", "--version"], stdin=subprocess.DEVNULL, capture_output=True, check=False).stdout if shutil.which("parallel") else b""
    if not told.startswith(b"GNU parallel"):
        raise Trouble(UNREADABLE, "--sshloginfile wants GNU parallel (Debian's package parallel)")


def descendants(pid):
    """The processes below one, as /proc has them."""
    below = {}
    for name in filter(str.isdigit, os.listdir("/proc")):
        with contextlib.suppress(OSError, IndexError, ValueError), open(f"/proc/{name}/stat", encoding="utf-8", errors="replace") as file:
            below.setdefault(int(file.read().rpartition(")")[2].split()[1]), []).append(int(name))
    found, waiting = [], [pid]
    while waiting:
        more = below.get(waiting.pop(), [])
        found += more
        waiting += more
    return found


def adopt():
    """Makes this process the parent of those below it whose own parent ends, so that it finds them (Linux alone)."""
    with contextlib.suppress(OSError, AttributeError):
        ctypes.CDLL(None).prctl(PR_SET_CHILD_SUBREAPER, 1, 0, 0, 0)


def end_all():
    """Ends all processes below this one: they are asked, and then killed, until there is none."""
    for name, seconds in ((signal.SIGTERM, 2), (signal.SIGKILL, 10)):
        until = time.monotonic() + seconds
        while (left := descendants(os.getpid())) and time.monotonic() < until:
            for pid in left:
                with contextlib.suppress(OSError):
                    os.kill(pid, name)
            time.sleep(0.1)
            with contextlib.suppress(ChildProcessError):
                while os.waitpid(-1, os.WNOHANG)[0]:
                    pass


class Fleet:
    """Runs on other machines, by GNU parallel over ssh."""

    def __init__(self, program, folder, given):
        self.program, self.folder, self.given = program, folder, given
        if given.transfer and not shutil.which("rsync"):
            raise Trouble(UNREADABLE, "--transfer wants rsync (Debian's package rsync), here and on the hosts")
        check_parallel()

    def columns(self, runs):
        """What stands in the command of a run, by its name: for each run a value. None of it stands in parallel's own text, where {1} would
        be replaced, and what is between {= and =} would be run as Perl."""
        same = {"runner": f"{self.folder}/replay", "program": self.program, "bindings": runs[0].bindings, "sums": f"{self.folder}/sums", "here": os.getcwd()}
        own = {kind: [getattr(run, kind) for run in runs] for kind in ("trace", "report", "key")}
        return own | {kind: [value] * len(runs) for kind, value in same.items()}

    def words(self, runs, files, room):
        """The words of parallel, whose inputs are files of the room, one for each column."""
        given = self.given
        words = ["parallel", "--plain", "--will-cite", "--null", "--jobs", str(given.jobs or "100%"), "--retries", str(given.retries), "--timeout", str(given.timeout)]
        words += ["--joblog", f"{room}/joblog", "--sshdelay", "0.2", "--sshloginfile", given.sshloginfile]
        words += ["--ssh", f"{os.environ.get('PARALLEL_SSH', 'ssh')} {SSH}"]
        columns = self.columns(runs)
        at = {kind: f"{{{number}}}" for number, kind in enumerate(columns, 1)}
        command = " ".join(["sh", *(at[kind] for kind in ("runner", "program", "bindings", "trace", "report", "sums", "key")), "ssh"])
        if given.transfer:
            words += ["--workdir", f"rv-many-{socket.gethostname()}-{os.getpid()}", "--cleanup"]
            words += ["--transferfile", at["trace"], "--return", at["report"], "--return", f"{at['report']}.status"]
            for path in (f"{self.folder}/replay", f"{self.folder}/sums", *files):
                words += ["--basefile", path]
        else:
            command = f"cd {at['here']} && {command}"
        words.append(command)
        for kind, values in columns.items():
            write_new(f"{room}/{kind}", "".join(f"{value}\0" for value in values))
            words += ["::::" if kind == "trace" else "::::+", f"{room}/{kind}"]
        return words

    def check_names(self, names):
        """With --transfer a name is the same here and below a folder of the host."""
        for name in names:
            if os.path.isabs(name) or ".." in name.split("/") or "\n" in name:
                raise Trouble(WRONG_USE, f"--transfer carries what lies below this folder, and {name} does not")

    def run(self, runs, files):
        if self.given.transfer:
            self.check_names([self.folder, *files, *(run.trace for run in runs)])
        # (a folder of this call alone: another call in the same folder has other runs left)
        with writing(self.folder):
            room = tempfile.mkdtemp(prefix="fleet-", dir=self.folder)
        try:
            self.run_in(room, runs, files)
        finally:
            with contextlib.suppress(OSError):
                os.replace(f"{room}/joblog", f"{self.folder}/joblog")
            shutil.rmtree(room, ignore_errors=True)

    def run_in(self, room, runs, files):
        words = self.words(runs, files, room)
        adopt()
        shows = sys.stderr is not None and sys.stderr.isatty()
        outputs = {"stdout": subprocess.PIPE, "stderr": subprocess.STDOUT} if shows else {"stdout": subprocess.DEVNULL if sys.stderr is None else sys.stderr}
        # (the lines are of sh, whatever shell calls)
        process = subprocess.Popen(words, stdin=subprocess.DEVNULL, env={**os.environ, "PARALLEL_SHELL": "/bin/sh"}, start_new_session=True, **outputs)
        try:
            if shows:
                self.show(process.stdout, room, len(runs))
            status = process.wait()
        except BaseException:
            end_all()
            raise
        if status not in range(102):
            raise Trouble(UNREADABLE, f"parallel ended with {status}")
        self.read_log(room, runs)

    def show(self, output, room, count):
        """Shows on a terminal how many runs have ended, and what the hosts say, whose bytes command nothing there."""
        said, told, data = b"", None, None
        while data != b"":
            data = os.read(output.fileno(), 1 << 16) if select.select([output], [], [], 1)[0] else None
            said += data or b""
            # (of a host that ends no line too)
            end = len(said) if data == b"" or len(said) > 1 << 16 else said.rfind(b"\n") + 1
            if end:
                sys.stderr.write_own("\r\033[K")
                sys.stderr.buffer.write(said[:end])
            said, ended = said[end:], self.ended(room)
            if end or ended != told:
                told = ended
                sys.stderr.write_own(f"\r{told} of {count} runs")
                sys.stderr.flush()
        sys.stderr.write_own("\n")

    @staticmethod
    def ended(room):
        """How many runs parallel's log has."""
        with contextlib.suppress(OSError), open(f"{room}/joblog", "rb") as file:
            return len({line.split(b"\t")[0] for line in file if line[:1].isdigit()})
        return 0

    @staticmethod
    def read_log(room, runs):
        """Takes from parallel's log how the runs ended."""
        with contextlib.suppress(OSError), open(f"{room}/joblog", encoding="utf-8", errors="surrogateescape") as file:
            for line in list(file)[1:]:
                cells = line.split("\t")
                if len(cells) > 7 and cells[0].isdigit() and 0 < int(cells[0]) <= len(runs):
                    runs[int(cells[0]) - 1].why = "timeout" if cells[6] == "-1" else int(cells[6]) if cells[6].isdigit() else None


ENDED_BY = (signal.SIGINT, signal.SIGTERM, signal.SIGHUP)


@contextlib.contextmanager
def ended_by_signals():
    """SIGINT, SIGTERM and SIGHUP end what is done within, with all that it began; a second one does not cut that."""

    def interrupt(number, _):
        for it in ENDED_BY:
            signal.signal(it, signal.SIG_IGN)
        if number == signal.SIGINT:
            raise KeyboardInterrupt
        raise Trouble(UNREADABLE, "interrupted: the next call runs what did not end well")

    # (what was ignored, as by nohup, stays so)
    before = {it: signal.getsignal(it) for it in ENDED_BY if signal.getsignal(it) != signal.SIG_IGN}
    for it in before:
        signal.signal(it, interrupt)
    try:
        yield
    finally:
        for it, handler in before.items():
            signal.signal(it, handler)
