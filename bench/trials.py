"""What faults.py and random_trials.py share: runs of the program, a count of them, and an end that leaves nothing behind."""
import os
import resource
import signal
import subprocess
import sys
import tempfile

SECONDS = 120
MEMORY = 4 << 30  # at most, for a run and for the script itself
MOST_PRINTED = 40


class Stop(Exception):
    """An end before the time, with a status and a line."""

    def __init__(self, status, line):
        super().__init__(line)
        self.status = status


def tell(line):
    print(line, flush=True)


class Program:
    """The program, a library that is preloaded to it, if any, and how many runs there were and which of them failed."""

    def __init__(self, file, library=None):
        self.file, self.library, self.runs, self.failed = os.fsencode(file), library, 0, 0
        self.settings = {**os.environ, **({"LD_PRELOAD": library} if library else {})}

    def start(self, words, plans="", streams=None, data=b""):
        """Runs words; gives the status (None where it did not end), the text, and whether the last plan of refusals was carried out."""
        if not self.library:
            how = {"stdin": subprocess.PIPE, "stdout": subprocess.PIPE, "stderr": subprocess.DEVNULL, "close_fds": False}
            return *ended(subprocess.Popen([self.file, *words], env=self.settings, **how), data), False
        told, to = os.pipe()
        settings = {**self.settings, "REFUSE": plans, "REFUSE_TOLD": str(to)}
        with tempfile.TemporaryFile() as source:
            source.write(data)
            source.seek(0)
            how = {"stdin": source, "stdout": subprocess.PIPE, "stderr": subprocess.DEVNULL, **(streams or {})}
            child = subprocess.Popen([self.file, *words], env=settings, pass_fds=[to], **how)
            os.close(to)
            status, text = ended(child)
        touched = os.read(told, 1) == b"!"
        os.close(told)
        return status, text, touched

    def check(self, what, fault):
        """Counts a run, and prints the fault that it had, if any."""
        self.runs += 1
        if fault:
            self.failed += 1
            if self.failed <= MOST_PRINTED:
                tell(f"  FAILED {what}: {fault}")

    def summary(self):
        tell(f"{self.runs} cases, {self.failed} failed")
        return 1 if self.failed else 0


def ended(child, data=None):
    """The status of a child, None where it had to be ended, and its text."""
    status = None
    try:
        text = child.communicate(data, timeout=SECONDS)[0]
        status = child.returncode
    except subprocess.TimeoutExpired:
        child.kill()
        text = child.communicate()[0]
    finally:
        if child.poll() is None:
            child.kill()
            child.wait()
    return status, text or b""


def end_by(number, _):
    sys.exit(128 + number)


def run(name, main, words):
    """Ends with the status of `main`; by a signal, and where its lines are not taken, it leaves nothing behind either."""
    resource.setrlimit(resource.RLIMIT_CORE, (0, 0))
    resource.setrlimit(resource.RLIMIT_AS, (MEMORY, MEMORY))
    for number in (signal.SIGTERM, signal.SIGHUP, signal.SIGINT):
        if signal.getsignal(number) != signal.SIG_IGN:
            signal.signal(number, end_by)
    try:
        status = main(*words)
    except (Stop, OSError, subprocess.CalledProcessError) as error:
        status = error.status if isinstance(error, Stop) else 4
        try:
            print(f"{name}: {error}", file=sys.stderr, flush=True)
        except OSError:
            pass
        os.dup2(os.open(os.devnull, os.O_WRONLY), 1)  # what is left over is not tried again at the end
    sys.exit(status)
