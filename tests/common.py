"""What the test programs share: the program under test, calls of it in a folder of their own, workers, and the last line."""
import argparse
import multiprocessing
import os
import shutil
import subprocess
import sys
import tempfile
import time

import model

TOP = os.path.dirname(os.path.dirname(os.path.abspath(__file__)))
BUILT = os.path.join(TOP, "crates", "hyder", "out", "hyder")
MEMORY = "/dev/shm"

FIRST = b"shape 2 2 8\nservers 1\nclient 1\nbegin\nput 1 a\nend\n"
SECOND = b"shape 2 2 8\nservers 1\nclient 1\nbegin\nget 1\nput 2 b\nend\n"
ONE_PUT = b"shape 1 1 8\nservers 1\nclient 1\nbegin\nput 1 a\nend\n"


def parsed(about):
    """The options that each test program has."""
    parser = argparse.ArgumentParser(description=about)
    parser.add_argument("--hyder", help="the built program (default: the proved one, which is built where it isn't there)")
    parser.add_argument("--jobs", type=int, default=os.cpu_count(), help="how many workers")
    parser.add_argument("--seed", type=int, default=1, help="of the random choices")
    return parser


def program_of(asked):
    """The program under test."""
    if asked.hyder:
        return os.path.abspath(asked.hyder)
    if not os.path.exists(BUILT):
        with tempfile.TemporaryDirectory() as folder:
            subprocess.run([os.path.join(TOP, "hyder"), "recover"], cwd=folder, stdout=subprocess.DEVNULL, check=True)
    return BUILT


def new_folder():
    """An empty folder, in memory where the machine has a place for that."""
    return tempfile.mkdtemp(prefix="hyder-test-", dir=MEMORY if os.access(MEMORY, os.W_OK) else None)


def content(path):
    try:
        with open(path, "rb") as file:
            return file.read()
    except FileNotFoundError:
        return None


def put_file(path, data):
    """Writes a file, or takes it away where there is no data."""
    if data is None:
        if os.path.exists(path):
            os.remove(path)
        return
    with open(path, "wb") as file:
        file.write(data)


class Caller:
    """Calls the program on real files, in a folder that becomes the process's own."""

    def __init__(self, program):
        self.program = program
        self.folder = new_folder()
        os.chdir(self.folder)
        self.source = None

    def start(self, words, source, log, points, env=None, spare=None):
        put_file("hyder.log", log)
        put_file("hyder.points", points)
        put_file("hyder.spare", spare)
        if source != self.source:
            put_file("in", source)
            self.source = source
        files = [(0, "in", os.O_RDONLY), (1, "out", os.O_WRONLY | os.O_CREAT | os.O_TRUNC), (2, "err", os.O_WRONLY | os.O_CREAT | os.O_TRUNC)]
        actions = [(os.POSIX_SPAWN_OPEN, number, name, how, 0o600) for number, name, how in files]
        return os.posix_spawn(self.program, ["hyder", *words], env or {}, file_actions=actions)

    def call(self, words, source=b"", log=None, points=None, env=None, spare=None):
        """The answer of one call on these files. Something on standard error, or an end by a signal, is status -1."""
        _, ended = os.waitpid(self.start(words, source, log, points, env, spare), 0)
        status = os.waitstatus_to_exitcode(ended)
        if os.path.getsize("err"):
            status = -1
        return model.Answer(status, content("out"), content("hyder.log"), content("hyder.points"), content("hyder.spare"))

    def close(self):
        os.chdir("/")
        shutil.rmtree(self.folder, ignore_errors=True)


def begun_copy(spare, whole):
    """How many entries a spare file has, and what is wrong with it: it has to be unborn, or a beginning of the whole copy."""
    if model.is_unborn(spare):
        return 0, []
    try:
        shape, bodies, _ = model.read_log(spare)
    except model.BadPage as bad:
        return 0, ["page %d of the spare file is refused: %s" % (bad.page, bad.why)]
    wanted_shape, wanted, _ = model.read_log(whole)
    if (shape, model.cut_in(spare)) != (wanted_shape, model.cut_in(whole)):
        return len(bodies), ["another header"]
    return len(bodies), [] if bodies == wanted[:len(bodies)] else ["%d entries are not the first of the copy" % len(bodies)]


def difference(wanted, found):
    """What an answer differs in from the one wanted, or none."""
    if wanted == found:
        return None
    parts = [name for name in wanted._fields if getattr(wanted, name) != getattr(found, name)]
    return "%s: wanted status %d %r, found status %d %r" % (", ".join(parts), wanted.status, wanted.text[:80], found.status, found.text[:80])


CALLER = None


def start_worker(program):
    global CALLER
    CALLER = Caller(program)


def caller():
    """The caller of this worker."""
    return CALLER


def close_worker(_):
    CALLER.close()
    time.sleep(0.1)


def each(asked, work, tasks, chunk=1, count=0):
    """What `work` gives for each task, by workers with a caller each. It gives a count, to be added up, and a list of what is wrong."""
    wrong = []
    with multiprocessing.Pool(asked.jobs, start_worker, (program_of(asked),)) as pool:
        for done, differing in pool.imap_unordered(work, tasks, chunk):
            count += done
            wrong += differing
            for line in differing[:3]:
                print(line, flush=True)
        pool.map(close_worker, range(asked.jobs), 1)
    return count, wrong


def finish(name, began, count, wrong):
    """The last line, and the exit status."""
    print("%s: %d tried, %d wrong, %.0f s" % (name, count, len(wrong), time.monotonic() - began))
    sys.exit(1 if wrong else 0)
