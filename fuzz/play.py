"""Starts the program in a folder of its own, with limits on its time, memory and files, and takes what it leaves."""
import os
import resource
import signal

MEMORY = 1 << 30
SECONDS = 20
WAIT = 600
FILE_MOST = 256 << 20


class Ran:
    """A call that ended: its words, status (below 0 for a signal), what it put, and its greatest memory in KB."""

    def __init__(self, words, status, out, err, memory):
        self.words, self.status, self.out, self.err, self.memory = words, status, out, err, memory


class TimeOut(Exception):
    pass


def late(number, frame):
    raise TimeOut()


def limit_self():
    """Sets the limits that the program takes over."""
    resource.setrlimit(resource.RLIMIT_AS, (MEMORY, MEMORY))
    resource.setrlimit(resource.RLIMIT_FSIZE, (FILE_MOST, FILE_MOST))
    resource.setrlimit(resource.RLIMIT_CORE, (0, 0))
    signal.signal(signal.SIGALRM, late)


class Player:
    def __init__(self, program, room):
        self.program, self.room = os.path.abspath(program), room
        os.chdir(room)
        self.out, self.err = os.memfd_create("out"), os.memfd_create("err")
        self.actions = [(os.POSIX_SPAWN_OPEN, 0, "/dev/null", os.O_RDONLY, 0), (os.POSIX_SPAWN_DUP2, self.out, 1),
                        (os.POSIX_SPAWN_DUP2, self.err, 2)]

    def put(self, name, bytes_of):
        with open(name, "wb") as file:
            file.write(bytes_of)

    def get(self, name):
        with open(name, "rb") as file:
            return file.read()

    def clear(self):
        for name in os.listdir("."):
            os.unlink(name)

    def call(self, *words):
        for stream in (self.out, self.err):
            os.ftruncate(stream, 0)
            os.lseek(stream, 0, os.SEEK_SET)
        pid = os.posix_spawn(self.program, ["atac", *words], {}, file_actions=self.actions)
        try:
            resource.prlimit(pid, resource.RLIMIT_CPU, (SECONDS, SECONDS))
        except ProcessLookupError:
            pass
        signal.setitimer(signal.ITIMER_REAL, WAIT)
        try:
            _, state, used = os.wait4(pid, 0)
        except TimeOut:
            os.kill(pid, signal.SIGKILL)
            _, state, used = os.wait4(pid, 0)
        finally:
            signal.setitimer(signal.ITIMER_REAL, 0)
        return Ran(words, os.waitstatus_to_exitcode(state), self.all_of(self.out), self.all_of(self.err), used.ru_maxrss)

    def all_of(self, stream):
        return os.pread(stream, os.fstat(stream).st_size, 0)
