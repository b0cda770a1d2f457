"""Processes that work side by side. Unlike those of the standard library's pools, they can be ended while they work."""
import multiprocessing
import signal
from multiprocessing.connection import wait

from find.errors import WrongUse


class WorkerEnded(Exception):
    """A process has ended by itself, or was ended from outside."""


def work(connection, make, given):
    """The life of a process: makes the function that works, and calls it for each task. Ctrl-C is for the process that began it."""
    signal.signal(signal.SIGINT, signal.SIG_IGN)
    function = make(*given)
    while True:
        task = connection.recv()
        try:
            result = function(*task)
        except WrongUse as wrong:
            result = wrong
        connection.send((task, result))


class Pool:
    """Some processes, each of which has at most one task."""

    def __init__(self, count, make, given):
        context = multiprocessing.get_context("fork")
        self.processes, self.idle, self.busy = [], [], []
        for _ in range(count):
            own, other = context.Pipe()
            process = context.Process(target=work, args=(other, make, given), daemon=True)
            process.start()
            other.close()
            self.processes.append(process)
            self.idle.append(own)

    def submit(self, task):
        """Gives a task to a process that has none."""
        connection = self.idle.pop()
        connection.send(task)
        self.busy.append(connection)

    def results(self):
        """The tasks that are done, each with its result. What a process refuses is refused here, too."""
        found = []
        for connection in wait(self.busy, timeout=0):
            try:
                task, result = connection.recv()
            except (EOFError, ConnectionResetError):
                raise WorkerEnded from None
            if isinstance(result, WrongUse):
                raise result
            found.append((task, result))
            self.busy.remove(connection)
            self.idle.append(connection)
        return found

    def close(self):
        """Ends the processes."""
        for process in self.processes:
            process.kill()
        for process in self.processes:
            process.join()
