"""Runs a built program on inputs, and tells its processor time and its memory, for the scripts beside this file."""
import os
import subprocess
import sys

GNU_TIME = "/usr/bin/time"
MIB = 1024 * 1024


def milliseconds(command, path, status=0):
    """The processor time of one run of the command over the file, in milliseconds. It must end with the status."""
    child = os.fork()
    if child == 0:
        os.dup2(os.open(path, os.O_RDONLY), 0)
        os.dup2(os.open(os.devnull, os.O_WRONLY), 1)
        os.dup2(1, 2)
        os.execv(command[0], command)
    _, ended, usage = os.wait4(child, 0)
    if os.waitstatus_to_exitcode(ended) != status:
        sys.exit(f"{' '.join(command)} ended with {os.waitstatus_to_exitcode(ended)}, and not with {status}, on {path}")
    return (usage.ru_utime + usage.ru_stime) * 1000


def least(command, path, runs, status=0):
    """The least processor time of some runs, in milliseconds. Each must end with the status."""
    return min(milliseconds(command, path, status) for _ in range(runs))


def resident(command, path):
    """The most memory that a run of the command over the file holds, in bytes; None without GNU time.

    A child that Python forks counts Python's own pages too, so that its own count won't do.
    """
    if not os.access(GNU_TIME, os.X_OK):
        return None
    with open(path, "rb") as file:
        run = subprocess.run(
            [GNU_TIME, "-f", "%M", *command], stdin=file, stdout=subprocess.DEVNULL, stderr=subprocess.PIPE, check=False
        )
    return int(run.stderr.split()[-1]) * 1024


def program(path, words=()):
    """The command of a program by its path and the words that it is given."""
    return [os.path.abspath(path), *words]
