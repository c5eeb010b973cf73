"""Says what a run takes: cost.py INPUT ERRORS PROGRAM WORDS.. writes its processor time in seconds, its memory in
kilobytes and its status. It is a process of its own since the system counts for a run what stood before the program in
its place: a copy of this small process, and not of the driver with all its texts."""
import os
import signal
import sys

# A run that takes longer is ended.
SECONDS = 60


def main(source: str, errors: str, *words: str) -> None:
    """Runs the program on a file, its output thrown away, and writes what it took."""
    pid = os.posix_spawn(
        words[0],
        words,
        os.environ,
        file_actions=[
            (os.POSIX_SPAWN_OPEN, 0, source, os.O_RDONLY, 0),
            (os.POSIX_SPAWN_OPEN, 1, "/dev/null", os.O_WRONLY, 0),
            (
                os.POSIX_SPAWN_OPEN,
                2,
                errors,
                os.O_WRONLY | os.O_CREAT | os.O_TRUNC,
                0o600,
            ),
        ],
    )
    signal.signal(signal.SIGALRM, lambda *_: os.kill(pid, signal.SIGKILL))
    signal.alarm(SECONDS)
    _, status, usage = os.wait4(pid, 0)
    print(
        usage.ru_utime + usage.ru_stime,
        usage.ru_maxrss,
        os.waitstatus_to_exitcode(status),
    )


if __name__ == "__main__":
    main(*sys.argv[1:])
