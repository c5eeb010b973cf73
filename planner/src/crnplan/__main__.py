"""Starts the command, as `python -m crnplan` and the script crnplan do, so that an interrupt also ends it while it loads."""
import os
import signal


def end(number: int, frame: object) -> None:
    """Ends the process as `cli.main` does if it is interrupted."""
    os.write(2, b"crnplan: interrupted\n")
    os._exit(128 + number)


def main() -> None:
    """Loads the command, and runs it."""
    usual = signal.getsignal(signal.SIGINT)
    if usual is signal.default_int_handler:
        signal.signal(signal.SIGINT, end)
    from .cli import main as run

    signal.signal(signal.SIGINT, usual)
    run()


if __name__ == "__main__":
    main()
