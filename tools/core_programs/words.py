"""What a command says: to standard output, to standard error, and about its own use."""

import os
import sys


def say(line):
    print(line, file=sys.stderr)


def put(text):
    """To standard output. That its reader has gone is no fault."""
    try:
        sys.stdout.write(text)
        sys.stdout.flush()
    except BrokenPipeError:
        os.dup2(os.open(os.devnull, os.O_WRONLY), sys.stdout.fileno())
    except OSError as reason:
        os.dup2(os.open(os.devnull, os.O_WRONLY), sys.stdout.fileno())
        sys.exit(f"standard output cannot be written: {reason.strerror}")


def asks_for_help(words):
    return "-h" in words or "--help" in words


def wrong_use(command, wrong, text):
    """Says what is wrong with the words, and how they should be; the exit status."""
    say(f"{command}: {wrong}\nusage: {text.splitlines()[1].strip()}\n{command} -h says more")
    return 2
