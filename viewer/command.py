"""What ./page, ./drive and ./shiviz have in common: their words, and their ends, each of which is a sentence."""
import contextlib
import os
import sys


MOST = 1 << 28  # bytes of standard input, as many as mx reads


class Fault(Exception):
    """Why a command does not do what it is for, in words for a reader."""


def given(name):
    """The lines of standard input, as bytes. At a terminal, says what they have to be."""
    if sys.stdin is None:
        raise Fault("standard input is closed")
    if sys.stdin.isatty():
        say(f"{name}: it waits for the lines that mx prints with --json, up to Ctrl-D; ./{name} --help shows how")
    return bounded(sys.stdin.buffer)


def bounded(source):
    """The lines of a source that has no more bytes than it may."""
    left = MOST
    while text := source.readline(left + 1):
        left -= len(text)
        if left < 0:
            raise OSError(f"standard input has more than {MOST} bytes")
        yield text


def put(data):
    """Writes bytes to standard output at once, so that nothing is left to be written at the end."""
    if sys.stdout is None:
        raise Fault("standard output is closed")
    while data:
        data = data[os.write(1, data):]


def say(text):
    """Writes lines to standard error, if that can be written; characters that are not seen are escaped."""
    seen = "".join(it if it.isprintable() or it == "\n" else f"\\u{{{ord(it):x}}}" for it in text)
    with contextlib.suppress(OSError, AttributeError):
        sys.stderr.write(f"{seen}\n")


def main(name, usage, act, reads=False):
    """Calls `act` with the words of the command line or, if it reads, with the lines of standard input, and ends;
    `--help` prints the usage instead."""
    words = sys.argv[1:]
    try:
        if {"-h", "--help"} & set(words):
            put(f"{usage}\n".encode())
        elif not reads:
            act(*words)
        elif words:
            say(f"{name}: it takes no words, and reads what mx prints; ./{name} --help shows how")
            sys.exit(2)
        else:
            act(given(name))
    except BrokenPipeError:  # whoever reads has enough
        sys.exit(1)
    except (Fault, OSError) as fault:
        say(f"{name}: {fault}")
        sys.exit(1)
    except KeyboardInterrupt:
        sys.exit(130)
