"""What the commands of this folder that read a derivation have in common: their words, reading a file, and their exit statuses."""
import os
import sys

import derivation

# Exit statuses, with the numbers that the program gives them.
NO_DERIVATION, NOT_READ, NOT_WRITTEN, USAGE = 3, 4, 5, 6
# The launcher's own: a tool of the system isn't there, or failed.
NO_TOOL = 72


class Fault(Exception):
    """A fault to be told, with the exit status that it has."""

    def __init__(self, status, text):
        super().__init__(text)
        self.status = status


def words_of(words, usage, flags, valued, wanted):
    """The file words and a table of options, each at most once. Where the words aren't right, the usage is told. `-h` and `--help` print it.
    `wanted` is how many files there must be; None allows any number."""
    files, options = [], {}
    for word in words:
        name, sign, value = word.partition("=")
        key = name + sign
        if word in ("-h", "--help"):
            print(usage.strip())
            sys.exit(0)
        if word == "-" or word and not word.startswith("-"):
            files.append(word)
        elif key not in options and (word in flags or sign and value and key in valued):
            options[key] = value
        else:
            raise Fault(USAGE, f"{word!r} is no word of this command\n{usage.strip().splitlines()[0]}")
    if wanted is not None and len(files) != wanted:
        raise Fault(USAGE, usage.strip().splitlines()[0])
    return files, options


def read_file(path):
    """A file as text; `-` is standard input. Bytes that are no text are kept apart, so that they come out as they went in."""
    try:
        with (sys.stdin.buffer if path == "-" else open(path, "rb")) as it:
            return it.read().decode("utf-8", "surrogateescape")
    except OSError as it:
        raise Fault(NOT_READ, f"{path}: {it.strerror}") from None


def tell(text):
    print(f"telmukhai: {text}", file=sys.stderr)


def end(status, text):
    """Ends with a status, after its reason was told."""
    tell(text)
    sys.exit(status)


def ran(main):
    """Runs a command over the words after its name, and ends with the status that it answers, 0 where it answers none."""
    sys.stdout.reconfigure(encoding="utf-8", errors="surrogateescape")
    try:
        status = main(sys.argv[1:])
        sys.stdout.flush()
        sys.exit(status)
    except Fault as it:
        end(it.status, it)
    except derivation.Unreadable as it:
        end(NO_DERIVATION, f"no derivation: line {it}" if str(it)[:1].isdigit() else f"no derivation: {it}")
    except OSError as it:
        # What is left to write is let go, so that the interpreter doesn't tell the same fault again as it ends.
        os.dup2(os.open(os.devnull, os.O_WRONLY), sys.stdout.fileno())
        end(NOT_WRITTEN, f"{it.filename or 'the output'} couldn't be written: {it.strerror}")
    except KeyboardInterrupt:
        sys.exit(130)
