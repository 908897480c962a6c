"""What the tools have in common: how their words are read, and how one ends where its user has something to put right."""
import argparse
import importlib.util
import os
import shutil
import subprocess
import sys

ROOT = os.path.dirname(os.path.dirname(os.path.realpath(__file__)))
# The statuses of a tool whose words, files or packages are wrong, and of one that was interrupted.
WRONG, INTERRUPTED = 2, 130


class Mistake(Exception):
    """What the user has to put right, and how, in one line."""


class Words(argparse.ArgumentParser):
    """The words of a tool, by the text at the head of its file."""

    def __init__(self, text):
        super().__init__(description=text.strip(), formatter_class=argparse.RawDescriptionHelpFormatter, allow_abbrev=False)

    def add_program(self, path="jt808", text="default: ./jt808, which builds it where it is not built"):
        self.add_argument("--program", metavar="PROGRAM", type=program, default=f"{ROOT}/{path}", help=text)

    def error(self, message):
        self.exit(WRONG, f"{name()}: {message}; {self.prog} --help has the words\n")


def name():
    """The name of the tool, which stands before what it says."""
    return os.path.splitext(os.path.basename(sys.argv[0]))[0]


def program(path):
    """The path of a program, whole: a type of argparse."""
    if not os.path.isfile(path):
        raise argparse.ArgumentTypeError(f"{path} is not there: ./jt808 and ./dewfelt build the programs, crates/NAME/out/NAME")
    if not os.access(path, os.X_OK):
        raise argparse.ArgumentTypeError(f"{path} is no program: name crates/NAME/out/NAME, or one of the scripts jt808 and dewfelt")
    return os.path.realpath(path)


def folder(path):
    """The path of a folder: a type of argparse."""
    if not os.path.isdir(path):
        raise argparse.ArgumentTypeError(f"{path} is no folder: name one that is there")
    return path


def number(text):
    """A whole number from 0 on: a type of argparse."""
    if not text.isascii() or not text.isdecimal():
        raise argparse.ArgumentTypeError(f"{text} is no whole number from 0 on")
    return int(text)


def positive(text):
    """A whole number from 1 on: a type of argparse."""
    if not text.isascii() or not text.isdecimal() or int(text) == 0:
        raise argparse.ArgumentTypeError(f"{text} is no whole number from 1 on")
    return int(text)


def address(text):
    """A host and a port with `:` between them: a type of argparse."""
    host, colon, port = text.rpartition(":")
    if not host or not port.isdecimal() or not 0 < int(port) < 1 << 16:
        raise argparse.ArgumentTypeError(f"{text} is no ADDRESS:PORT, as 127.0.0.1:8080")
    return text


def one_of(names):
    """A text that is one of these: a type of argparse."""

    def read(text):
        if text not in names:
            raise argparse.ArgumentTypeError(f"{text} is none of: {', '.join(names)}")
        return text

    return read


def want_module(module, package):
    """Stops where a module is missing, of which Debian has a package."""
    if importlib.util.find_spec(module) is None:
        raise Mistake(f"Python's module {module} is missing: sudo apt-get install {package}, and run it by Debian's /usr/bin/python3")


def want_command(command, package):
    """Stops where a command is missing, of which Debian has a package."""
    if shutil.which(command) is None:
        raise Mistake(f"the command {command} is missing: sudo apt-get install {package}")


def want_kit():
    """Stops where no Rattle kit is there."""
    if shutil.which("rt") is None:
        raise Mistake("rt, the command of a Rattle kit, is not on the path: put the kit's bin/ there")


def tell(why):
    print(f"{name()}: {why}", file=sys.stderr, flush=True)


def run(main, *given):
    """Runs a tool, and ends with the status that it gives."""
    try:
        status = main(*given)
        sys.stdout.flush()
    except BrokenPipeError:
        # Whoever read the output has read enough.
        os.dup2(os.open(os.devnull, os.O_WRONLY), sys.stdout.fileno())
        status = 0
    except (Mistake, OSError, UnicodeDecodeError, subprocess.CalledProcessError) as why:
        tell(why)
        status = WRONG
    except KeyboardInterrupt:
        tell("interrupted")
        status = INTERRUPTED
    sys.exit(status)
