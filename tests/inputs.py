"""Tries a program on inputs that cannot be read, arguments that it does not know and outputs that cannot be written: failures(program, text, printed, empty)

`text` is an input and `printed` what is printed for it, `empty` what is printed for an empty text. Where there is no text to work on, nothing may stand on
standard output and a message must stand on standard error.
"""
import os
import pty
import subprocess
import tempfile
import tty


def run(program, *arguments, **how):
    done = subprocess.run([program, *arguments], stdout=how.pop("stdout", subprocess.PIPE), stderr=subprocess.PIPE, timeout=120, **how)
    return done.stdout or b"", done.stderr


def on_file(program, path, flags=os.O_RDONLY):
    opened = os.open(path, flags)
    try:
        return run(program, stdin=opened)
    finally:
        os.close(opened)


def fails_in_the_middle(program, text):
    """The reading end of a terminal gives the bytes that were written to the other end, and then an input/output error once that end is closed."""
    reading, writing = pty.openpty()
    try:
        tty.setraw(writing)
        os.write(writing, text[: min(len(text) - 1, 1000)])
        os.close(writing)
        return run(program, stdin=reading)
    finally:
        os.close(reading)


def nothing(answer):
    return answer[0] == b"" and answer[1] != b""


def failures(program, text, printed, empty):
    """The names of what failed, with what was seen."""
    program = os.path.abspath(program)
    with tempfile.TemporaryDirectory() as folder:
        named = os.path.join(folder, "named")
        with open(named, "wb") as f:
            f.write(text)
        full = os.open("/dev/full", os.O_WRONLY)
        said = {
            "an unknown option": (nothing, run(program, "-x", input=text)),
            "an unknown long option": (nothing, run(program, "--", input=text)),
            "two arguments": (nothing, run(program, named, named, input=text)),
            "an empty argument": (nothing, run(program, "", input=text)),
            "an argument that is too long": (nothing, run(program, "x" * 5000, input=text)),
            "a file that is missing": (nothing, run(program, os.path.join(folder, "missing"), input=text)),
            "a directory as the file": (nothing, run(program, folder, input=text)),
            "a closed standard input": (nothing, run(program, stdin=subprocess.DEVNULL, preexec_fn=lambda: os.close(0))),
            "a directory as standard input": (nothing, on_file(program, folder)),
            "an error at once": (nothing, on_file(program, "/proc/self/mem")),
            "an error in the middle of reading": (nothing, fails_in_the_middle(program, text)),
            "a full device as standard output": (nothing, run(program, input=text, stdout=full)),
            "a closed standard output": (nothing, run(program, input=text, preexec_fn=lambda: os.close(1))),
            "an empty input": (lambda a: a == (empty, b""), on_file(program, "/dev/null")),
            "standard input": (lambda a: a == (printed, b""), run(program, input=text)),
            "- as the argument": (lambda a: a == (printed, b""), run(program, "-", input=text)),
            "a file as the argument": (lambda a: a == (printed, b""), run(program, named, stdin=subprocess.DEVNULL)),
            "a file and a closed standard input": (lambda a: a == (printed, b""), run(program, named, stdin=subprocess.DEVNULL, preexec_fn=lambda: os.close(0))),
            "-h": (lambda a: a[0].startswith(b"usage: ") and a[1] == b"", run(program, "-h", input=text)),
            "--help": (lambda a: a[0].startswith(b"usage: ") and a[1] == b"", run(program, "--help", input=text)),
        }
        os.close(full)
    return len(said), ["%s: got %r" % (name, answer) for name, (right, answer) in said.items() if not right(answer)]
