#!/usr/bin/env python3
"""Tests the built program `repl` over pipes: `python3 tools/repl_by_pipe.py` at the top of the repository.

It tests what no contract covers. The program answers a command before it reads the next line, and does not answer an
incomplete line. The arguments and exit statuses are tested too. REPL_PROGRAM names another program. The last line is `N
passed, M failed`.
"""
import os
import pathlib
import select
import subprocess
import sys
import time

TOP = pathlib.Path(__file__).resolve().parent.parent
PROGRAM = os.environ.get("REPL_PROGRAM", str(TOP / "crates/cedar_repl_cli/out/cedar_repl_cli"))
# The seconds to wait for an answer, and to wait before concluding that there is none.
TIMEOUT, SILENCE = 20, 0.3


class Failure(Exception):
    """The program did not behave as expected."""


class Repl:
    """The program, connected by two pipes that stay open for a whole conversation."""

    def __init__(self, *arguments):
        self.program = subprocess.Popen([PROGRAM, *arguments], stdin=subprocess.PIPE, stdout=subprocess.PIPE, stderr=subprocess.PIPE, bufsize=0)
        os.set_blocking(self.program.stdout.fileno(), False)

    def __enter__(self):
        return self

    def __exit__(self, *_):
        if self.program.poll() is None:
            self.program.kill()
        self.program.wait()
        for pipe in (self.program.stdin, self.program.stdout, self.program.stderr):
            pipe.close()

    def write(self, line):
        self.program.stdin.write(line)

    def expect_output(self, line, expected):
        """Writes bytes, and checks that the program answers exactly the expected bytes."""
        self.write(line)
        output, end = b"", time.monotonic() + TIMEOUT
        while len(output) < len(expected) and time.monotonic() < end:
            if select.select([self.program.stdout], [], [], 0.1)[0]:
                part = self.program.stdout.read(65536)
                if not part:
                    break
                output += part
        if output != expected:
            raise Failure(f"the output for {line!r} is {output!r}, expected {expected!r}")

    def expect_no_output(self, line):
        """Writes bytes, and checks that the program does not answer."""
        self.write(line)
        if select.select([self.program.stdout], [], [], SILENCE)[0]:
            raise Failure(f"the output for {line!r} is {self.program.stdout.read(65536)!r}, expected none")

    def expect_end(self, status, close_input=True, expected=b"", stderr_part=None):
        """Closes the input unless the program ends by itself, and checks the rest of its output and its status."""
        if close_input:
            self.program.stdin.close()
        os.set_blocking(self.program.stdout.fileno(), True)
        output, exit_status = self.program.stdout.read(), self.program.wait(TIMEOUT)
        if (output, exit_status) != (expected, status):
            raise Failure(f"the output ends with {output!r}, exit status {exit_status}, expected {expected!r}, exit status {status}")
        error_output = self.program.stderr.read()
        if stderr_part is None and error_output or stderr_part is not None and stderr_part not in error_output:
            raise Failure(f"standard error is {error_output!r}, expected {stderr_part!r}")


def each_command_has_its_output():
    with Repl() as repl:
        repl.expect_output(b'ent\tA::"a"\tA::"b"\nbuild\n', b"ok 1\n")
        repl.expect_output(b'anc\tA::"a"\n', b'anc\tA::"b"\n')
        repl.expect_no_output(b'ent\tA::"b"\tA::"c"\n')
        repl.expect_output(b"add\n", b"ok 2\n")
        for _ in range(200):
            repl.expect_output(b'anc\tA::"a"\n', b'anc\tA::"b"\tA::"c"\n')
        repl.expect_end(0)


def incomplete_line_has_no_output():
    with Repl() as repl:
        for part in (b"b", b"ui", b"ld"):
            repl.expect_no_output(part)
        repl.expect_output(b"\n", b"ok 0\n")
        repl.expect_no_output(b'anc\tA::"')
        repl.expect_output(b'a"\nanc\tA::"b"\nids', b"no entity\nno entity\n")
        repl.expect_output(b"\n", b"bodies\npolicies\n")
        repl.expect_end(0)


def empty_line_has_no_output():
    with Repl() as repl:
        repl.expect_no_output(b"\n\n\n")
        repl.expect_output(b"frob\n", b"line 4: not a command\n")
        repl.expect_end(0)


def many_lines_in_one_write_have_all_outputs():
    with Repl() as repl:
        repl.expect_output(b"build\n" * 3000, b"ok 0\n" * 3000)
        repl.expect_end(0)


def last_line_needs_no_line_feed():
    with Repl() as repl:
        repl.expect_output(b"build\n", b"ok 0\n")
        repl.expect_no_output(b"add")
        repl.expect_end(0, expected=b"ok 0\n")


def invalid_line_changes_nothing():
    with Repl() as repl:
        repl.expect_output(b'ent\tA::"a"\nbuild\n', b"ok 1\n")
        repl.expect_output(b'anc A::"a"\n', b"line 3: not a command\n")
        repl.expect_output(b"build\r\n", b"line 4: not a command\n")
        repl.expect_output(b"\xff\0\n", b"line 5: not a command\n")
        repl.expect_output(b'anc\tA::"a"\n', b"anc\n")
        repl.expect_end(0)


def strict_mode_ends_at_an_invalid_line():
    with Repl("--strict") as repl:
        repl.expect_output(b"build\n", b"ok 0\n")
        repl.write(b"frob\n")
        repl.expect_end(2, close_input=False, expected=b"line 2: not a command\n")
    with Repl("--strict") as repl:
        repl.expect_output(b"build\n\n", b"ok 0\n")
        repl.expect_end(0)
    with Repl("--strict") as repl:
        repl.write(b"help\nbuild\n")
        repl.expect_end(2, close_input=False, expected=b"line 1: not a command\n")
    with Repl("--strict") as repl:
        repl.expect_no_output(b"frob")
        repl.expect_end(2, expected=b"line 1: not a command\n")


def help_is_printed():
    text = subprocess.run([PROGRAM, "--help"], stdin=subprocess.DEVNULL, capture_output=True, timeout=TIMEOUT)
    if text.returncode or text.stderr or b"anc UID" not in text.stdout:
        raise Failure(f"the output for --help is {text.stdout!r}, standard error {text.stderr!r}, exit status {text.returncode}")
    with Repl() as repl:
        repl.expect_output(b"help\n", text.stdout)
        repl.expect_output(b"help \n", b"line 2: not a command\n")
        parts = text.stdout.partition(b"Commands on two policy sets")
        policies, fields, end = (parts[1] + parts[2]).partition(b"Fields of a line")
        repl.expect_output(b"help store\n", parts[0])
        repl.expect_output(b"help policies\n", policies)
        repl.expect_output(b"help fields\n", fields + end)
        repl.expect_output(b"help edits\n", b"line 6: not a command\n")
        repl.expect_output(b"build\n", b"ok 0\n")
        repl.expect_end(0)


def other_arguments_are_errors():
    for arguments in (("--frob",), ("--strict", "--strict"), ("--help", "x"), ("",), (b"\xff\xfe",), ("x" * 5000,)):
        with Repl(*arguments) as repl:
            repl.expect_end(2, close_input=False, stderr_part=b"usage: ")


def main():
    tests = [
        each_command_has_its_output, incomplete_line_has_no_output, empty_line_has_no_output, many_lines_in_one_write_have_all_outputs,
        last_line_needs_no_line_feed, invalid_line_changes_nothing, strict_mode_ends_at_an_invalid_line, help_is_printed, other_arguments_are_errors,
    ]
    passed, failed = 0, 0
    for test in tests:
        try:
            test()
            passed += 1
        except (Failure, OSError, subprocess.SubprocessError) as failure:
            print(f"conversations: FAILED: {test.__name__.replace('_', ' ')}: {failure}")
            failed += 1
    print(f"{passed} passed, {failed} failed")
    return 1 if failed else 0


if __name__ == "__main__":
    sys.exit(main())
