"""What the tests of the command's words share: update records, the runs of the command and what they are compared with.

A test is started as `python3 programs/TEST COMMAND...`; COMMAND is what starts the command, as one or more words
(`tools/x86-run target/bin/rakmolthi`). It compares all of standard output, all of standard error and the exit status.
"""
import os
import struct
import subprocess
import sys
import tempfile

TERRITORY = "10.16.0.0/12"
ANNOUNCE, WITHDRAW, RE_HOME = 1, 2, 3
NO_SPACE = "rakmolthi: standard output: No space left on device\n"


def record(serial, kind, address, length, hop, size=13, version=1):
    parts = [int(part) for part in address.split(".")]
    return struct.pack(">HBBI4BBH", size, version, kind, serial, *parts, length, hop)


# 10.16.0.0/13 goes by hop 5, 10.24.0.0/14 by hop 7; what is left of the territory has no route.
ROUTES = record(0, ANNOUNCE, "10.16.0.0", 13, 5) + record(1, ANNOUNCE, "10.24.0.0", 14, 7)


class Run:
    """Runs a word of the command in a directory of its own, and counts what it compared."""

    word = None

    def __init__(self, command, directory):
        self.command = [os.path.abspath(word) if os.path.exists(word) else word for word in command]
        self.directory = directory
        self.done = self.wrong = 0

    def write(self, name, data):
        with open(os.path.join(self.directory, name), "wb") as file:
            file.write(data if isinstance(data, bytes) else data.encode())

    def start(self, arguments, stdin=b"", **more):
        if "stdout" not in more:
            more["stdout"] = subprocess.PIPE
        return subprocess.run(self.command + arguments, input=stdin, stderr=subprocess.PIPE, cwd=self.directory, timeout=60, **more)

    def compare(self, what, got, right):
        self.done += 1
        if got != right:
            self.wrong += 1
            print(f"test-{self.word}: {what}\n  is    {got!r}\n  not   {right!r}")

    def usage(self, arguments, message):
        got = self.start(arguments)
        self.compare(" ".join(arguments), (got.stdout, got.stderr.decode(), got.returncode), (b"", f"rakmolthi: {message}\n", 2))

    def misused(self, arguments, message):
        self.usage([self.word] + arguments, f"{self.word}: {message}; rakmolthi {self.word} --help says more")

    def tables_misused(self, whole):
        """What is wrong of --territory and --updates, of which `whole` has each with its value, --territory first."""
        for option in ("--territory", "--updates"):
            at = whole.index(option)
            self.misused(whole[:at] + whole[at + 2:], f"{option} is missing")
            self.misused([option], f"{option} has no value")
            self.misused([option] + whole, f"{option} has no value")
            self.misused([option, "a", option, "a"], f"{option} stands twice")
        for territory in ("", "10.16.0.0", "10.16.0.0/", "10.16.0.0/12x", "10.16.0.0/33", "10.16/12", "10.16.0.256/12", "/12",
                          "10.16.0.0/-1"):
            self.misused(["--territory", territory] + whole[2:], f"{territory} is no prefix such as 10.16.0.0/12")
        self.misused(["--territory", "10.16.0.0/25"] + whole[2:], "10.16.0.0/25 is longer than 24")
        self.misused(["--territory", "10.17.0.0/12"] + whole[2:], "10.17.0.0/12 has bits after its length")

    def given(self, values, options, words, stdin):
        """Runs the word with a value for each of these options; --name=VALUE of `options` gives another, and the words stand last."""
        values.update(option.split("=") for option in options if "=" in option)
        words = [word for pair in values.items() for word in pair] + [option for option in options if "=" not in option] + words
        got = self.start([self.word] + words, stdin)
        return got.stdout.decode(), got.stderr.decode(errors="surrogateescape"), got.returncode

    def helped(self, words, begins):
        got = self.start(words)
        self.compare(" ".join(words), (got.stdout.decode()[:len(begins)], got.stderr, got.returncode), (begins, b"", 0))

    def unread(self, what, message, **files):
        """What the word prints of these files, which is its method `printed`: nothing, and why."""
        self.compare(what, self.printed(**files), ("", f"rakmolthi: {message}\n", 1))

    def updates_unread(self):
        for code, message, data in (
                (20, "it ends too early", b"\0"), (20, "it ends too early", ROUTES[:7]),
                (21, "its length field is not 13", record(2, ANNOUNCE, "10.16.0.0", 13, 5, size=12)),
                (22, "its version is not 1", record(2, ANNOUNCE, "10.16.0.0", 13, 5, version=2)),
                (23, "its kind is not 1, 2 or 3", record(2, 4, "10.16.0.0", 13, 5)),
                (24, "its serial is not the expected one", record(3, ANNOUNCE, "10.16.0.0", 13, 5)),
                (25, "it is a withdraw with a hop", record(2, WITHDRAW, "10.16.0.0", 13, 5))):
            self.unread(f"updates with {data!r}", f"updates: record 2, counted from 0, is refused with {code}: {message}",
                        updates=ROUTES + data)
        self.unread("updates=none", "none: No such file or directory", options=["--updates=none"])
        self.unread("updates=.", ".: Is a directory", options=["--updates=."])

    def full(self, arguments, stdin=b""):
        with open("/dev/full", "wb") as full:
            got = self.start(arguments, stdin, stdout=full)
        self.compare(f"a full disk: {' '.join(arguments)[:60]}", (got.stderr.decode(), got.returncode), (NO_SPACE, 1))


def main(kind, *parts):
    """The parts of a test, each on the same run of this kind."""
    if len(sys.argv) < 2:
        sys.exit(sys.modules["__main__"].__doc__)
    with tempfile.TemporaryDirectory() as directory:
        run = kind(sys.argv[1:], directory)
        for part in parts:
            part(run)
    if run.wrong:
        sys.exit(f"test-{run.word}: {run.wrong} of {run.done} are not as they are to be")
    print(f"command {run.word}: {run.done} inputs, all as they are to be")
