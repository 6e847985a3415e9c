"""What the scripts of this folder share: runs of commands in rounds, their time and memory, the
program over encoding_rs, and index files."""

import hashlib
import os
import re
import shutil
import statistics
import subprocess
import sys
import tempfile
import time

HERE = os.path.dirname(os.path.abspath(__file__))
TIME = "/usr/bin/time"
PACKAGES = "/usr/share/cargo/registry"
MIB = 1 << 20


class Bench:
    """A script by its name, which its lines begin with."""

    def __init__(self, name):
        self.name = name

    def skipped(self, what):
        print("%s: skipped, %s" % (self.name, what))

    def failed(self, words, status):
        sys.exit("%s: %s: status %d" % (self.name, words, status))

    def build_peer(self, folder):
        """The program over encoding_rs, built in a folder, or none."""
        cargo = shutil.which("cargo")
        if cargo is None or not os.path.isdir(PACKAGES):
            self.skipped("encoding_rs_io: no cargo, or no package librust-encoding-rs-io-dev")
            return None
        source = os.path.join(folder, "source")
        shutil.copytree(os.path.join(HERE, "peer"), source, ignore=shutil.ignore_patterns("target", "Cargo.lock"))
        packages = [
            "--config", 'source.crates-io.replace-with="debian"',
            "--config", 'source.debian.directory="%s"' % PACKAGES,
        ]
        words = [cargo, "build", "--release", "--offline", "--quiet", "--target-dir", folder, *packages]
        done = subprocess.run(words, cwd=source, capture_output=True, check=False)
        if done.returncode != 0:
            self.skipped("encoding_rs_io: cargo says " + done.stderr.decode(errors="replace")[-300:])
            return None
        version = subprocess.run([cargo, "--version"], capture_output=True, check=False).stdout.decode()
        print("encoding_rs_io is built by %s" % version.strip())
        return os.path.join(folder, "release", "peer")

    def medians(self, commands, path, rounds):
        """The median of the processor's time of each command by name, in rounds of one after
        another."""
        times = {name: [] for name in commands}
        for _ in range(rounds):
            for name, words in commands.items():
                seconds, status = taken(words, path)
                if status != 0:
                    self.failed(words, status)
                times[name].append(seconds)
        return {name: statistics.median(found) for name, found in times.items()}

    def wall(self, words, path):
        """The time of a run by the clock on the wall."""
        with open(path, "rb") as source:
            begin = time.perf_counter()
            status = subprocess.call(words, stdin=source, stdout=subprocess.DEVNULL)
            seconds = time.perf_counter() - begin
        if status != 0:
            self.failed(words, status)
        return seconds


def make_indexes(folder):
    """The words that hand over each index file, by kind; none where they can't be made."""
    tool = os.path.join(HERE, "..", "tools", "indexes")
    subprocess.run([sys.executable, tool, folder], capture_output=True, check=False)
    listed = subprocess.run(
        [sys.executable, tool, "--list", folder], capture_output=True, check=False
    ).stdout.decode()
    return dict((word.partition("=")[0], word) for word in listed.splitlines())


def taken(words, path):
    """The processor's time of a run in seconds, and its status."""
    with open(path, "rb") as source:
        child = subprocess.Popen(
            words, stdin=source, stdout=subprocess.DEVNULL, stderr=subprocess.DEVNULL
        )
        _, status, usage = os.wait4(child.pid, 0)
        child.returncode = os.waitstatus_to_exitcode(status)
    return usage.ru_utime + usage.ru_stime, child.returncode


def peak_memory(words, path):
    """The peak memory in KiB, or none where it can't be read."""
    if not os.access(TIME, os.X_OK):
        return None
    with open(path, "rb") as source:
        done = subprocess.run(
            [TIME, "-f", "%M", *words],
            stdin=source,
            stdout=subprocess.DEVNULL,
            stderr=subprocess.PIPE,
            check=False,
        )
    last = done.stderr.split()
    return int(last[-1]) if done.returncode == 0 and last else None


def written(words, path):
    """A digest of what a command writes, and its status."""
    digest = hashlib.sha256()
    with open(path, "rb") as source:
        child = subprocess.Popen(
            words, stdin=source, stdout=subprocess.PIPE, stderr=subprocess.DEVNULL
        )
        while piece := child.stdout.read(MIB):
            digest.update(piece)
        return digest.digest(), child.wait()


def digest_of(chunk, count):
    digest = hashlib.sha256()
    for _ in range(count):
        digest.update(chunk)
    return digest.digest()


def write(path, content):
    with open(path, "wb") as file:
        file.write(content)


def write_many(path, chunk, size):
    """The chunk again and again, at least once and until there are about `size` bytes; how often."""
    count = max(1, size // len(chunk))
    with open(path, "wb") as file:
        for _ in range(count):
            file.write(chunk)
    return count


def instructions(words, path):
    """How many instructions callgrind counts, or none."""
    with tempfile.TemporaryDirectory() as folder, open(path, "rb") as source:
        done = subprocess.run(
            ["valgrind", "--tool=callgrind", "--callgrind-out-file=" + os.path.join(folder, "out"), *words],
            stdin=source,
            stdout=subprocess.DEVNULL,
            stderr=subprocess.PIPE,
            check=False,
        )
    found = re.search(rb"Collected : (\d+)", done.stderr)
    return int(found.group(1)) if found and done.returncode == 0 else None
