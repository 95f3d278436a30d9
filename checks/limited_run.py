"""A run of a program with limits of its time and its memory, which the scripts that look for failing inputs share."""
import resource
import subprocess

LONGEST = 10.0
MOST_BYTES = 1 << 30


class LimitedRun:
    """A run that ended: its status, or none where it took too long, and what it wrote."""

    def __init__(self, program, words, limit=MOST_BYTES):
        def limited():
            resource.setrlimit(resource.RLIMIT_AS, (limit, limit))

        try:
            ran = subprocess.run([program, *words], stdin=subprocess.DEVNULL, capture_output=True, timeout=LONGEST, preexec_fn=limited)
            self.status, self.out, self.err = ran.returncode, ran.stdout, ran.stderr
        except subprocess.TimeoutExpired:
            self.status, self.out, self.err = None, b"", b""
