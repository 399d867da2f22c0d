"""Runs a program on a text."""

import subprocess

SECONDS = 900


def run(words, text):
    """Runs a program. Returns its status, and what it writes to both outputs."""
    given = text if isinstance(text, bytes) else text.encode()
    done = subprocess.run(words, input=given, capture_output=True, timeout=SECONDS)
    return done.returncode, done.stdout.decode(), done.stderr.decode()


def written_by(words, text):
    """What a program that succeeds writes."""
    status, out, errors = run(words, text)
    if (status, errors) != (0, ""):
        raise ValueError(f"status {status}: {errors}")
    return out
