"""The judges of a program as tests, each on a few inputs; `python3 -m bench NAME` runs one on more.

    FAST_CHECK=PROGRAM pytest-3 bench
"""
import os
import subprocess
import sys
from pathlib import Path

import pytest

TOP = Path(__file__).resolve().parents[1]
PROGRAM = os.path.abspath(os.environ["FAST_CHECK"]) if "FAST_CHECK" in os.environ else None
JUDGES = [
    ("stored", PROGRAM), ("files", PROGRAM), ("mutate", PROGRAM, "200", "1"), ("random_modules", "200", "1", PROGRAM), ("random_builds", "100", "1", PROGRAM),
    ("random_pairs", "100", "1", PROGRAM),
]


def ended(*words):
    """The status of a script, and what it printed."""
    ran = subprocess.run([sys.executable, "-m", "bench", *words], cwd=TOP, stdin=subprocess.DEVNULL, stdout=subprocess.PIPE, stderr=subprocess.STDOUT, text=True)
    return ran.returncode, ran.stdout


def test_cases_are_as_stored():
    status, told = ended("vectors", "--check")
    assert status == 0, told


@pytest.mark.skipif(PROGRAM is None, reason="FAST_CHECK names no program")
@pytest.mark.parametrize("words", JUDGES, ids=lambda words: words[0])
def test_program(words):
    status, told = ended(*words)
    if status == 2 and " 0 differ" in told:
        pytest.skip(told.splitlines()[-1])
    assert status == 0, told
