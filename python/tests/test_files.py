"""Tests of files.py: what a tool that is terminated leaves."""
import os
import signal
import subprocess
import sys
import tempfile
import unittest

# A tool that is terminated before it removes a file.
TERMINATED = """
import os, signal
from olr_keep_tools.command import run_tool
from olr_keep_tools.files import unnamed_file

def unlink(name, *more, unlinks=os.unlink, **others):
    os.kill(os.getpid(), signal.SIGTERM)
    unlinks(name, *more, **others)

os.unlink = unlink
run_tool(lambda: unnamed_file().write(b""))
"""


class UnnamedFiles(unittest.TestCase):
    """A file without a name."""

    def test_terminated(self) -> None:
        with tempfile.TemporaryDirectory() as folder:
            ended = subprocess.run([sys.executable, "-B", "-c", TERMINATED], env={**os.environ, "TMPDIR": folder}, check=False)
            self.assertEqual((ended.returncode, os.listdir(folder)), (-signal.SIGTERM, []))


if __name__ == "__main__":
    unittest.main()
