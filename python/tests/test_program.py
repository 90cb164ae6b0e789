"""Tests of program.py, with scripts in place of the program."""
import io
import sys
import time
import unittest
from typing import List

from olr_keep_tools.carried import Share
from olr_keep_tools.command import Failure
from olr_keep_tools.program import Program, ProgramEnded, ProgramFailed
from olr_keep_tools.shares import Shares

# Replies to each record: `ok` with as many lines as it has fields after the first, `fault` where there is none.
ECHO = """
import sys
for line in sys.stdin:
    word, *fields = line.rstrip().split(",")
    print(f"ok,{len(fields)}" if word == "ok" else word.replace("/", ","), *fields, sep="\\n", flush=True)
"""


def script(text: str) -> List[str]:
    """The command that runs a script."""
    return [sys.executable, "-c", text]


class ProgramNames(unittest.TestCase):
    """Programs that are asked."""

    def test_ask(self) -> None:
        with Program(script(ECHO), 60) as keep:
            self.assertEqual(keep.ask("ok,a,b").lines, ["a", "b"])
            self.assertEqual(keep.ask("fault/4/NoNode")[:3], ("fault", 4, "NoNode"))
            for text in ("", "a\nb", '"a'):
                with self.assertRaises(ValueError):
                    keep.ask(text)
            self.assertEqual(keep.close(), 0)

    def test_many(self) -> None:
        text = b"ok\n" * 100_000 + b"ok,x\n" + b"ok\n" * 3
        with Program(script(ECHO), 60) as keep:
            keep.send(text)
            runs = list(keep.runs(100_002))
            self.assertEqual(sum(it.times for it in runs), 100_002)
            self.assertEqual([it.reply.lines for it in runs if it.reply.lines], [["x"]])
            self.assertEqual([it.head for it in keep.replies(2)], ["ok,0", "ok,0"])

    def test_dump(self) -> None:
        file = io.BytesIO()
        with Program(script("print('ok,3', 'a', 'b', 'c', 'ok,0', sep='\\n')"), 60) as keep:
            keep.write_dump(file)
        self.assertTrue(file.getvalue().startswith(b"a\nb\nc\n"))

    def test_ends(self) -> None:
        with self.assertRaisesRegex(ProgramFailed, "No such file"):
            Program(["/nonexistent/olr-keep"])
        with self.assertRaises(ProgramEnded) as ended, Program(script("import sys; sys.exit(4)"), 60) as keep:
            keep.ask("node,1,0,0")
        self.assertEqual(ended.exception.exit_status, 4)
        hello = "this is no reply of olr-keep: 'hello'"
        with self.assertRaisesRegex(ProgramFailed, hello), Program(script("print('hello')"), 60) as keep:
            keep.ask("node,1,0,0")

    def test_deadline(self) -> None:
        began = time.monotonic()
        late = "no reply within 0.2 seconds"
        with self.assertRaisesRegex(ProgramFailed, late), Program(script("input(); input()"), 0.2) as keep:
            keep.ask("node,1,0,0")
        self.assertLess(time.monotonic() - began, 60)

    def test_share(self) -> None:
        with Program(script(ECHO), 60) as keep:
            share = Share(keep, 0, Shares(1), {})
            found = list(share.carry_out(b"ok\nok,a\nfault/4/NoNode\nreport\n\xff\n"))
            shown = [(it.at, it.record, it.reply.number) for it in found]
            wanted = [(3, "report", 0), (4, "?", 0), (1, "ok,a", 1), (2, "fault/4/NoNode", 4)]
            self.assertEqual(sorted(shown), sorted(wanted))
            with self.assertRaisesRegex(Failure, "out of memory"):
                list(share.carry_out(b"fault/13/Memory\n"))


if __name__ == "__main__":
    unittest.main()
