"""Tests of how records are divided into batches, and of what is said of a batch that the service rejects, without either."""
import io
import tempfile
import unittest
from contextlib import redirect_stdout
from typing import List

from olr_keep_tools.command import Failure
from olr_keep_tools.replies import Reply, read_reply
from olr_keep_tools.sending import NO_REPLY, InputRecord, Sender, Service, read_records, send, steps


def records(*texts: str) -> List[InputRecord]:
    """Records with their lines."""
    return [InputRecord(number, text) for number, text in enumerate(texts, 1)]


class Scripted(Service):
    """A service that gives these replies."""

    def __init__(self, replies: str):
        self.name, self.sent, self.replies = "scripted", b"", io.StringIO(replies)

    def send(self, text: bytes) -> None:
        self.sent += text

    def reply(self) -> Reply:
        found = read_reply(self.replies)
        assert found
        return found


class Input(unittest.TestCase):
    def test_mark(self) -> None:
        """A byte order mark is skipped at the start, as by the program, and a part of the first record of another line."""
        for content, texts in ((b"\xef\xbb\xbfnode,1,0,0\r\nreport", ["node,1,0,0", "report"]), (b"", []), (b"\xef\xbb\xbf", []),
                               (b"report\n\xef\xbb\xbfnode", ["report", "\ufeffnode"])):
            with tempfile.NamedTemporaryFile() as file:
                file.write(content)
                file.flush()
                self.assertEqual([it.text for it in read_records(file.name)], texts)


class Steps(unittest.TestCase):
    def texts(self, *given: str) -> List[List[str]]:
        return [[it.text for it in step] for step in steps(records(*given))]

    def test_one_batch(self) -> None:
        self.assertEqual(self.texts("show,a", "node,1,0,0", "drop-node,1", "report"),
                         [["show,a"], ["begin", "node,1,0,0", "drop-node,1", "commit,2"], ["report"]])

    def test_as_they_stand(self) -> None:
        self.assertEqual(self.texts("begin", "node,1,0,0", "show,a", "commit,1", "node,2,0,0"),
                         [["begin", "node,1,0,0", "show,a", "commit,1"], ["node,2,0,0"]])

    def test_refused(self) -> None:
        for given in (["node,1,0,0", "show,a", "node,2,0,0"], ["begin", "node,1,0,0"], ["begin", "begin"], ["node,1,0,0", "commit,1"],
                      ["begin", "node,1,0,0", "commit,2"], ["drop-line,1"] * 100_001):
            self.assertRaises(Failure, steps, records(*given))


class Rejected(unittest.TestCase):
    def failure(self, replies: str, *given: str) -> str:
        """The message of a sender that gets these replies."""
        with self.assertRaises(Failure) as found, redirect_stdout(io.StringIO()):
            Sender(Scripted(replies)).send_all(steps(records(*given)))
        return str(found.exception)

    def test_cause(self) -> None:
        """The change that the service names is found among the lines of the input, questions left out."""
        text = self.failure("ok,0\nok,0\nheld,1\nheld,2\nfault,16,CountDiffers,2,6,NoLine\n",
                            "begin", "report", "node,1,0,0", "drop-line,9", "commit,2")
        self.assertEqual(text, "line 4: fault,6,NoLine: drop-line,9: line 9 is not in the map: the edit is for another map, or was sent"
                               " twice; its batch is aborted; nothing took effect")

    def test_unknown(self) -> None:
        text = self.failure("ok,0\nheld,1\nfault,0,NotKnown,of the whole batch; ask show-node,1\n", "node,1,0,0")
        self.assertEqual(text, "the program ended: of the whole batch; ask show-node,1")
        text = self.failure("ok,0\nheld,1\nfault,0,NotServed,the service ends\n", "node,1,0,0")
        self.assertEqual(text, "the service ends; nothing took effect")

    def test_other_reply(self) -> None:
        """A reply that the record can't have is noticed, and what is sent isn't known to have taken effect."""
        for replies, given, why in (
                ("ok,0\nheld,2\n", ("node,1,0,0", "node,2,0,0"), "held,2 is no reply to node,1,0,0: whether lines 1 to 2"),
                ("ok,0\nheld,1\nok,0\n", ("node,1,0,0", "node,2,0,0"), "ok,0 is no reply to node,2,0,0: whether lines 1 to 2"),
                ("held,1\n", ("report",), "held,1 is no reply to report: nothing was sent"),
                ("ok,1\nb,text,B\n", ("show,a",), "ok,1 is no reply to show,a: nothing was sent")):
            with self.assertRaises(Failure) as found, redirect_stdout(io.StringIO()):
                send(Scripted(replies), steps(records(*given)))
            self.assertIn(why, str(found.exception))
            self.assertEqual(found.exception.status, NO_REPLY)

    def test_not_taken(self) -> None:
        """A connection that isn't taken: nothing was sent."""
        for record in "node,1,0,0", "show,a":
            text = self.failure("fault,0,Connections,100 are open, and no more are taken\n", record)
            self.assertEqual(text, "100 are open, and no more are taken; nothing took effect")
