"""What tools/forward keeps of changes that have a round as their position."""
import os
import tempfile
import unittest
from typing import Any
from unittest import mock

from olr_keep_tools import history
from olr_keep_tools.following import Changed, Whole
from olr_keep_tools.history import History
from olr_keep_tools.posting import AllStrings, Answered, Poster, Receiver

FIRST, LAST = Changed("i", 5, "a", "text,A", "as given", False), Changed("i", 5, "b", "refused,3", "refused")


class Rounds(unittest.TestCase):
    """A sink that is killed within a round."""

    def setUp(self) -> None:
        folder = tempfile.TemporaryDirectory()
        self.addCleanup(folder.cleanup)
        self.folder = folder.name

    def text(self, name: str) -> str:
        """The text of a file."""
        with open(f"{self.folder}/{name}", encoding="utf-8") as file:
            return file.read()

    def test_the_file_has_whole_rounds(self) -> None:
        sink = AllStrings(f"{self.folder}/strings", 0.0)
        sink.take(Whole("i", 4, {"c": "text,C"}))
        sink.take(FIRST)
        sink.rest()
        self.assertIn('"position": 4', self.text("strings"))
        self.assertNotIn('"a"', self.text("strings"))
        sink.take(LAST)
        again = AllStrings(f"{self.folder}/strings", 0.0)
        self.assertEqual((again.position, again.after, again.answers), (5, "", {"a": "text,A", "b": "refused,3", "c": "text,C"}))

    def test_a_state_within_a_round(self) -> None:
        state, receiver = f"{self.folder}/state", Receiver("http://127.0.0.1/", 1.0)
        poster = Poster(receiver, state, 1.0)
        with mock.patch.object(poster, "post", return_value=Answered(204, "")):
            for event, text in (FIRST, "i 5 a\n"), (LAST, "i 5\n"), (FIRST, "i 5 a\n"):
                poster.take(event)
                self.assertEqual(self.text("state"), text)
        again = Poster(receiver, state, 1.0)
        self.assertEqual((again.identity, again.position, again.after), ("i", 5, "a"))
        os.remove(state)

    def test_keys_and_objects(self) -> None:
        self.assertEqual((FIRST.key, LAST.key, Whole("i", 5, {}).key), ("i-5-a", "i-5-b", "i-5"))
        self.assertEqual(FIRST.as_json()["state"], "as given")
        self.assertNotIn("state", Changed("i", 5, "a", "dropped").as_json())

    def test_pages(self) -> None:
        found: Any = History.__new__(History)
        found.identity = "i"
        rows = [(5, "a", "text,A", None), (5, "b", "text,B", None), (6, "a", "text,A", None), (6, "b", "text,B", None)]
        with mock.patch.object(history, "PAGE", 3):
            self.assertEqual([it.after for it in found.changes(rows)], ["a", "", "a"])
            self.assertTrue(found.has_more)
            self.assertEqual([it.after for it in found.changes(rows[:3])], ["a", "", ""])
            self.assertFalse(found.has_more)
