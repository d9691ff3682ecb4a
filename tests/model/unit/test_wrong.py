"""The lists of wrong models."""
import unittest
from pathlib import Path

from wrong import wrong_models

MODEL = Path(__file__).resolve().parents[1]


class Texts(unittest.TestCase):
    def test_each_text_stands_once(self):
        """Else the wrong model would be the right one, or nobody knows which place it changes."""
        sources = {name: (MODEL / name).read_text("utf-8") for name, _, _ in wrong_models()}
        self.assertEqual([(name, text) for name, text, _ in wrong_models() if sources[name].count(text) != 1], [])

    def test_each_changes_something(self):
        self.assertEqual([(name, text) for name, text, changed in wrong_models() if text == changed], [])
