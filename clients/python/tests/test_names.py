"""Names as hprof prints them, and back."""

import copy
import pickle
import unittest

from hprof import Id, Name
from hprof.names import escaped, unescaped

# The printed forms that "Names as text" of docs/FORMAT.md gives.
PRINTED = {
    "shop/Session": "shop/Session", "\u00e9": "\\u00e9", "\\": "\\u005c", "\0": "\\u0000", "\U0001f600": "\\ud83d\\ude00",
    "~\x7f": "~\\u007f", "a.b\u00e9\\\U0001f600": "a.b\\u00e9\\u005c\\ud83d\\ude00",
}


class Names(unittest.TestCase):
    def test_escapes(self):
        for text, printed in PRINTED.items():
            self.assertEqual((escaped(text), unescaped(printed), Name(printed)), (printed, text, text))
        self.assertEqual(Name("\\ud83d").encode("utf-16-be", "surrogatepass"), b"\xd8\x3d")

    def test_names_that_are_no_text(self):
        for printed in ("\\xff3c", "\\?", "\\?7f00"):
            self.assertEqual((Name(printed), Name(printed).is_text), (printed, False))
        self.assertEqual((Name("\\u005cxff"), Name("\\u005cxff").is_text), ("\\xff", True))

    def test_copies(self):
        name = Name("\\u005cu00e9")
        for again in (copy.deepcopy(name), pickle.loads(pickle.dumps(name))):
            self.assertEqual((again, again.printed), (name, name.printed))
        self.assertEqual(pickle.loads(pickle.dumps(Id(16))), 16)

    def test_identifiers(self):
        self.assertEqual((repr(Id(0x740000F20)), Id(16) == 16, {Id(16): 1}[16], f"{Id(255):x}"), ("0x740000f20", True, 1, "ff"))
