"""Tests of cases in JSON: the form, with the package jsonschema and without it, sentences, and files that are no case."""

import copy
import doctest
import json
import os
import sys
import tempfile
import unittest
from unittest import mock

import yadvorkhul.cases
from yadvorkhul import Case, Refusal
from yadvorkhul.cases import LONGEST_JSON, NotACase, check_case, check_names, first_fault, package_faults, parse_case, plain_faults, read_case, schema

EXAMPLES = os.path.join(os.path.dirname(os.path.abspath(__file__)), "..", "..", "examples")
A = dict(costs=[[2, 6], [5, 3], [1, 4]], supplies=[3, 3, 1], demands=[3, 2], table=[99, 20, 24, 20])
FULL = {**A, "runs": [2, 1], "ceilings": [[9, 9]] * 3, "title": "Autumn", "sources": ["Grasse"], "terminals": ["Paris", "Lyon"], "$schema": "x"}

SPOILED = [  # what is changed, and the sentence
    ([], "an object is wanted, not a list"),
    ("abc", "an object is wanted, not a text"),
    ({"costs": None}, "costs: a list is wanted, not null"),
    ({"costs": 5}, "costs: a list is wanted, not a whole number"),
    ({"costs": [[2, 6], 5, [1, 4]]}, "costs, row 2: a list is wanted, not a whole number"),
    ({"costs": [[2, 6], [5, "3"], [1, 4]]}, "costs, row 2, item 2: a whole number is wanted, not a text"),
    ({"demands": [3, "2"]}, "demands, item 2: a whole number is wanted, not a text"),
    ({"demands": [3, True]}, "demands, item 2: a whole number is wanted, not true or false"),
    ({"demands": [3, None]}, "demands, item 2: a whole number is wanted, not null"),
    ({"demands": [3, -1]}, "demands, item 2: -1 is below 0"),
    ({"demands": [3, 1 << 64]}, "demands, item 2: 18446744073709551616 does not fit a cell of 64 bits"),
    ({"costs": [[2, 6], [5, 3], [1, 1 << 63]]}, "costs, row 3, item 2: 9223372036854775808 does not fit a cell of 64 bits"),
    ({"costs": [[2, 6], [5, 3], [(-1 << 63) - 1, 1]]}, "costs, row 3, item 1: -9223372036854775809 does not fit a cell of 64 bits"),
    ({"runs": [1]}, "runs: two numbers are wanted, one for each plant, not 1"),
    ({"runs": [1, 1, 1]}, "runs: two numbers are wanted, one for each plant, not 3"),
    ({"runs": 5}, "runs: a list is wanted, not a whole number"),
    ({"ceilings": [[1, 2], "34", [5, 6]]}, "ceilings, row 2: a list is wanted, not a text"),
    ({"sources": "abc"}, "sources: a list or null is wanted, not a text"),
    ({"sources": 5}, "sources: a list or null is wanted, not a whole number"),
    ({"sources": ["Grasse", 5]}, "sources, item 2: a text is wanted, not a whole number"),
    ({"terminals": {"1": "Paris"}}, "terminals: a list or null is wanted, not an object"),
    ({"title": ["Autumn"]}, "title: a text is wanted, not a list"),
    ({"currency": 5}, "currency: a text is wanted, not a whole number"),
    ({"currency": "x" * 13}, "currency: at most 12 letters are wanted, not 13"),
    ({"date": "x" * 41}, "date: at most 40 letters are wanted, not 41"),
    ({"date": None}, "date: a text is wanted, not null"),
    ({"drums": 1}, "'drums' is no field of a case; these are title, currency, date, sources, terminals, supplies, demands, costs, table, runs, ceilings"),
    ({"sources": ["a", "b", "c", "d"]}, "sources: there are 4 names and 3 supplies"),
    ({"title": "Autumn \ud800"}, "'Autumn \\ud800' holds half of a character (a lone surrogate), which no file can hold"),
    ({"terminals": ["\udcff"]}, "'\\udcff' holds half of a character (a lone surrogate), which no file can hold"),
    ({"demands": 5, "drums": 1, "costs": "x"}, "'drums' is no field of a case; these are title, currency, date, sources, terminals, supplies, demands, costs, table, runs, ceilings"),
    ({"costs": "x", "demands": 5}, "demands: a list is wanted, not a whole number"),
]


def spoiled(change):
    return {**FULL, **change} if isinstance(change, dict) else change


class Form(unittest.TestCase):
    def refused(self, sentence, call, *words):
        with self.assertRaises(NotACase) as caught:
            call(*words)
        self.assertEqual(str(caught.exception), sentence)

    def test_accepted(self):
        case = check_case(copy.deepcopy(FULL))
        self.assertEqual(case, Case(**{name: value for name, value in FULL.items() if name != "$schema"}))
        self.assertEqual(case.plan().total, 33)
        self.assertEqual(check_case(A), Case(**A))
        self.assertEqual(check_case({**A, "ceilings": None, "sources": None}), Case(**A))

    def test_limits_are_the_planners(self):
        """What the planner refuses is no fault of the form."""
        for change, number in (({"demands": [3, 4001]}, 4), ({"costs": [[2, 6]]}, 3), ({"table": []}, 6), ({"supplies": [1]}, 1), ({"runs": [9, 0]}, 23)):
            with self.assertRaises(Refusal) as caught:
                check_case({**A, **change}).plan()
            self.assertEqual(caught.exception.number, number)

    def test_sentences(self):
        for change, sentence in SPOILED:
            with self.subTest(sentence):
                self.refused(sentence, check_case, spoiled(change))
        for missing in A:
            self.refused(f"{missing} is missing", check_case, {name: value for name, value in A.items() if name != missing})

    def test_sentences_without_the_package(self):
        with mock.patch.dict(sys.modules, {"jsonschema": None}):
            self.test_accepted()
            self.test_sentences()

    def test_both_ways_of_checking_agree(self):
        try:
            import jsonschema
        except ImportError:
            self.skipTest("jsonschema is not there (Debian: python3-jsonschema)")
        form = schema()
        jsonschema.Draft7Validator.check_schema(form)
        for change, _ in SPOILED + [({}, "")]:
            value = spoiled(change)
            ours, theirs = first_fault(form, plain_faults(form, value, [])), first_fault(form, package_faults(form, value))
            self.assertEqual(ours and (ours.path, ours.found), theirs and (theirs.path, theirs.found))

    def test_names_from_python(self):
        self.refused("sources: a list of texts is wanted", check_names, Case(**A, sources="abc"))
        self.refused("terminals: a list of texts is wanted", check_names, Case(**A, terminals=[1]))
        self.refused("title: a text is wanted", check_names, Case(**A, title=5))

    def test_doc(self):
        failed, tried = doctest.testmod(yadvorkhul.cases, verbose=False, optionflags=doctest.IGNORE_EXCEPTION_DETAIL)
        self.assertEqual((failed, tried > 0), (0, True))


class Texts(unittest.TestCase):
    def refused(self, sentence, data):
        with self.assertRaises(NotACase) as caught:
            parse_case(data)
        self.assertIn(sentence, str(caught.exception))

    def test_texts_that_are_no_case(self):
        text = json.dumps(A)
        self.assertEqual(parse_case(text.encode()), Case(**A))
        self.refused("it is not JSON: Expecting value, line 1, column 1", b"")
        self.refused("it is not JSON: ", text[:-1].encode())
        self.refused("it is not UTF-8 from byte 1 on", b"\x00\xff")
        self.refused("byte order mark", b"\xef\xbb\xbf" + text.encode())
        self.refused("byte order mark", text.encode("utf-16"))
        self.refused("the key 'demands' stands twice", text.replace("{", '{"demands": [1], ', 1).encode())
        self.refused("the key 'a' stands twice", b'{"title": {"a": 1, "a": 2}}')
        self.refused("3.0 is not a whole number in digits", text.replace("24", "3.0").encode())
        self.refused("1e3 is not a whole number in digits", text.replace("24", "1e3").encode())
        self.refused("NaN is not a whole number in digits", text.replace("24", "NaN").encode())
        self.refused("-Infinity is not a whole number", text.replace("24", "-Infinity").encode())
        self.refused("a number of 5000 digits; no cell holds it", text.replace("24", "9" * 5000).encode())

    def test_deep_and_long(self):
        for depth in (9, 1000, 100_000):
            self.refused("its brackets stand more than 8 deep; a case has three", b"[" * depth)
            self.refused("its brackets stand more than 8 deep", b'{"a":' * depth + b"1" + b"}" * depth)
        self.refused("it is not JSON: Unterminated string", b'"' + b"[" * 100_000)
        self.assertEqual(parse_case(json.dumps({**A, "title": "[[[[[[[[[[" * 9 + '\\"'}).encode()).title, "[[[[[[[[[[" * 9 + '\\"')
        self.refused("it is longer than 4,000,000 bytes", b" " * (LONGEST_JSON + 1))

    def test_files(self):
        with tempfile.TemporaryDirectory() as folder:
            path = os.path.join(folder, "case.json")
            with self.assertRaisesRegex(NotACase, "case.json is not a case in JSON: No such file or directory$"):
                read_case(path)
            with self.assertRaisesRegex(NotACase, "is not a case in JSON: Is a directory$"):
                read_case(folder)
            with open(path, "w", encoding="utf-8") as out:
                json.dump({**A, "sources": "abc"}, out)
            with self.assertRaisesRegex(NotACase, "case.json is not a case in JSON: sources: a list or null is wanted, not a text$"):
                read_case(path)
        if os.path.exists("/dev/zero"):
            with self.assertRaisesRegex(NotACase, "^/dev/zero is not a case in JSON: it is longer than 4,000,000 bytes$"):
                read_case("/dev/zero")

    def test_season(self):
        self.assertEqual(len(read_case(os.path.join(EXAMPLES, "season", "season.json")).sources), 12)


if __name__ == "__main__":
    unittest.main()
