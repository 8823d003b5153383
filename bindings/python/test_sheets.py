"""Tests of workbooks and spreadsheet files in and out. Those of workbooks need openpyxl and defusedxml, run by /usr/bin/python3."""

import contextlib
import datetime
import io
import os
import random
import shutil
import subprocess
import tempfile
import unittest
import zipfile

from yadvorkhul import Case, command
from yadvorkhul.cases import read_case
from yadvorkhul.files import write_case
from yadvorkhul.forms import case_json, fingerprint, limits_text, plan_fingerprint, production_text, read_again, spoken, tariff_text
from yadvorkhul.imports import import_book, import_files
from yadvorkhul.sheets import BadSheet, Cell, Notes, column_name, whole

try:
    import openpyxl

    from yadvorkhul.workbook import EXAMPLE, export_book, template

    BOOKS = openpyxl.DEFUSEDXML
except ImportError:
    BOOKS = False

EXAMPLES = os.path.join(os.path.dirname(os.path.abspath(__file__)), "..", "..", "examples")
A = Case([[2, 6], [5, 3], [1, 4]], [3, 3, 1], [3, 2], [99, 20, 24, 20])
NAMED = A._replace(sources=["Grasse", "Holzminden", "Lyon"], terminals=["Paris", "Rome"])
LABELLED = ";Paris;Rome;supply\nGrasse;2;6;3\nHolzminden;5;3;3\nLyon;1;4;1\ndemand;3;2;\n"
TABLE = "99\n20\n24\n20\n"


def season():
    return read_case(os.path.join(EXAMPLES, "season", "season.json"))


def run(*words):
    """Status and what the command says."""
    errors = io.StringIO()
    with contextlib.redirect_stdout(io.TextIOWrapper(io.BytesIO())), contextlib.redirect_stderr(errors):
        return command.main(list(words)), errors.getvalue()


class Folder(unittest.TestCase):
    def setUp(self):
        self.folder = tempfile.mkdtemp(prefix="yadvorkhul-sheets-")
        self.addCleanup(shutil.rmtree, self.folder)

    def path(self, name, data=None):
        path = os.path.join(self.folder, name)
        if data is not None:
            with open(path, "wb") as out:
                out.write(data if isinstance(data, bytes) else data.encode())
        return path

    def read(self, tariff, table=TABLE, thousands="", **more):
        paths = {"tariff": self.path("t.csv", tariff), "production": self.path("p.csv", table)}
        paths.update({name: self.path(name + ".csv", text) for name, text in more.items()})
        return import_files(paths, thousands)

    def refused(self, words, *files, **more):
        with self.assertRaises(BadSheet) as caught:
            self.read(*files, **more)
        self.assertIn(words, str(caught.exception))


class Files(Folder):
    def test_dialects(self):
        """One case, however a spreadsheet saves it; each assumption is said."""
        for text, said in (
            (LABELLED.encode(), "separator semicolon"),
            (LABELLED.replace(";", "\t").encode(), "separator tab"),
            (LABELLED.replace(";", ",").encode(), "separator comma"),
            (LABELLED.encode("utf-8-sig"), "UTF-8 with a byte order mark"),
            (LABELLED.encode("utf-16"), "UTF-16"),
            (LABELLED.encode("utf-16-le"), "UTF-16 without its mark"),
            (b"\xfe\xff" + LABELLED.encode("utf-16-be"), "UTF-16"),
            (("sep=;\n" + LABELLED).encode(), "separator semicolon"),
            (LABELLED.encode(), "lines end in LF"),
            (LABELLED.replace("\n", "\r").encode(), "lines end in CR"),
            (LABELLED.replace("2;6", " 2;6").encode(), "blanks around numbers left out (tariff!B2)"),
        ):
            found = self.read(text)
            self.assertEqual(found.case, NAMED, said)
            self.assertIn(said, " | ".join(found.notes))
            self.assertIn("row", " | ".join(note for note in found.notes if "taken as names" in note))

    def test_bare(self):
        """W-213's own form is a case without names."""
        self.assertEqual(self.read("2,6,3\r\n5,3,3\r\n1,4,1\r\n3,2,\r\n").case, A)
        self.assertEqual(self.read("2,6,3\r\n5,3,3\r\n1,4,1\r\n3,2").case, A)  # the demands without their last comma
        cp1252 = self.read(LABELLED.replace("Lyon", "Cologne-K\u00f6ln").encode("cp1252"))
        self.assertEqual((cp1252.case.sources[2], "Windows-1252" in " ".join(cp1252.notes)), ("Cologne-K\u00f6ln", True))

    def test_thousands(self):
        """Groups that can mean one thing only are understood; 1,234 alone is not."""
        for sign in (" ", "\u00a0", "\u202f", "'", "\u2019"):
            found = self.read(LABELLED.replace("2;6", f"1{sign}234;6"))
            self.assertEqual(found.case.costs[0][0], 1234)
            self.assertIn("thousands separator (tariff!B2)", " ".join(found.notes))
        for sign in ",.":
            spoiled = LABELLED.replace("2;6", f"1{sign}234;6")
            self.refused("tariff!B2: '1" + sign + "234' may be 1234 or a decimal", spoiled)
            self.assertEqual(self.read(spoiled, thousands=sign).case.costs[0][0], 1234)
            shown = spoiled.replace("5;3", f"1{sign}000{sign}000;3")
            self.assertEqual(self.read(shown).case.costs[:2], [[1234, 6], [1000000, 3]])

    def test_never_guessed(self):
        for cell, words in (
            ("00412", "has 0 in front, perhaps an item code"),
            ("-0", "0 has no minus"),
            ("99,00", "is a decimal"),
            ("9.5", "is a decimal"),
            ("1.234,00", "is a decimal"),
            ("5-", "a sign that is not a plain minus"),
            ("(5)", "a sign that is not a plain minus"),
            ("+5", "a sign that is not a plain minus"),
            ("\u22125", "a sign that is not a plain minus"),
            ("12345678901", "more than ten digits"),
            ("12 EUR", "is not a whole number"),
            ("1 23", "is not a whole number"),
            ("#N/A", "is an error of the program that wrote it"),
            ("#VALUE!", "is an error of the program that wrote it"),
            ("\u20135", "a sign that is not a plain minus"),
            ("1e3", "is not a whole number"),
            ("\u0665", "is not a whole number"),
            ("", "tariff!C3 is empty"),
        ):
            self.refused(words, LABELLED.replace("Holzminden;5;3;3", f"Holzminden;5;{cell};3"))
            self.refused("tariff!C3", LABELLED.replace("Holzminden;5;3;3", f"Holzminden;5;{cell};3"))
        self.assertEqual(self.read(LABELLED.replace("5;3;3", "5;-3;3")).case.costs[1], [5, -3])
        self.refused("tariff!D3: -3 is below 0; only a unit cost may be", LABELLED.replace("5;3;3", "5;3;-3"))

    def test_shape(self):
        self.refused("tariff!D5 must be empty", LABELLED.replace("demand;3;2;", "demand;3;2;5"))
        self.refused("perhaps the two are swapped", TABLE, LABELLED)
        self.assertEqual(self.read("2;0\n5;3\n3;\n", "7\n").case.table, [7])
        self.refused("perhaps the two are swapped", "y;cost\n0;99\n1;20\n2;24\n3;20\n", LABELLED)
        self.refused("production!B1: a second column without a name", LABELLED, "0,50\n1,20\n2,30\n3,10\n")
        self.refused("production!A4: output 2 is wanted", LABELLED, "y;cost\n0;99\n1;20\n3;24\n2;20\n")
        self.assertEqual(self.read(LABELLED, "y;cost\n0;99\n1;20\n2;24\n3;20\n").case, NAMED)
        self.refused("is a workbook, whatever its name says", b"PK\x03\x04" + b"0" * 50)
        self.refused("is empty", "\n\n")
        self.refused("unexpected end of data", LABELLED.replace("Lyon", '"Lyon'))

    def test_parted_numbers(self):
        """A comma within a number parts it in a file of commas: it is named with its cell, and never taken as two columns."""
        for table, words in (
            ("cost\n0,50\n1,50\n2,50\n3,50\n", "production!B2: row 1 has 1 field, this row 2; perhaps a name is missing there; or a comma parted a number of '0,50'"),
            ("cost\n99\n24,00\n24\n20\n", "production!B3: row 1 has 1 field, this row 2"),
            ("output,cost\n0,99\n1,20,5\n2,24\n3,20\n", "production!C3: row 1 has 2 fields, this row 3"),
            ("99\n24,00\n24\n20\n", "production!A2: '24,00' is parted by its comma, perhaps a decimal; numbers are whole"),
            ("99\n1,024\n24\n20\n", "production!A2: '1,024' is parted by its comma; write 1024, unless it is a decimal, or put it in quotes and say --thousands ','"),
            ("99\n1,024,000\n24\n20\n", "production!A2: '1,024,000' is parted by its comma; write 1024000, or put it in quotes"),
        ):
            self.refused(words, LABELLED, table)
        self.assertEqual(self.read(LABELLED, 'cost\n"1,024"\n20\n24\n20\n', thousands=",").case.table[0], 1024)
        bare = "2,6,3\n5,3,3\n1,4,1\n3,2,\n"
        for old, new, words in (
            ("5,3,3", "5,50,3,3", "tariff!D2: this row has 4 fields, another 3; perhaps a comma parted a number of '5,50,3,3'"),
            ("2,6,3", "1,234,6,3", "tariff!D1: this row has 4 fields, another 3; perhaps a comma parted a number of '1,234,6,3'"),
        ):
            self.refused(words, bare.replace(old, new))
        every = "Paris,Rome,supply\n2,50,6,3\n5,50,3,3\n1,50,4,1\n3,50,2,\n"
        self.refused("tariff!D2: row 1 has 3 fields, this row 4", every)
        self.refused("tariff!D2: row 1 has 3 fields, this row 4; perhaps a name is missing there", LABELLED.replace(";Paris", "Paris"))
        self.assertEqual(self.read(LABELLED.replace(";supply", ";")).case, NAMED)
        self.assertEqual(self.read(LABELLED.replace(";supply", ";").replace(";", ",")).case, NAMED)

    def test_parted_limits(self):
        """Nor in the runs or the ceilings: a number is no name."""
        for runs in ("1,500\n2,500\n", "1,500,0\n", "run\n1,500\n2,500\n"):
            self.refused("runs", LABELLED, runs=runs)
        bare = "2,6,3\n5,3,3\n1,4,1\n3,2,\n"
        self.refused("3 sources and 2 terminals", bare, ceilings="1,234,5\n1,234,5\n1,234,5\n")
        self.refused("ceilings!B2: row 1 has 1 field, this row 2", "T,supply\n2,3\n5,3\n3,\n", ceilings="T\n1,234\n5,678\n")
        self.refused("3 sources and 2 terminals", bare, ceilings="1,2\n3,4\n5,6\n7,8\n")

    def test_separators(self):
        """A sign within a name is no separator where another stands as often in each line."""
        for name in ("Paris; Nord", "Paris, Nord", 'Depot ""Nord""'):
            for sign in ";\t,":
                text = LABELLED.replace(";", sign).replace("Paris", f'"{name}"')
                self.assertEqual(self.read(text).case.terminals[0], name.replace('""', '"'))
        self.assertEqual(self.read(LABELLED.replace(";", ",").replace("Paris", "Paris; Nord")).case.terminals[0], "Paris; Nord")
        self.assertEqual(self.read(LABELLED.replace(";", "\t").replace("Paris", "Paris; Nord")).case.terminals[0], "Paris; Nord")
        self.refused("tariff!D5 is empty", ("sep=;\n" + LABELLED).replace("Lyon;1;4;1", "Lyon;1;4"))

    def test_names_in_utf_16(self):
        """Names of which no byte is 0 are read in UTF-16 without its mark too."""
        far = NAMED._replace(sources=["\u6771\u4eac\u5de5\u5834"] * 3, terminals=["\u5927\u962a\u5e02\u5834", "\u540d\u53e4\u5c4b"])
        text = LABELLED
        for one, other in zip(NAMED.sources + NAMED.terminals, far.sources + far.terminals):
            text = text.replace(one, other)
        for codec in ("utf-16-le", "utf-16-be", "utf-16", "utf-8"):
            self.assertEqual(self.read(text.encode(codec)).case, far, codec)

    def test_no_text(self):
        """What is no text is named: NUL, an old workbook."""
        self.refused("t.csv holds a NUL character (byte 0) in line 3; no text has one", LABELLED.replace("5;3", "5\0;3"))
        self.refused("p.csv holds a NUL character (byte 0) in line 1", LABELLED, "9\x009\n20\n24\n20\n")
        self.refused("is an old workbook (.xls)", b"\xd0\xcf\x11\xe0\xa1\xb1\x1a\xe1" + b"\0" * 600)
        with self.assertRaisesRegex(BadSheet, "is an old workbook \\(.xls\\), whatever its name says; save it as .xlsx"):
            import_book(self.path("old.xlsx", b"\xd0\xcf\x11\xe0\xa1\xb1\x1a\xe1" + b"\0" * 600))

    def test_runs_and_ceilings(self):
        for runs in ("1;2\n", "plant;run\nGrasse;1\nHolzminden;2\n", "1\n2\n"):
            self.assertEqual(self.read(LABELLED, runs=runs).case, NAMED._replace(runs=(1, 2)))
        self.refused("two numbers are wanted", LABELLED, runs="1\n2\n3\n")
        bounded = NAMED._replace(ceilings=[[4000, 1], [4000, 4000], [0, 4000]])
        for ceilings in (";Paris;Rome\nGrasse;;1\nHolzminden;;\nLyon;0;4000\n", "4000;1\n4000;4000\n0;4000\n"):
            self.assertEqual(self.read(LABELLED, ceilings=ceilings).case, bounded)
        self.refused("terminal 1 is named 'Rome', but 'Paris' in the tariff", LABELLED, ceilings=";Rome;Paris\nGrasse;1;1\nHolzminden;1;1\nLyon;1;1\n")
        self.refused("3 sources and 2 terminals", LABELLED, ceilings="1;2;3;4\n")

    def test_runs_by_name(self):
        """A least run that is named is that plant's: another order is refused, and what was taken as names is said."""
        for runs in ("Holzminden;200\nGrasse;100\n", "plant;run\nHolzminden;2\nGrasse;1\n", "Holzminden;Grasse\n2;1\n", ";Holzminden;Grasse\nrun;2;1\n"):
            self.refused("runs: the least run of plant 1 is named 'Holzminden', but 'Grasse' in the tariff; the order is the same in both", LABELLED, runs=runs)
        for runs in ("Plant 2;2\nPlant 1;1\n", "plant;run\n2;2\n1;1\n", "Lyon;2\nGrasse;1\n"):
            self.refused("runs: the least run of plant 1 is named ", LABELLED, runs=runs)
            if "Lyon" not in runs:
                self.refused("but plant 1 is due", "2,6,3\n5,3,3\n1,4,1\n3,2,\n", runs=runs)
        turned = LABELLED.replace("Grasse", "Plant 2").replace("Holzminden", "Plant 1")
        self.refused("named 'Plant 1', but 'Plant 2' in the tariff", turned, runs="Plant 1;1\nPlant 2;2\n")
        named = ("Grasse;Holzminden\n1;2\n", "x;Grasse ;Holzminden\nrun;1;2\n", "Plant 1;1\nPlant 2;2\n", "plant;run\n1;1\n2;2\n")
        for runs in (*named, "run;1;2\n", "least run\n1\n2\n"):
            self.assertEqual(self.read(LABELLED, runs=runs).case.runs, (1, 2))
        notes = self.read(LABELLED, runs="plant;run\nGrasse;1\nHolzminden;2\n").notes
        self.assertEqual([note for note in notes if note.startswith("runs: ")], ["runs: row 1 taken as names", "runs: column A taken as names"])
        bare = self.read("2,6,3\n5,3,3\n1,4,1\n3,2,\n", runs="Grasse;1\nHolzminden;2\n")
        self.assertIn("runs: Holzminden taken as plant 2, which has no name in the tariff", bare.notes)

    def test_numbers_are_no_names(self):
        """A demand or a supply that is missing, or no number, makes no names of the numbers before it."""
        bare = "2,6,3\n5,3,3\n1,4,1\n3,2,\n"
        for demand in ("", "1E+1", "n/a", "?"):
            self.refused("tariff!A4: the demand of terminal 1 is missing or no number", bare.replace("3,2,", f"{demand},2,"))
            self.refused("tariff!A5: the demand of terminal 1", "Paris,Rome,supply\n" + bare.replace("3,2,", f"{demand},2,"))
        self.refused("tariff!A4: the demand", bare.replace("3,2,", ",2,").replace("5,3,3", ",3,3"))
        for row in ("2,6,", "2,6,x", "2,,"):
            self.refused("tariff!C1: the supply is missing", bare.replace("2,6,3", row))
            self.refused("tariff!D1: the supply is missing", "Grasse;" + row.replace(",", ";") + "\n" + LABELLED.split("\n", 2)[2])
        codes = "x;7;8;supply\n1;2;6;3\n2;5;3;3\n3;1;4;1\ndemand;3;2;\n"
        self.assertEqual(self.read(codes).case, A._replace(sources=["1", "2", "3"], terminals=["7", "8"]))
        self.assertEqual(self.read(LABELLED.replace("demand", "")).case, NAMED)

    def test_command(self):
        tariff, table, out = self.path("t.csv", LABELLED), self.path("p.csv", TABLE), self.path("case.json")
        status, said = run("import", tariff, table, "-o", out)
        self.assertEqual((status, read_case(out)), (0, NAMED))
        self.assertIn("taken: t.csv: separator semicolon\n", said)
        self.assertIn("planned: plant 1 makes 3, total 33\n", said)
        self.path("p.csv", "99,00\n20,00\n")
        status, said = run("import", tariff, table, "-o", self.path("other.json"))
        self.assertEqual((status, os.path.exists(self.path("other.json"))), (2, False))
        self.assertIn("production!A1: '99,00' is parted by its comma, perhaps a decimal", said)
        self.assertEqual(run("import", tariff, table, "-o", tariff)[0], 2)
        self.assertEqual(run("import", tariff, table, table, "-o", out)[0], 2)
        self.assertEqual(run("import", self.path("none.csv"), table, "-o", out)[0], 2)


class Forms(unittest.TestCase):
    def test_texts(self):
        """The texts of the examples, which lie in W-213's form already."""
        for folder in ("case_a", "season"):
            paths = [os.path.join(EXAMPLES, folder, name) for name in ("tariff.csv", "production.csv")]
            found = import_files(dict(zip(("tariff", "production"), paths))).case
            for path, text in zip(paths, (tariff_text(found), production_text(found))):
                with open(path, "rb") as stream:
                    self.assertEqual(stream.read().rstrip(b"\r\n"), text.encode().rstrip(b"\r\n"))
            self.assertEqual(read_again(found), found)

    def test_texts_are_the_proved_writer_s(self):
        """What is written here is what the archive writes, wherever it writes."""
        for case in (A, NAMED, season(), A._replace(costs=[[-2, 6], [5, 0], [1, -1_000_000]])):
            self.assertEqual(write_case(case), (tariff_text(case).encode(), production_text(case).encode()))

    def test_fingerprints(self):
        """Equal numbers, equal fingerprints; any number more or less makes another."""
        due = fingerprint(A)
        self.assertEqual(fingerprint(NAMED), due)
        self.assertEqual(fingerprint(A._replace(title="x", ceilings=[[4000, 4000]] * 3)), due)
        self.assertEqual(limits_text(A), "")
        self.assertNotEqual(fingerprint(A._replace(ceilings=[[4001, 4000]] + [[4000] * 2] * 2)), due)  # which is refused by 26
        others = [A._replace(runs=(1, 0)), A._replace(ceilings=[[4000, 3999]] + [[4000] * 2] * 2), A._replace(demands=[2, 3])]
        others += [A._replace(table=[99, 20, 24, 21]), A._replace(costs=[[2, 6], [5, 3], [1, -4]]), A._replace(supplies=[3, 2, 2])]
        self.assertEqual(len({fingerprint(other) for other in others} | {due}), 7)
        import hashlib

        files = [os.path.join(EXAMPLES, "case_a", name) for name in ("tariff.csv", "production.csv")]
        texts = tariff_text(A).encode() + production_text(A).encode()
        self.assertEqual(due, hashlib.sha256(texts).hexdigest())
        self.assertEqual([os.path.exists(file) for file in files], [True, True])
        self.assertNotEqual(plan_fingerprint(A, A.plan()), plan_fingerprint(others[3], others[3].plan()._replace(split=2)))
        self.assertEqual(spoken("0123456789abcdef" * 4), "0123 4567 89ab cdef")

    def test_json(self):
        with tempfile.TemporaryDirectory() as folder:
            path = os.path.join(folder, "case.json")
            for case in (A, NAMED, season(), NAMED._replace(currency="EUR", date="1 May", title="t", runs=(1, 0))):
                with open(path, "w", encoding="utf-8") as out:
                    out.write(case_json(case))
                self.assertEqual(read_case(path)._replace(runs=tuple(read_case(path).runs)), case._replace(runs=tuple(case.runs)))

    def test_columns(self):
        self.assertEqual([column_name(j) for j in (0, 25, 26, 51, 52, 701, 702)], ["A", "Z", "AA", "AZ", "BA", "ZZ", "AAA"])


@unittest.skipUnless(BOOKS, "openpyxl and defusedxml are not there")
class Books(Folder):
    def again(self, case):
        return import_book(self.path("book.xlsx", export_book(case, case.plan()))).case

    def same(self, case):
        runs = lambda one: one._replace(runs=tuple(one.runs))
        self.assertEqual(runs(self.again(case)), runs(case))

    def test_template(self):
        self.assertEqual(import_book(self.path("t.xlsx", template())).case, EXAMPLE)
        self.assertEqual(run("template", "-o", self.path("u.xlsx"))[0], 0)
        self.assertEqual(import_book(self.path("u.xlsx")).case, EXAMPLE)
        filled = self.path("u.xlsx", export_book(A, A.plan()))
        status, said = run("template", "-o", filled)
        self.assertEqual((status, import_book(filled).case), (2, A))
        self.assertIn("u.xlsx is there already; name another file, or take it away", said)

    def test_round_trip(self):
        """Import, export, import: the same case."""
        self.same(season())
        self.same(A)
        self.same(NAMED._replace(runs=(1, 1), ceilings=[[3, 4000], [4000, 2], [0, 4000]], title="=A1", currency="EUR", date="2026-11-17"))
        self.same(A._replace(sources=["Grasse"]))
        self.same(A._replace(terminals=["", "Rome"]))
        for names in (["Plant 2", "Plant 1"], ["Plant 2"], ["", "Plant 1"], ["a", "A"], ["2", "1"]):
            self.same(A._replace(sources=names, runs=(1, 0)))
        odd = ["=1+1", "+5", "-x", "@SUM(A1)", "'quoted", " both ends ", "_x0041_", "\u6771\u4eac", 'a"b;c,d', "2026", "0012"]
        draw = random.Random(4)
        for _ in range(4):
            names = draw.sample(odd, 5)
            self.same(A._replace(sources=names[:3], terminals=names[3:]))

    def test_high_entry(self):
        """An entry that import would not take is refused by export, with its split."""
        case = A._replace(table=[10_000_000_000, 20, 24, 20], runs=(1, 0))
        out = self.path("high.xlsx")
        status, said = run("export", self.path("high.json", case_json(case)), "-o", out)
        self.assertEqual((status, os.path.exists(out)), (1, False))
        self.assertIn("Refusal 32: the entry of split 0 is above 9,999,999,999, which no file can hold. Look at that entry;", said)
        self.same(case._replace(table=[9_999_999_999, 20, 24, 20]))

    def test_no_formula(self):
        """A name is text, whatever it begins with."""
        book = openpyxl.load_workbook(self.path("b.xlsx", export_book(*[case := NAMED._replace(terminals=["=1+1", "@x"]), case.plan()])))
        kinds = {cell.data_type for sheet in book if sheet.title != "certificate" for row in sheet.iter_rows() for cell in row}
        self.assertNotIn("f", kinds)
        self.assertEqual(book["tariff"]["B1"].value, "=1+1")
        with self.assertRaises(BadSheet):
            export_book(NAMED._replace(terminals=["a\x01", "b"]), NAMED.plan())

    def spoiled(self, cell, value, shape=None):
        book = openpyxl.load_workbook(self.path("t.xlsx", template()))
        book["tariff"][cell].value = value
        if shape:
            book["tariff"][cell].number_format = shape
        book.save(self.path("s.xlsx"))
        return self.path("s.xlsx")

    def test_cells(self):
        for value, shape, words in (
            (2.5, None, "is a fraction"),
            (412, "00000", "is shown with 0 in front"),
            ("00412", None, "has 0 in front"),
            (datetime.date(2026, 2, 1), None, "is a date or a time"),
            (True, None, "is true or false"),
            ("=1+1", None, "a formula without a stored value"),
            (None, None, "is empty"),
            (0.05, "0%", "is a fraction"),
            (3, "0%", "is a percentage"),
            ("n/a", None, "is not a whole number"),
        ):
            with self.assertRaises(BadSheet) as caught:
                import_book(self.spoiled("B2", value, shape))
            self.assertIn("tariff!B2", str(caught.exception))
            self.assertIn(words, str(caught.exception))
        found = import_book(self.spoiled("B2", "7"))
        self.assertEqual((found.case.costs[0][0], "numbers stored as text (tariff!B2)" in found.notes), (7, True))
        self.assertEqual(import_book(self.spoiled("B2", 7.0, "#,##0.00")).case.costs[0][0], 7)

    def test_odd_books(self):
        """Merged cells, a hidden sheet, two sheets of one name, a name by a formula, an error."""
        book = openpyxl.load_workbook(self.path("t.xlsx", template()))
        book["tariff"].merge_cells("B2:C2")
        book.save(self.path("s.xlsx"))
        with self.assertRaisesRegex(BadSheet, r"tariff!C2 has no number of its own: it is merged with others \(B2:C2\)"):
            import_book(self.path("s.xlsx"))
        book = openpyxl.load_workbook(self.path("t.xlsx"))
        book["production"].sheet_state = "hidden"
        book.save(self.path("s.xlsx"))
        self.assertIn("sheet production is hidden, and read like others", import_book(self.path("s.xlsx")).notes)
        book.create_sheet("Tariff ")
        book.save(self.path("s.xlsx"))
        with self.assertRaisesRegex(BadSheet, "two sheets are named tariff"):
            import_book(self.path("s.xlsx"))
        for change, words in (
            (lambda sheet: sheet.insert_rows(1), "tariff: row 1 is empty; a table begins in its first row and column"),
            (lambda sheet: sheet.insert_cols(1), "tariff: column A is empty"),
            (lambda sheet: (sheet.insert_rows(1), setattr(sheet["A1"], "value", "Season")), "tariff!A1: a row with a title alone"),
            (lambda sheet: sheet.merge_cells("A1:C1"), r"tariff!B1 has no name of its own: it is merged with others \(A1:C1\)"),
        ):
            book = openpyxl.load_workbook(self.path("t.xlsx"))
            change(book["tariff"])
            book.save(self.path("s.xlsx"))
            with self.assertRaisesRegex(BadSheet, words):
                import_book(self.path("s.xlsx"))
        for cell, value, words in (("B1", "=A1", "tariff!B1 has a formula without a stored value"), ("B2", "#DIV/0!", "is an error of the program")):
            with self.assertRaisesRegex(BadSheet, words):
                import_book(self.spoiled(cell, value))
        book = openpyxl.load_workbook(self.path("t.xlsx"))
        book["production"].delete_cols(2)
        book["production"]["B3"].value = 7
        book.save(self.path("s.xlsx"))
        with self.assertRaisesRegex(BadSheet, "production!B3: row 1 has 1 field, this row 2; perhaps a name is missing there$"):
            import_book(self.path("s.xlsx"))

    def test_book_as_a_case(self):
        """A workbook where a case in JSON is wanted is named, and so is the way to make a case of it."""
        self.path("t.xlsx", template())
        for name in ("plan", "page", "export"):
            status, said = run(name, self.path("t.xlsx"))
            self.assertEqual(status, 2)
            self.assertIn("t.xlsx is not a case in JSON: it is a workbook; `yadvorkhul import BOOK.xlsx -o CASE.json` makes a case of one", said)
        tariff = self.path("t.csv", LABELLED)
        self.assertIn("t.csv alone is no case; give a tariff and a production table", run("plan", tariff)[1])
        self.assertIn("of text files give two, a tariff and a production table", run("import", tariff, "-o", self.path("x.json"))[1])
        self.assertIn("saved as .xlsx", run("plan", self.path("t.xls", b"\xd0\xcf\x11\xe0" + b"\0" * 600))[1])

    def test_hostile(self):
        """What is no workbook, or would fill the memory, is one sentence."""
        bomb = self.path("bomb.xlsx")
        with zipfile.ZipFile(bomb, "w", zipfile.ZIP_DEFLATED) as packed:
            packed.writestr("xl/workbook.xml", b"0" * 60_000_000)
        entities = self.path("entities.xlsx", template())
        with zipfile.ZipFile(entities) as packed:
            parts = {name: packed.read(name) for name in packed.namelist()}
        evil = b'<!DOCTYPE x [<!ENTITY a "aaaaaaaaaa"><!ENTITY b "&a;&a;&a;">]>'
        with zipfile.ZipFile(entities, "w") as packed:
            for name, data in parts.items():
                packed.writestr(name, data.replace(b"<worksheet", evil + b"<worksheet", 1) if "sheet2" in name else data)
        for path in (bomb, entities, self.path("no.xlsx", b"PK nothing"), self.path("text.xlsx", LABELLED)):
            with self.assertRaises(BadSheet, msg=path):
                import_book(path)
        self.assertEqual(run("import", self.path("no.xlsx"), "-o", self.path("x.json"))[0], 2)

    def test_missing_sheet(self):
        book = openpyxl.load_workbook(self.path("t.xlsx", template()))
        del book["production"]
        book.save(self.path("s.xlsx"))
        with self.assertRaisesRegex(BadSheet, "a sheet named production is wanted"):
            import_book(self.path("s.xlsx"))

    @unittest.skipUnless(shutil.which("ssconvert"), "gnumeric is not there")
    def test_certificate(self):
        """Another program's arithmetic says of every split that the plan is the cheapest, and no longer where a cost is lowered."""
        case = season()
        for cost, due in ((None, "TRUE"), (0, "FALSE")):
            book = openpyxl.load_workbook(self.path("c.xlsx", export_book(case, case.plan())))
            if cost is not None:
                book["certificate"]["B2"].value += 1
            book.save(self.path("c.xlsx"))
            subprocess.run(["ssconvert", "-S", self.path("c.xlsx"), self.path("c-%s.csv")], check=True, capture_output=True)
            with open(self.path("c-certificate.csv"), encoding="utf-8") as stream:
                rows = [line.strip().split(",") for line in stream]
            self.assertEqual(rows[3][1], due)
            shown = [row for row in rows if row[-1] in ("TRUE", "FALSE")]
            self.assertEqual({row[-1] for row in shown} == {"TRUE"}, due == "TRUE")

    @unittest.skipUnless(shutil.which("ssconvert"), "gnumeric is not there")
    def test_certificate_is_tied(self):
        """Amounts, split, total and the splits listed are tied to the case and the plan: a wrong one is not TRUE."""
        case = A._replace(runs=(1, 1), ceilings=[[4, 4]] * 3)
        self.path("t.xlsx", export_book(case, case.plan()))
        lane, sums = "no lane is below 0 or above its ceiling", "freight and production are the total given"
        for change, tie in (
            ({}, None), ({"certificate!B1": 2}, "plant 1 sends the split given"), ({"certificate!B2": -49_967}, sums), ({"plan!B2": 2, "plan!B3": 1}, sums),
            ({"runs!B2": 4}, "plant 1 keeps run and supply"), ({"runs!B3": 2}, "plant 2 keeps run and supply"), ({"plan!B4": 1}, "each depot sends its stock"),
            ({"plan!B2": 2}, "each terminal gets its demand"), ({"plan!B2": 4, "plan!C2": -1}, lane), ({"ceilings!A1": 2}, lane),
            ({"certificate!A10": 2}, "the first split is the lowest"), ({"runs!B3": 2}, "the last split is the highest"),
            ({"certificate!A11": 1, "certificate!A12": 1}, "no split between is left out"),
        ):  # fmt: skip
            book = openpyxl.load_workbook(self.path("t.xlsx"))
            for place, value in change.items():
                sheet, cell = place.split("!")
                book[sheet][cell].value = value
            book.save(self.path("u.xlsx"))
            subprocess.run(["ssconvert", "-S", self.path("u.xlsx"), self.path("u-%s.csv")], check=True, capture_output=True)
            with open(self.path("u-certificate.csv"), encoding="utf-8") as stream:
                rows = [line.strip().replace('"', "").split(",") for line in stream]
            self.assertEqual(rows[3][1], "FALSE" if change else "TRUE", change)
            self.assertEqual([row[-1] for row in rows if row[0] == tie], ["FALSE"] if change else [], (change, tie))

    def test_export_command(self):
        out = self.path("plan.xlsx")
        self.assertEqual(run("export", os.path.join(EXAMPLES, "case_a", "tariff.csv"), os.path.join(EXAMPLES, "case_a", "production.csv"), "-o", out)[0], 0)
        self.assertEqual(import_book(out).case, A)
        sheet = openpyxl.load_workbook(out)["plan"]
        told = {row[0].value: row[1].value for row in sheet.iter_rows()}
        self.assertEqual((told["total"], told["Plant 1 makes"], told["fingerprint of the case"]), (33, 3, fingerprint(A)))


class Numbers(unittest.TestCase):
    def test_no_number_changes(self):
        """A text that is taken is the number that its digits spell; any other is refused."""
        draw = random.Random(9)
        for _ in range(3000):
            text = "".join(draw.choice("0123456789-., '") for _ in range(draw.randint(1, 7)))
            try:
                found = whole(Cell(text, "t!A1"), Notes(), signed=True)
            except BadSheet:
                continue
            digits = "".join(c for c in text if c in "-0123456789")
            self.assertEqual(str(found), digits)
            self.assertNotIn(".", text.strip(" ") if text.count(".") < 2 else "")


if __name__ == "__main__":
    unittest.main()
