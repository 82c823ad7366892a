"""The numbers, the words, the layout and the functions here are those of the C header."""

import re
import unittest

from common import HEADER, PYTHON, ROOT

import sinewhopa
from sinewhopa import Attributes, CallFault, Fate, JournalFault, Preview, RuleKind, SheetFault, State

CONSTANTS = {name: int(number) for name, number in re.findall(r"^#define SINEWHOPA_(\w+) (\d+)\b", HEADER, re.M)}
WORDS = (ROOT / "tests/words.txt").read_text()


def words(what):
    """The words of C for a fate or a number, from 0 on. The last one is for those unknown to it."""
    found = re.findall(rf"^{what} (\d+): (.*)$", WORDS, re.M)
    return {int(number): word for number, word in found}


def fields(struct):
    """The fields of a struct of the header, each with its offset and length."""
    body = HEADER[: HEADER.index(f"\n}} {struct};")].rpartition("typedef struct {\n")[2]
    places, end = {}, 0
    for name, lengths in re.findall(r"^    uint8_t (\w+)((?:\[\d+\])*);", body, re.M):
        length = 1
        for each in re.findall(r"\d+", lengths):
            length *= int(each)
        places[name] = (end, length)
        end += length
    return places


def layout(structure):
    """The fields of a structure of the module, each with its offset and length."""
    places = [(name, getattr(structure, name)) for name, _ in structure._fields_]
    return {name: (place.offset, place.size) for name, place in places}


class Header(unittest.TestCase):
    def test_numbers(self):
        expected = {
            "REPORT_MOST": sinewhopa.LONGEST_REPORT,
            "BATCH_MOST": sinewhopa.LONGEST_BATCH,
            "SHEET_MOST": sinewhopa.LONGEST_SHEET,
            "HAND_IN": sinewhopa._SUBMIT,
            "CLOSE_STEP": sinewhopa._CLOSE_STEP,
            "ADDED_COUNTS": len(Preview._fields),
        }
        expected.update({f"ADDED_{name.upper()}": place for place, name in enumerate(Preview._fields)})
        for enum in (Fate, Attributes, RuleKind):
            expected.update({member.name: member.value for member in enum})
        self.assertEqual({name: CONSTANTS[name] for name in expected}, expected)

    def test_numbers_of_journals(self):
        expected = {
            "FINISH": sinewhopa._FINISH,
            "ADVANCE": sinewhopa._ADVANCE,
            "RECORD_MOST": sinewhopa._RECORD_ROOM,
            "NO_ROOM": sinewhopa._NO_ROOM,
            "BAD_RECORD": sinewhopa._BAD_RECORD,
        }
        self.assertEqual({name: CONSTANTS[name] for name in expected}, expected)

    def test_versions(self):
        version = CONSTANTS["VERSION_MAJOR"], CONSTANTS["VERSION_MINOR"]
        self.assertEqual(sinewhopa.version(), version)
        self.assertEqual(sinewhopa._VERSION, version)
        package = re.search(r'^version = "(\d+)\.(\d+)\.\d+"$', (PYTHON / "pyproject.toml").read_text(), re.M)
        self.assertEqual(tuple(map(int, package.groups())), version)

    def test_words_of_fates(self):
        named = {fate.value: str(fate) for fate in Fate}
        self.assertEqual({**named, len(named): "unknown"}, words("fate"))

    def test_words_of_numbers(self):
        for number, word in words("number").items():
            of_sheet, of_call = number in sinewhopa._SHEET_TEXTS, number in sinewhopa._CALL_TEXTS
            self.assertEqual(of_sheet and of_call, number == 2)
            self.assertEqual(of_sheet or of_call, number > 0 and word != "a number that this version does not know")
            if of_sheet:
                said = word.replace("record or entry", "record")
                self.assertEqual(str(SheetFault(number, 9)), f"{said}, at offset 9 of the sheet")
            if of_call:
                self.assertEqual(str(CallFault(number)), word.replace("record or entry", "entry"))
        known = {0, *sinewhopa._SHEET_TEXTS, *sinewhopa._CALL_TEXTS}
        self.assertEqual(set(words("number")), known | {len(known)})

    def test_words_of_journals(self):
        """The header has no words of its own yet for a journal's number: the module has them alone."""
        self.assertEqual(set(sinewhopa._JOURNAL_TEXTS), {sinewhopa._BAD_RECORD})
        for number, text in sinewhopa._JOURNAL_TEXTS.items():
            self.assertNotIn(number, {**sinewhopa._SHEET_TEXTS, **sinewhopa._CALL_TEXTS})
            self.assertEqual(words("number")[number], "a number that this version does not know")
            fault = JournalFault(number, 9, State.open(b"\x05"))
            self.assertEqual(str(fault), f"{text}, at offset 9 of the journal")

    def test_layout(self):
        self.assertEqual(layout(sinewhopa._Image), fields("sinewhopa_state"))
        self.assertEqual(layout(sinewhopa._Entry), fields("sinewhopa_entry"))
        image = fields("sinewhopa_state")
        self.assertEqual(sum(length for _, length in image.values()), sinewhopa.STATE_LENGTH)

    def test_functions(self):
        """Each declared function is called here, with as many arguments, and of the declared types."""
        types = {"uint8_t": "c_ubyte", "uint16_t": "c_ushort", "uint32_t": "c_uint", "size_t": "c_ulong"}
        pointers = {
            "sinewhopa_state": {"LP__Image"},
            "sinewhopa_entry": {"LP__Entry"},
            "uint8_t": {"c_char_p", "LP_c_char", "LP_c_ubyte"},
            "size_t": {"LP_c_ulong"},
        }
        declared = re.findall(r"^(\w+) (sinewhopa_\w+)\(([^)]*)\);", HEADER, re.M)
        self.assertEqual({name for _, name, _ in declared}, set(sinewhopa._signatures()))
        for returned, name, taken in declared:
            gives, takes = sinewhopa._signatures()[name]
            self.assertEqual(gives.__name__, types[returned], name)
            parameters = [] if taken == "void" else taken.split(",")
            self.assertEqual(len(takes), len(parameters), name)
            for parameter, given in zip(parameters, takes):
                word = parameter.replace("const", "").split()[0]
                allowed = pointers[word] if "*" in parameter or "[" in parameter else {types[word]}
                self.assertIn(given.__name__, allowed, (name, parameter))


if __name__ == "__main__":
    unittest.main()
