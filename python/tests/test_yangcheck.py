"""Tests of the Python module. The package must be importable, with its library: `tests/run library` sees to that.

What is expected comes from README.md and the pages of docs/.
"""
import concurrent.futures
import os
import pickle
import unittest

import yangcheck

EXAMPLES = os.path.join(os.path.dirname(os.path.abspath(__file__)), "..", "..", "examples")
SIZE = "module ex { yang-version 1.1; namespace urn:ex; prefix ex; feature f; leaf size { type int8; } %s }"
MEBIBYTE = 1 << 20
MOST_BYTES = 16 * MEBIBYTE


def example(name):
    """The bytes of a file of examples/."""
    with open(os.path.join(EXAMPLES, name), "rb") as file:
        return file.read()


def modules(more="", **options):
    """A module with a leaf of eight bits, a feature, and more."""
    return yangcheck.Modules({"ex.yang": SIZE % more}, **options)


class OfModules(unittest.TestCase):
    """What compilation answers."""

    def test_nodes_are_counted(self):
        self.assertEqual(yangcheck.Modules({"examples/ex.yang": example("ex.yang")}).nodes, 4)

    def test_a_refusal_has_its_place_and_code(self):
        with self.assertRaises(yangcheck.Refusal) as caught:
            yangcheck.Modules({"examples/broken.yang": example("broken.yang")})
        error = caught.exception
        found = error.file, error.line, error.column, error.offset, error.code
        self.assertEqual(found, ("examples/broken.yang", 7, 5, 110, "Cardinality"))
        self.assertEqual(error.summary, "examples/broken.yang:7: Cardinality")
        self.assertIn('"leaf" needs the substatement `type`', error.note)
        self.assertEqual(str(error), f"{error.summary}\n{error.note}".rstrip("\n"))

    def test_a_module_that_is_missing_is_a_refusal(self):
        with self.assertRaises(yangcheck.Refusal) as caught:
            yangcheck.Modules({"network.yang": example("network.yang")})
        self.assertEqual(caught.exception.code, "MissingModule")

    def test_modules_of_several_files(self):
        names = ("network.yang", "network-ports.yang", "site.yang")
        found = yangcheck.Modules({name: example(name) for name in names}, import_only=["site"])
        self.assertEqual(found.nodes, 6)

    def test_names_of_files_may_be_odd(self):
        for name in ("-", "--", "-x", "a b", "größe.yang", "--help", "a\nb"):
            self.assertEqual(yangcheck.Modules({name: SIZE % ""}).nodes, 1, name)

    def test_texts_may_be_of_several_types(self):
        text = (SIZE % "").encode()
        for given in (text, text.decode(), bytearray(text), memoryview(text)):
            self.assertEqual(yangcheck.Modules({"ex.yang": given}).nodes, 1)

    def test_features_that_are_supported(self):
        more = "leaf other { if-feature f; type string; }"
        self.assertEqual(modules(more).nodes, 2)
        self.assertEqual(modules(more, support={"ex": []}).nodes, 1)
        self.assertEqual(modules(more, support={"ex": ["f"], "site": []}).nodes, 2)

    def test_a_name_of_the_selection_that_means_nothing_has_a_note(self):
        self.assertEqual(modules().note, "")
        self.assertIn('no feature "g"', modules(support={"ex": ["f", "g"]}).note)
        self.assertEqual(modules(support={"ex": ["g"]}).validate("{}").note, "")

    def test_the_limit_on_nodes(self):
        self.assertEqual(modules(max_nodes=1).nodes, 1)
        with self.assertRaises(yangcheck.Refusal) as caught:
            modules("leaf other { type string; }", max_nodes=1)
        self.assertEqual(caught.exception.code, "TooManyNodes")

    def test_wrong_arguments(self):
        wrong = [
            {"max_nodes": 0}, {"support": {"": []}}, {"support": {"ex": ["a,b"]}}, {"support": {"ex": ["1"]}},
            {"import_only": ["a/b"]},
        ]
        for options in wrong:
            with self.assertRaises(yangcheck.UsageError, msg=options):
                modules(**options)
        for options in ({"import_only": "ex"}, {"support": {"ex": "f"}}):
            with self.assertRaises(TypeError, msg=options):
                modules(**options)

    def test_a_wrong_option_is_named(self):
        with self.assertRaisesRegex(yangcheck.UsageError, "^--max-nodes takes a number from 1 to 1000000"):
            modules(max_nodes=0)

    def test_wrong_sets_of_files(self):
        with self.assertRaisesRegex(yangcheck.UsageError, "there are no files"):
            yangcheck.Modules({})
        with self.assertRaisesRegex(yangcheck.UsageError, "257 files were given"):
            yangcheck.Modules({str(number): "" for number in range(257)})
        with self.assertRaises(TypeError):
            yangcheck.Modules({"ex.yang": 5})


class OfTrees(unittest.TestCase):
    """What is drawn."""

    def test_a_tree(self):
        wanted = "module: ex\n  +--rw size? int8\n"
        self.assertEqual(modules().tree("ex"), wanted)
        self.assertEqual(modules().tree(), wanted)
        self.assertEqual(modules().tree("ex", "ex"), wanted + "\n" + wanted)

    def test_columns_and_parts_of_a_tree(self):
        found = modules("container c { leaf long-name { type string; } leaf a { type int8; } }")
        self.assertEqual(found.tree(columns=True, below="/ex:c"), "\n".join([
            "module: ex", "  +--rw c", "     +--rw long-name?   string", "     +--rw a?           int8", ""]))
        self.assertEqual(found.tree(depth=1), "module: ex\n  +--rw size? int8\n  +--rw c\n     ...\n")

    def test_what_is_not_there(self):
        for given, options in ((["zz"], {}), ([], {"below": "/ex:zz"})):
            with self.assertRaises(yangcheck.MissingNode):
                modules().tree(*given, **options)
        with self.assertRaisesRegex(LookupError, 'there is no module "zz"'):
            modules().tree("zz")


class OfDocuments(unittest.TestCase):
    """What is found in documents."""

    def test_a_valid_document(self):
        found = yangcheck.Modules({"ex.yang": example("ex.yang")}).validate(example("top.json"))
        self.assertEqual((found, found.note), ([], ""))

    def test_faults_with_sentences(self):
        found = yangcheck.Modules({"ex.yang": example("ex.yang")}).validate(example("misspelt.json"))
        wanted = [("unknown", "/ex:top/nmae"), ("value", "/ex:top/priority")]
        self.assertEqual([(fault.kind, fault.path) for fault in found], wanted)
        self.assertEqual([fault.pointer for fault in found], [path for _, path in wanted])
        first, second = found.note.splitlines()
        self.assertEqual(first, '3:5: unknown /ex:top/nmae: there is no such member here; did you mean "name"?')
        self.assertTrue(second.startswith("4:17: value /ex:top/priority: "), second)

    def test_paths_count_from_one_and_pointers_from_zero(self):
        found = modules("leaf-list l { type int8; }").validate('{"ex:l": [1, "x"]}')
        self.assertEqual(found, [yangcheck.Fault("value", "/ex:l[2]", "/ex:l/1")])

    def test_the_number_of_a_unique_statement(self):
        more = "list e { key k; unique v; leaf k { type int8; } leaf v { type int8; } }"
        found = modules(more).validate('{"ex:e": [{"k": 1, "v": 1}, {"k": 2, "v": 1}]}')
        self.assertEqual([(fault.kind, fault.path, fault.unique) for fault in found], [("unique", "/ex:e[2]", 1)])

    def test_kinds(self):
        found = modules("leaf s { config false; type int8; }")
        self.assertEqual(found.validate('{"ex:s": 1}'), [])
        self.assertEqual(found.validate('{"ex:s": 1}', kind="config")[0].kind, "state")
        with self.assertRaisesRegex(yangcheck.UsageError, "^--kind takes data or config"):
            found.validate("{}", kind="operational")

    def test_explain(self):
        document = '{"ex:l": ["a", "b", "c"]}'
        found = modules("leaf-list l { type int8; }", explain=0).validate(document)
        self.assertEqual((len(found), "/ex:l" in found.note), (3, False))

    def test_documents_that_cannot_be_read(self):
        large = b" " * (MOST_BYTES + 1)
        for document, verdict in ((b"{", "not-json"), ("", "not-json"), (b"\xff", "not-json"), (large, "too-large")):
            with self.assertRaises(yangcheck.UnreadableDocument) as caught:
                modules().validate(document)
            self.assertEqual(caught.exception.verdict, verdict)
            self.assertTrue(caught.exception.note)
            self.assertIsInstance(caught.exception, ValueError)

    def test_many_documents(self):
        documents = ['{"ex:size": 1}', "{", '{"ex:size": 200, "ex:x": 0}', b" " * (MOST_BYTES + 1), "{}"]
        documents.append('{"ex:size": 200}')
        found = modules().validate_each(documents)
        wanted = ["valid", "not-json", "faulty", "too-large", "valid", "faulty"]
        self.assertEqual([answer.verdict for answer in found], wanted)
        self.assertEqual([answer.is_valid for answer in found], [verdict == "valid" for verdict in wanted])
        self.assertEqual([len(answer.faults) for answer in found], [0, 0, 2, 0, 0, 1])
        self.assertEqual([bool(answer.faults.note) for answer in found], [verdict != "valid" for verdict in wanted])
        self.assertTrue(found[5].faults.note.startswith("1:13: value /ex:size: "), found[5].faults.note)

    def test_no_documents(self):
        self.assertEqual(modules().validate_each([]), [])

    def test_documents_by_a_generator(self):
        found = modules().validate_each('{"ex:size": %d}' % number for number in range(126, 130))
        self.assertEqual([answer.is_valid for answer in found], [True, True, False, False])

    def test_more_documents_than_one_buffer_holds(self):
        count = 20_000
        found = modules().validate_each(['{"ex:size": 200}', "{}"] * (count // 2))
        self.assertEqual([answer.verdict for answer in found], ["faulty", "valid"] * (count // 2))

    def test_one_document_in_the_place_of_many(self):
        for wrong in ("{}", b"{}", bytearray(b"{}")):
            with self.assertRaises(TypeError):
                modules().validate_each(wrong)
        with self.assertRaises(TypeError):
            modules().validate({"ex:size": 1})

    def test_a_note_that_begins_like_a_name(self):
        with self.assertRaises(yangcheck.UnreadableDocument) as caught:
            modules().validate("0: {")
        self.assertEqual(caught.exception.verdict, "not-json")


class OfLimits(unittest.TestCase):
    """What holds for all calls."""

    def test_the_limit_on_the_output(self):
        document = '{"ex:l": [%s]}' % ",".join(['"x"'] * 30_000)
        found = modules("leaf-list l { type int8; }")
        self.assertEqual(len(found.validate(document)), 30_000)
        with self.assertRaises(yangcheck.OutputTooLarge) as caught:
            modules("leaf-list l { type int8; }", max_output=MEBIBYTE).validate(document)
        self.assertGreater(caught.exception.length, MEBIBYTE)
        for most in (0, -1, -(1 << 64)):
            with self.assertRaises(yangcheck.OutputTooLarge, msg=most):
                modules(max_output=most)

    def test_errors_and_answers_can_be_pickled(self):
        failures = [
            lambda: yangcheck.Modules({"ex.yang": ""}), lambda: modules().validate("{"), lambda: modules().tree("zz"),
            lambda: modules(max_nodes=0), lambda: modules(max_output=1),
        ]
        for failure in failures:
            with self.assertRaises(yangcheck.Error) as caught:
                failure()
            error = caught.exception
            copy = pickle.loads(pickle.dumps(error))
            self.assertEqual((type(copy), str(copy), vars(copy)), (type(error), str(error), vars(error)))
        found = pickle.loads(pickle.dumps(modules())).validate_each(['{"ex:size": 200}'])
        copy = pickle.loads(pickle.dumps(found))
        self.assertEqual((copy, copy[0].faults.note), (found, found[0].faults.note))

    def test_threads(self):
        found = modules()

        def faults(number):
            return len(found.validate('{"ex:size": %d}' % number))

        with concurrent.futures.ThreadPoolExecutor(8) as pool:
            self.assertEqual(list(pool.map(faults, range(0, 256))), [int(number > 127) for number in range(0, 256)])

    def test_version(self):
        self.assertRegex(yangcheck.version(), r"^yangcheck \d+\.\d+\.\d+ \(.+\)$")


if __name__ == "__main__":
    unittest.main()
