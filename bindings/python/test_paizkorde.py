"""Tests of paizkorde.py beside python's json."""

import ctypes
import copy
import gc
import json
import os
import pickle
import random
import sys
import unittest
import unittest.mock
from concurrent.futures import ThreadPoolExecutor

from paizkorde import Buffers, Document, JsonError, Value, session


def tearDownModule():
    """All that the library asked for was given back; the tests' shared object counts it (counted.c)."""
    gc.collect()
    blocks = ctypes.CDLL(os.environ["PAIZKORDE"]).sj_blocks
    blocks.restype = ctypes.c_long
    left = blocks()
    if left:
        raise AssertionError(f"{left} blocks were not given back")


NUMBERS = [
    0,
    1,
    -1,
    2**63 - 1,
    -(2**63),
    2**63,
    2**64 - 1,
    2**64,
    -(2**127),
    2**127,
    2**128 - 1,
]


def made(rng, depth=0):
    """A random value: what json and JSON have in common, without fractions."""
    kind = rng.randrange(8 if depth < 5 else 5)
    if kind == 0:
        return None
    if kind == 1:
        return rng.random() < 0.5
    if kind == 2:
        return rng.choice(NUMBERS + [rng.randrange(-(10**6), 10**6)])
    if kind in (3, 4):
        return "".join(rng.choice('aé~/"\\\n\u0001 \U0001f600z') for _ in range(rng.randrange(9)))
    if kind in (5, 6):
        return [made(rng, depth + 1) for _ in range(rng.randrange(5))]
    return {
        "".join(rng.choice("ab~/é") for _ in range(rng.randrange(4))): made(rng, depth + 1)
        for _ in range(rng.randrange(5))
    }


def compact(value):
    return json.dumps(value, ensure_ascii=False, separators=(",", ":"))


class BesideJson(unittest.TestCase):
    def test_random_documents(self):
        rng = random.Random(7)
        for _ in range(400):
            value = made(rng)
            for text in (json.dumps(value), compact(value), json.dumps(value, indent=3)):
                doc = Document.parse(text)
                self.assertEqual(json.loads(str(doc)), value)
                self.assertEqual(compact(json.loads(doc.dumps(pretty=True))), compact(value))
                self.assertEqual(compact(doc.to_python()), compact(value))
            self.assertEqual(Document.of(value), doc)
            self.assertEqual(doc.copy(), doc)
            self.assertEqual(Document.parse(str(doc)), doc)

    def test_cut_texts(self):
        rng = random.Random(8)
        refused = 0
        for _ in range(300):
            text = json.dumps(made(rng)).encode()
            cut = text[: rng.randrange(len(text) + 1)]
            try:
                want = json.loads(cut)
            except ValueError:
                refused += 1
                with self.assertRaises(JsonError):
                    Document.parse(cut)
            else:
                self.assertEqual(Document.parse(cut).to_python(), want)
        self.assertGreater(refused, 50)

    def test_parts_and_edits(self):
        rng = random.Random(9)
        for _ in range(300):
            value = {"a": made(rng), "b": [made(rng), made(rng)]}
            doc = Document.parse(json.dumps(value))
            new = made(rng)
            old = doc.insert("", "a", new)
            self.assertEqual(old.to_python(), value["a"])
            value["a"] = new
            doc.push("/b", new)
            value["b"].append(new)
            self.assertEqual(doc.put("/b/0", True).to_python(), value["b"][0])
            value["b"][0] = True
            self.assertEqual(doc.to_python(), value)
            self.assertEqual(doc.pop("/b").to_python(), value["b"].pop())
            self.assertEqual([item.to_python() for item in doc["b"]], value["b"])
            self.assertEqual(json.loads(str(doc["b"])), value["b"])
            self.assertEqual(doc["b"].copy().to_python(), value["b"])
            doc.remove("", "b")
            self.assertEqual(list(doc), ["a"])


class Calls(unittest.TestCase):
    def test_mappings_and_sequences(self):
        doc = Document.parse('{"a":{"l":[1,"x"]},"~/":null}')
        self.assertEqual(doc.keys(), ["a", "~/"])
        self.assertEqual(len(doc), 2)
        self.assertIn("a", doc)
        self.assertNotIn("b", doc)
        self.assertIsNone(doc["~/"].to_python())
        self.assertEqual(doc["a"]["l"][-1].to_python(), "x")
        self.assertIn("x", doc["a"]["l"])
        self.assertEqual({key: value.to_python() for key, value in doc.items()}, doc.to_python())
        self.assertIsNone(doc.get("b"))
        self.assertIsNone(doc.pointer("/x/y"))
        self.assertIsInstance(doc.pointer("/a/l/0"), Value)
        for key, error in (("b", KeyError), (0, TypeError)):
            with self.assertRaises(error):
                doc[key]
        with self.assertRaises(IndexError):
            doc["a"]["l"][2]
        with self.assertRaises(TypeError):
            len(doc["~/"])

    def test_refused_texts(self):
        for text, why in (
            ("1.0", "fraction"),
            ("[1e3]", "fraction"),
            ("", "syntax"),
            (b'"\xff"', "UTF-8"),
            ("[" * 1025, "deep"),
            ("9" * 40, "large"),
            ('"\\udc00"', "surrogate"),
        ):
            with self.assertRaisesRegex(JsonError, why):
                Document.parse(text)

    def test_refused_edits(self):
        doc = Document.parse('{"a":[1]}')
        for call, code in (
            (lambda: doc.push("", 1), 6),
            (lambda: doc.insert("/a", "k", 1), 5),
            (lambda: doc.insert("/b", "k", 1), 5),
            (lambda: doc.set("/a/1/k", 1), 5),
            (lambda: doc.put("/b", 1), 4),
            (lambda: doc.pointer("a"), 7),
            (lambda: Document.of(2**128), 20),
        ):
            with self.assertRaises(JsonError) as caught:
                call()
            self.assertEqual(caught.exception.code, code)
        with self.assertRaises(TypeError):
            Document.of(1.5)
        self.assertEqual(str(doc), '{"a":[1]}')

    def test_set(self):
        doc = Document.parse('{"a":[1]}')
        self.assertIsNone(doc.set("/b/c", {"d": 1}))
        self.assertEqual(str(doc.set("/b/c", 2)), '{"d":1}')
        self.assertEqual(doc.to_python(), {"a": [1], "b": {"c": 2}})

    def test_patches(self):
        """Examples of RFC 6902, appendix A."""
        doc = Document.parse('{"foo":["bar","baz"]}')
        doc.patch([{"op": "add", "path": "/foo/1", "value": "qux"}])
        self.assertEqual(doc.to_python(), {"foo": ["bar", "qux", "baz"]})
        doc.patch(Document.parse('[{"op":"move","from":"/foo/0","path":"/foo/2"}]'))
        self.assertEqual(doc.to_python(), {"foo": ["qux", "baz", "bar"]})
        for operations, code, operation in (
            ([{"op": "test", "path": "", "value": doc}, {"op": "remove", "path": "/x"}], 48, 1),
            ([{"op": "add", "path": "/foo/9", "value": 1}], 49, 0),
            ([{"op": "test", "path": "/foo/0", "value": "bar"}], 52, 0),
            ([{"op": "add", "path": "/foo"}], 37, 0),
            ({}, 32, None),
        ):
            with self.assertRaises(JsonError) as caught:
                doc.patch(operations)
            self.assertEqual((caught.exception.code, caught.exception.operation), (code, operation))
        self.assertEqual(doc.to_python(), {"foo": ["qux", "baz", "bar"]})

    def test_merges(self):
        """The examples of RFC 7396, appendix A, but for those with nulls in the target."""
        for target, patch, want in (
            ({"a": "b"}, {"a": "c"}, {"a": "c"}),
            ({"a": "b"}, {"b": "c"}, {"a": "b", "b": "c"}),
            ({"a": "b"}, {"a": None}, {}),
            ({"a": "b", "b": "c"}, {"a": None}, {"b": "c"}),
            ({"a": ["b"]}, {"a": "c"}, {"a": "c"}),
            ({"a": {"b": "c"}}, {"a": {"b": "d", "c": None}}, {"a": {"b": "d"}}),
            (["a", "b"], ["c", "d"], ["c", "d"]),
            ({"a": "foo"}, None, None),
            ([1, 2], {"a": "b", "c": None}, {"a": "b"}),
            ({}, {"a": {"bb": {"ccc": None}}}, {"a": {"bb": {}}}),
        ):
            doc = Document.of(target)
            doc.merge(patch)
            self.assertEqual(doc.to_python(), want)
        self.assertEqual(str(Document.parse('{"a":1,"b":2}').merge_diff({"b": 3})), '{"a":null,"b":3}')
        self.assertIsNone(Document.parse("{}").merge_diff({"a": None}))

    def test_differences(self):
        rng = random.Random(10)
        for _ in range(200):
            value, other = {"a": made(rng), "b": made(rng)}, {"a": made(rng), "c": made(rng)}
            doc, to = Document.of(value), Document.of(other)
            doc.patch(doc.diff(to))
            self.assertEqual(doc, to)
            self.assertEqual(doc.canonical(), to.canonical())
            self.assertEqual(str(doc.diff(to)), "[]")
        self.assertEqual(str(doc.diff(doc)), "[]")
        self.assertEqual(Document.parse('{"b":1,"a":"\\u00e9"}').canonical(), '{"a":"é","b":1}')

    def test_deep(self):
        doc = Document.parse("[" * 1024 + "]" * 1024)
        for _ in range(100):
            around = Document.of([])
            around.push("", doc)
            doc = around
        self.assertEqual(doc, doc.copy())
        self.assertNotEqual(doc, Document.of([]))
        with self.assertRaises(JsonError):
            doc.diff(doc.copy())
        with self.assertRaises(JsonError):
            pickle.dumps(doc)

    def test_first_and_last(self):
        self.assertEqual(str(Document.parse('{"k":1,"j":2,"k":3}')), '{"k":1,"j":2}')
        self.assertEqual(str(Document.parse('{"k":1,"j":2,"k":3}', last=True)), '{"k":3,"j":2}')

    def test_one_after_another(self):
        buffers = Buffers()
        for text in ["[1,[2,3]]", "[4]", '{"k":5}']:
            self.assertEqual(str(Document.parse_with_buffers(text, buffers)), text)
        with self.assertRaises(JsonError):
            Document.parse_with_buffers("[", buffers)
        self.assertEqual(str(Document.parse_with_buffers("[6]", buffers)), "[6]")

    def test_sessions(self):
        doc = Document.parse('{"a":[1]}')
        self.assertEqual(
            doc.session(["push", "/a", {"b": 2}], ["encode", "/a/1"], ["get"]),
            ["ok", '{"b":2}', "bad command"],
        )
        self.assertEqual(session('{"a":1}\n---\n["kind","/a"]\n["encode",[]]\n'), 'U64\n{"a":1}\n')

    def test_copies(self):
        doc = Document.parse("[[1]]")
        other = copy.deepcopy(doc)
        other.push("/0", 2)
        self.assertEqual((str(doc), str(other)), ("[[1]]", "[[1,2]]"))
        self.assertNotEqual(doc, other)
        self.assertEqual(eval(repr(doc)), doc)

    def test_threads(self):
        doc = Document.parse("[]")
        for place in range(4):
            with ThreadPoolExecutor(1) as thread:
                thread.submit(doc.push, "", place).result()
        self.assertEqual(str(doc), "[0,1,2,3]")

    def test_threads_that_read_while_others_edit(self):
        doc, texts = Document.of({"k": "a" * 1000}), set()

        def edit():
            for number in range(10_000):
                doc.insert("", "k", ("a" if number % 2 else "b") * 1000)

        def read():
            for _ in range(10_000):
                texts.update(value.to_python() for _, value in doc.items())

        interval = sys.getswitchinterval()
        sys.setswitchinterval(1e-6)
        try:
            with ThreadPoolExecutor(3) as threads:
                for done in [threads.submit(what) for what in (edit, read, read)]:
                    done.result()
        finally:
            sys.setswitchinterval(interval)
        self.assertLessEqual(texts, {"a" * 1000, "b" * 1000})
        self.assertTrue(texts)

    def test_what_is_no_document_is_not_the_same(self):
        self.assertFalse(Document.of("a") == "\ud800")
        self.assertEqual(Document.of(1), unittest.mock.ANY)
        self.assertFalse("\ud800" in Document.of({"a": 1}))
        self.assertIsNone(Document.of({"a": 1}).get("\ud800"))
        with self.assertRaises(TypeError):
            Document.of({"a": 1}).pointer(b"/a")
        with self.assertRaises(TypeError):
            "a" in Document.of("abc")

    def test_pickles(self):
        doc = Document.of({"a": [1, "b"]})
        self.assertEqual(pickle.loads(pickle.dumps(doc)), doc)
        fault = pickle.loads(pickle.dumps(JsonError(17)))
        self.assertEqual((fault.code, str(fault)), (17, "syntax error"))


if __name__ == "__main__":
    unittest.main()
