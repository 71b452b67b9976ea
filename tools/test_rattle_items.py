"""Unit tests of tools/rattle_items.py, over small sources."""
import tempfile
import unittest
from pathlib import Path

from rattle_items import first_sentence, items_in, public_api, type_and_trait, uses_in
from rattle_source import masked


def signatures(text):
    """Returns the kind, signature and description of each item of a source."""
    return [(item.kind, item.signature, item.description) for item in items_in(text, masked(text))]


class Items(unittest.TestCase):
    def only(self, text, signature, description=""):
        self.assertEqual([item[1:] for item in signatures(text)], [(signature, description)])

    def test_a_function_with_clauses(self):
        self.only(
            "/// Returns n. It is small.\n#[inline]\npub fn f<T>(\n    n: u8,\n) -> u8\n"
            "    requires { n < 9 }\n    ensures { result ≡ n }\n{\n    n\n}\n",
            "fn f<T>(n: u8) -> u8",
            "Returns n.",
        )

    def test_a_function_without_a_body(self):
        self.only("fn f(a: [u8; 4]) -> u8\n    ensures { result ≡ 0 };\n", "fn f(a: [u8; 4]) -> u8")

    def test_a_constant(self):
        self.only("pub const A: B = B { x: 1 };\n", "const A: B")

    def test_an_enum_has_its_variants_and_their_values(self):
        text = "/// It is a.\npub enum A<T> {\n    /// One.\n    B(T),\n    C { x: u8 },\n}\n"
        self.only(text, "enum A<T> { B(T), C { x: u8 } }", "It is a.")

    def test_a_struct_has_its_public_fields(self):
        self.only("pub struct A {\n    pub x: u8,\n    y: u8,\n}\n", "struct A { x: u8 }")
        self.only("pub struct A(u8);\n", "struct A")
        self.only("pub struct A(pub u8);\n", "struct A(pub u8)")

    def test_several_items(self):
        text = "mod a;\nuse b::C;\nfn f() {}\nimpl A {\n    pub fn g() {}\n}\ntrait B: C {}\n"
        kinds = [kind for kind, _, _ in signatures(text)]
        self.assertEqual(kinds, ["mod", "use", "fn", "impl", "trait"])

    def test_a_comment_declares_nothing(self):
        self.assertEqual(signatures("// pub fn f() {}\n/* pub fn g() {} */\n"), [])


class Parts(unittest.TestCase):
    def test_sentences(self):
        self.assertEqual(
            first_sentence("It is 1.5 times\n[`A`](b::A). The rest."), "It is 1.5 times `A`."
        )
        self.assertEqual(first_sentence("A thing: that\n\nMore."), "A thing: that")

    def test_uses(self):
        self.assertEqual(uses_in("use a::b"), [("b", ["a", "b"])])
        expected = [("c", ["a", "b", "c"]), ("e", ["a", "b", "d"]), ("g", ["a", "f", "g"])]
        self.assertEqual(uses_in("use a::{b::{c, d as e}, f::g}"), expected)

    def test_impls(self):
        self.assertEqual(type_and_trait("impl<'a, T: Into<u8>> A<'a, T>"), ("A", ""))
        self.assertEqual(type_and_trait("impl std::convert::From<a::B> for C<D>"), ("C", "From<B>"))


class Api(unittest.TestCase):
    def test_an_item_is_under_its_shortest_path(self):
        files = {
            "low/src/lib.rt": "pub mod a;\n",
            "low/src/a.rt": "//! It is a.\npub mod b;\nmod c;\npub use b::B;\npub use c::C;\n",
            "low/src/a/b.rt": "pub struct B;\nimpl B {\n    pub fn f() {}\n    fn g() {}\n}\n",
            "low/src/a/c.rt": "mod d;\nuse crate::a::B;\npub struct C;\nimpl From<B> for C {}\n"
            "trait Own {}\nimpl Own for C {}\nstruct D;\nimpl From<D> for C {}\n"
            "impl C {\n    pub fn new() {}\n}\n",
            "low/src/a/c/d.rt": "use super::C;\nimpl C {\n    pub fn h() {}\n}\n",
            "top/src/lib.rt": "pub use low::a;\nfn hidden() {}\n",
        }
        with tempfile.TemporaryDirectory() as folder:
            for name, text in files.items():
                path = Path(folder) / name
                path.parent.mkdir(parents=True, exist_ok=True)
                path.write_text(text, encoding="utf-8")
            api = public_api("top", {name: Path(folder) / name / "src" for name in ("low", "top")})
        self.assertEqual(list(api), [("a",)])
        module, entries = api[("a",)]
        self.assertEqual(module.description, "It is a.")
        found = [
            (entry.item.name, [member.name for member in entry.members], entry.traits)
            for entry in entries
        ]
        self.assertEqual(found, [("B", ["f"], []), ("C", ["new", "h"], ["From<B>"])])
