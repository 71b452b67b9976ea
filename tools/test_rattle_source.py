"""Unit tests of tools/rattle_source.py, over small sources."""

import unittest

from rattle_source import bodies_of, end_of_braces, masked


def read(text, path="src/frame.rt"):
    """Returns the bodies of a source by their places."""
    return {body.place: body for body in bodies_of(path, text)}


def body_of(text, place, path="src/frame.rt"):
    """Returns the text of the body of the function at a place."""
    body = read(text, path)[place]
    return text[body.start : body.end]


class Masked(unittest.TestCase):
    def check(self, text, expected):
        self.assertEqual(masked(text), expected)
        self.assertEqual(len(masked(text)), len(text))

    def test_comments(self):
        self.check("a // {\nb", "a     \nb")
        self.check("a /* { \n } */ b", "a      \n      b")

    def test_strings(self):
        self.check('f("{ \\" }")', "f(" + " " * 8 + ")")
        self.check('b"\\\\" }', "      }")
        self.check('r#"a " { "# }', " " * 11 + " }")

    def test_a_comment_in_a_string_is_text(self):
        self.check('"//" }', "     }")

    def test_characters(self):
        self.check("'{' '}'", "       ")
        self.check(r"b'\'' {", "      {")
        self.check(r"'\\' {", "     {")
        self.check(r"'\u{7d}' {", "         {")

    def test_lifetimes_are_code(self):
        self.check("<'a, 'b: 'a>", "<'a, 'b: 'a>")


class EndOfBraces(unittest.TestCase):
    def test_nested(self):
        self.assertEqual(end_of_braces("x { { } } }", 2), 9)

    def test_never_closed(self):
        self.assertIsNone(end_of_braces("{ {}", 0))


class Bodies(unittest.TestCase):
    def test_a_function(self):
        self.assertEqual(body_of("pub fn add(a: u8) -> u8 { a + 1 }", "frame::add"), "{ a + 1 }")

    def test_the_module_is_the_path(self):
        for path, place in [
            ("src/lib.rt", "f"),
            ("src/a/b.rt", "a::b::f"),
            ("src/a/mod.rt", "a::f"),
        ]:
            self.assertEqual(list(read("fn f() {}", path)), [place])

    def test_generics_and_lifetimes(self):
        text = (
            "fn take<'a, R: Reader<'a>, const N: usize>(r: &'a mut R) -> [u8; N] "
            "where R: Copy { [0; N] }"
        )
        self.assertEqual(body_of(text, "frame::take"), "{ [0; N] }")

    def test_the_semicolon_of_an_array_ends_nothing(self):
        self.assertEqual(body_of("fn f(a: [u8; 4], b: [[u8; 2]; 3]) { 1 }", "frame::f"), "{ 1 }")

    def test_clauses_before_the_body(self):
        text = (
            "fn f(n: u8) -> u8\n    requires low { n < 9 }\n"
            "    ensures { result ≡ record { at = n } }\n{\n    n\n}"
        )
        self.assertEqual(body_of(text, "frame::f"), "{\n    n\n}")

    def test_a_ghost_clause_before_the_body(self):
        self.assertEqual(
            body_of("fn f() ghost n: { ℕ } ensures { n ≡ n } { 2 }", "frame::f"), "{ 2 }"
        )

    def test_braces_in_text(self):
        text = (
            "fn f() -> char {\n    // }\n"
            "    let s = \"}\"; let q = '\\''; let c = '{';\n    '}'\n}\n"
            "fn g() { 1 }\n"
        )
        self.assertTrue(body_of(text, "frame::f").endswith("'}'\n}"))
        self.assertEqual(body_of(text, "frame::g"), "{ 1 }")

    def test_a_function_in_a_comment_is_none(self):
        self.assertEqual(read("// fn f() {}\n/* fn g() {} */"), {})

    def test_a_trait_has_functions_without_a_body(self):
        text = (
            "pub trait Reader<'a>: Copy {\n"
            "    fn len(&self) -> usize\n        ensures { result ≡ 0 };\n"
            "    fn is_empty(&self) -> bool { self.len() == 0 }\n}\n"
        )
        self.assertEqual(list(read(text)), ["frame::Reader::is_empty"])
        self.assertFalse(read(text)["frame::Reader::is_empty"].can_be_left_out)

    def test_an_impl_of_a_type_of_the_file(self):
        text = "struct Frame<T>(T);\nimpl<T> Frame<T> {\n    fn len(&self) -> usize { 1 }\n}\n"
        self.assertEqual(body_of(text, "frame::Frame::len"), "{ 1 }")
        self.assertTrue(read(text)["frame::Frame::len"].can_be_left_out)

    def test_an_impl_of_a_type_of_another_file(self):
        self.assertFalse(
            read("impl Frame { fn len(&self) {} }")["frame::Frame::len"].can_be_left_out
        )

    def test_an_impl_of_a_trait(self):
        text = (
            "struct Iter;\nimpl<'a> std::iter::Iterator for Iter<'a> {\n"
            "    fn next(&mut self) -> u8 { 1 }\n}\n"
        )
        self.assertEqual(list(read(text)), ["frame::IterIterator::next"])
        self.assertFalse(read(text)["frame::IterIterator::next"].can_be_left_out)

    def test_an_impl_of_a_type_at_an_argument(self):
        text = "struct Stream<K, S>(K, S);\nimpl<K> Stream<K, WT> {\n    fn id(&self) {}\n}\n"
        self.assertEqual(list(read(text)), ["frame::Stream+K+WT::id"])
        self.assertFalse(read(text)["frame::Stream+K+WT::id"].can_be_left_out)

    def test_an_impl_with_a_where_clause(self):
        text = (
            "struct Held<R>(R);\nimpl<R> Held<R>\nwhere\n    R: Fn(u8) -> u8,\n{\n"
            "    fn get(&self) {}\n}\n"
        )
        self.assertEqual(list(read(text)), ["frame::Held::get"])

    def test_where_the_prover_has_no_name_the_place_is_the_module(self):
        text = "impl<'a> Reader for &'a [u8] {\n    fn len(&self) -> usize { 1 }\n}\n"
        self.assertEqual([body.place for body in bodies_of("src/frame.rt", text)], ["frame"])

    def test_a_function_in_a_macro_is_never_left_out(self):
        text = "macro_rules! ids {\n    ($name:ident) => { fn make() {} };\n}\n"
        self.assertEqual(
            [body.can_be_left_out for body in bodies_of("src/frame.rt", text)], [False]
        )

    def test_a_function_in_another_comes_after_it(self):
        text = "fn outer() {\n    fn inner() { 1 }\n    inner()\n}\n"
        outer, inner = bodies_of("src/frame.rt", text)
        self.assertEqual((outer.name, inner.name), ("outer", "inner"))
        self.assertTrue(outer.start < inner.start and inner.end < outer.end)

    def test_lines_begin_at_the_attributes(self):
        text = "struct A;\n\n#[must_use]\n#[tactic(auto, using(a::b))]\npub fn f()\n{\n    1;\n}\n"
        body = read(text)["frame::f"]
        self.assertEqual((body.first_line, body.last_line), (3, 8))

    def test_a_cycle_and_a_constant_function_are_needed(self):
        text = "#[cycle(parity)]\nfn even() { odd() }\nconst fn two() -> u8 { 2 }\nfn odd() {}\n"
        left_out = {place: body.can_be_left_out for place, body in read(text).items()}
        self.assertEqual(left_out, {"frame::even": False, "frame::two": False, "frame::odd": True})

    def test_words_are_those_of_the_code(self):
        self.assertEqual(
            read('fn f() { take(a); // put\n "send" }')["frame::f"].words, {"take", "a"}
        )

    def test_the_proof_has_the_place_as_its_folder(self):
        self.assertEqual(
            read("impl Frame { fn len(&self) {} }")["frame::Frame::len"].proof,
            "proofs/frame/Frame/len",
        )

    def test_a_closure_and_a_match_are_inside(self):
        text = "fn f() -> u8 { match x { Some(y) if y > 1 => { y } _ => (|z| { z })(1) } }"
        self.assertEqual(body_of(text, "frame::f"), text[text.index("{") :])

    def test_a_function_pointer_type_is_no_function(self):
        self.assertEqual(list(read("fn f(g: fn(u8) -> u8) { g(1) }")), ["frame::f"])
