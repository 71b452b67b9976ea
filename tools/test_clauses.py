"""Unit tests of tools/clauses.py, over small sources."""
import unittest

from clauses import Names, compare, definitions_of, functions_of, redefined

TRAITS = """\
pub trait A: B {
    ghost model: { Self → ℕ };

    fn f(&self) -> u8
        requires { 0 < model self.now }
        ensures { result ≡ 1 };

    fn g(&self) -> u8 {
        1
    }
}

trait Hidden {
    fn h();
}

impl<'a, T> A for C<'a, T> {
    fn f(&self) -> u8 {
        1
    }
}

impl<'a> C<'a, u8> {
    pub fn new() -> Self { C }
    pub(crate) fn within() {}
    fn own() {}
}
"""


def one(text, path="crates/a/src/lib.rt"):
    """Returns the only function of a source."""
    (function,) = functions_of(path, text)
    return function


class Functions(unittest.TestCase):
    def test_clauses(self):
        function = one(
            "pub fn f<T>(\n    n: [u8; 4],\n) -> u8\n    requires few { n < 9 }\n"
            "    // why\n    ensures { result ≡ record { a = 1; b =\n        2 } // ok\n }\n"
            "{\n    n\n}\n"
        )
        self.assertEqual(
            [str(clause) for clause in function.clauses],
            ["requires few { n < 9 }", "ensures { result ≡ record { a = 1; b = 2 } }"],
        )

    def test_a_body_has_no_clauses(self):
        self.assertEqual(one("pub fn f() { let ensures = a { b }; }").clauses, ())

    def test_functions_for_c(self):
        function = one('pub extern "C" fn f() -> i32\n    ensures { result ≡ OK }\n{\n    OK\n}\n')
        self.assertEqual(str(function.ensures[0]), "ensures { result ≡ OK }")

    def test_what_others_may_call(self):
        found = functions_of("crates/a/src/b.rt", TRAITS)
        self.assertEqual(
            [str(function) for function in found],
            [
                "crates/a/src/b.rt: A::f",
                "crates/a/src/b.rt: A::g",
                "crates/a/src/b.rt: <C as A>::f",
                "crates/a/src/b.rt: C::new",
            ],
        )
        self.assertEqual([len(function.clauses) for function in found], [2, 0, 0, 0])
        self.assertEqual([function.is_inherited for function in found], [False, False, True, False])

    def test_functions_of_an_inner_module(self):
        self.assertEqual(one("mod a {\n    pub fn f() {}\n    fn g() {}\n}\n").name, "f")


class Comparison(unittest.TestCase):
    def compared(self, old, new, pairs=(), paths=("crates/a/src/b.rt", "crates/a/src/b.rt")):
        olds, news = functions_of(paths[0], old), functions_of(paths[1], new)
        return compare(olds, news, Names(pairs))

    def test_the_same(self):
        text = "pub fn f()\n    ensures a { x ≡ 1 }\n    ensures b { y ≡ 2 }\n{}\n"
        other = "pub fn f()\n    ensures b { y ≡ 2 }\n    ensures c { x ≡\n    1 }\n{ g() }\n"
        report = self.compared(text, other)
        self.assertEqual(report.compared, 1)
        self.assertEqual((report.gone, report.lost, report.changed, report.required), ([],) * 4)

    def test_lost_changed_and_required(self):
        old = "pub fn f()\n    ensures a { x ≡ 1 }\n    ensures b { y ≡ 2 }\n{}\n"
        new = "pub fn f()\n    requires { n < 1 }\n    ensures a { x ≤ 1 }\n{}\n"
        report = self.compared(old, new)
        self.assertEqual([str(old) for _, old in report.lost], ["ensures b { y ≡ 2 }"])
        self.assertEqual(
            [(str(old), str(new)) for _, old, new in report.changed],
            [("ensures a { x ≡ 1 }", "ensures a { x ≤ 1 }")],
        )
        self.assertEqual([str(new) for _, new in report.required], ["requires { n < 1 }"])

    def test_a_new_promise_is_no_difference(self):
        report = self.compared("pub fn f() {}\n", "pub fn f()\n    ensures { x ≡ 1 }\n{}\n")
        self.assertEqual((report.lost, report.changed, report.required), ([], [], []))

    def test_renamed_words(self):
        old = "impl A {\n    pub fn f()\n        ensures { B x.due }\n    {}\n}\n"
        new = "impl C {\n    pub fn g()\n        ensures { D x.left }\n    {}\n}\n"
        pairs = [("A", "C"), ("f", "g"), ("B", "D"), ("due", "left"), ("due", "other")]
        self.assertEqual(self.compared(old, new, pairs).changed, [])
        self.assertEqual(len(self.compared(old, new, pairs[:3]).changed), 1)
        self.assertEqual(len(self.compared(old, new).gone), 1)

    def test_a_function_that_moved(self):
        text = "impl A {\n    pub fn f() {}\n}\n"
        for path in ("crates/a/src/c.rt", "crates/z/src/b.rt"):
            report = self.compared(text, text, paths=("crates/a/src/b.rt", path))
            self.assertEqual((report.compared, report.gone), (1, []))

    def test_functions_of_one_name_are_paired_in_their_order(self):
        text = "impl A<u8> {\n    pub fn f() {}\n}\nimpl A<u16> {\n    pub fn f() {}\n}\n"
        self.assertEqual(self.compared(text, text).compared, 2)
        report = self.compared(text, text[: text.index("impl A<u16>")])
        self.assertEqual((report.compared, len(report.gone)), (0, 2))


class Definitions(unittest.TestCase):
    TEXT = (
        "-- numbers\nuse Rattle.a.{b}\npub use Rattle.a.specs.B\n\n-- even\n"
        "abbrev pub IsEven : ℕ → Type 0\nIsEven n =  -- by two\n    n % 2 ≡ 0\n\n"
        "pub record Both (a : ℕ) : Type 0 where\n  pub one : IsEven a\n"
    )

    def test_definitions(self):
        self.assertEqual(
            [(one.name, one.text) for one in definitions_of("crates/a/specs/B.antt", self.TEXT)],
            [
                ("IsEven", "abbrev pub IsEven : ℕ → Type 0 IsEven n = n % 2 ≡ 0"),
                ("Both", "pub record Both (a : ℕ) : Type 0 where pub one : IsEven a"),
            ],
        )

    def test_what_differs(self):
        old = definitions_of("crates/a/specs/B.antt", self.TEXT)
        new = definitions_of(
            "crates/c/specs/D.antt", self.TEXT.replace("IsEven", "Even").replace("% 2", "% 4")
        )
        pairs = redefined(old, new, Names([("IsEven", "Even")]))
        self.assertEqual([(one.name, other.name) for one, other in pairs], [("IsEven", "Even")])
        self.assertEqual([after for _, after in redefined(old[:1], [], Names())], [None])
        self.assertEqual(redefined(old, old, Names()), [])
        changed = self.TEXT.replace("% 2", "% 4")
        beside = definitions_of("crates/e/specs/B.antt", changed.replace("% 4", "% 8"))
        pairs = redefined(old, beside + definitions_of(old[0].path, changed), Names())
        self.assertEqual([other.path for _, other in pairs], [old[0].path])
