"""Unit tests of tools/minify.py, over small sources."""
import unittest

from minify import short_page, short_script, short_style


class Minify(unittest.TestCase):
    def test_pages(self):
        page = '<!-- a\nb --><body>\n  <p class="a b">x y</p>\n</body>\n'
        self.assertEqual(short_page(page), '<body><p class="a b">x y</p></body>')

    def test_styles(self):
        style = "/* a */\n.a b,\n.c {\n  font: 14px/1.4 x, y;\n  top: .5rem;\n}\n"
        self.assertEqual(short_style(style), ".a b,.c{font:14px/1.4 x,y;top:.5rem}")
        style = "@media (min-width: 1rem) and (max-width: 2rem) {\n  a:hover {\n    x: y\n  }\n}"
        short = "@media (min-width:1rem) and (max-width:2rem){a:hover{x:y}}"
        self.assertEqual(short_style(style), short)

    def test_scripts(self):
        script = "// a\nconst f = (a, b) => {\n  return a + b; // c\n};\n/* d */\nf(1, 2);\n"
        self.assertEqual(short_script(script), "const f=(a,b)=>{return a+b};f(1,2)")

    def test_words_stay_apart(self):
        script = "for (const x of y)\n  if (x in z)\n    delete z[x];\n"
        self.assertEqual(short_script(script), "for(const x of y)if(x in z)delete z[x]")

    def test_signs_stay_apart(self):
        self.assertEqual(short_script("a + +b - -c + -d;"), "a+ +b- -c+-d")

    def test_text_stays(self):
        script = 'f(\' // { "a" ; } \', "it\'s  b");\n'
        self.assertEqual(short_script(script), 'f(\' // { "a" ; } \',"it\'s  b")')
