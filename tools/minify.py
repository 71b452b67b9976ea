"""Makes HTML, CSS and JavaScript shorter: without comments, and without line ends and blanks that
mean nothing. It parses none of them, so it is for sources that are written with it in mind:
statements end with semicolons, text in quotes is in one line, there are no template strings and no
regular expressions, and lines of HTML begin and end where blanks mean nothing.

The unit tests are in tools/test_minify.py.
"""
import re

# The parts of a script: text in quotes, a comment, blanks, a word, another character.
SCRIPT = re.compile(r"'[^'\n]*'|\"[^\"\n]*\"|//[^\n]*|/\*.*?\*/|\s+|[\w$]+|.", re.DOTALL)


def short_page(page):
    """Returns a page without comments, line ends, and blanks at the ends of lines."""
    page = re.sub(r"<!--.*?-->", "", page, flags=re.DOTALL)
    return "".join(line.strip() for line in page.splitlines())


def short_style(style):
    """Returns a style sheet without comments, line ends and blanks that mean nothing."""
    style = re.sub(r"/\*.*?\*/", "", style, flags=re.DOTALL)
    style = re.sub(r"\s+", " ", style).strip()
    style = re.sub(r" ?([{};,]) ?", r"\1", style)
    return re.sub(r": ", ":", style).replace(";}", "}")


def short_script(script):
    """Returns a script without comments, line ends and blanks that mean nothing."""
    short, blank = "", False
    for part in SCRIPT.findall(script):
        if part.isspace() or part.startswith(("//", "/*")):
            blank = True
            continue
        # (two words would become one, and `a + +b` would become `a ++b`)
        if blank and re.fullmatch(r"[\w$]{2}|\+\+|--", short[-1:] + part[0]):
            short += " "
        short, blank = short + part, False
    return short.replace(";}", "}").rstrip(";")
