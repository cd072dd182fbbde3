"""Formulas in texts: elements <math> of MathML Core, of which what a formula needs is let through. All other markup is text."""
import re
import xml.etree.ElementTree as tree

from markupsafe import Markup, escape

FORMULA = re.compile(r"(<math[\s>].*?</math>)", re.DOTALL)
ELEMENTS = frozenset("math mi mn mo ms mtext mspace mrow mfrac msqrt mroot mstyle merror mpadded mphantom msub msup msubsup munder mover "
                     "munderover mmultiscripts mprescripts mtable mtr mtd".split())
ATTRIBUTES = frozenset("alttext display displaystyle mathvariant stretchy fence separator form lspace rspace linethickness accent "
                       "accentunder columnalign width height depth scriptlevel columnspan rowspan".split())
VALUE = re.compile(r"[^<>&\"]{1,200}")


class WrongFormula(Exception):
    """A text has an element <math> that is none of these."""


def with_formulas(text):
    """A text as markup: its formulas as they are, everything else escaped."""
    return Markup("").join(formula(part) if at % 2 else escape(part) for at, part in enumerate(FORMULA.split(text)))


def formula(source):
    try:
        return markup(tree.fromstring(source.replace(' xmlns="http://www.w3.org/1998/Math/MathML"', "", 1)))
    except tree.ParseError as error:
        raise WrongFormula(f"a formula is no MathML: {error}") from error


def markup(element):
    if element.tag not in ELEMENTS:
        raise WrongFormula(f"a formula has the element {element.tag}")
    for name, value in element.attrib.items():
        if name not in ATTRIBUTES or not VALUE.fullmatch(value):
            raise WrongFormula(f"a formula has the attribute {name} with the value {value!r}")
    attributes = Markup("").join(Markup(' {}="{}"').format(name, value) for name, value in element.attrib.items())
    inside = escape(element.text or "") + Markup("").join(markup(one) + escape(one.tail or "") for one in element)
    return Markup("<{0}{1}>{2}</{0}>").format(Markup(element.tag), attributes, inside)
