"""XML: what a text and the value of an attribute are, without the characters that XML has no place for."""
import re
from xml.sax.saxutils import escape

HEAD = '<?xml version="1.0" encoding="UTF-8"?>\n'
FORBIDDEN = re.compile("[^\t\n\r\u0020-\ud7ff\ue000-\ufffd\U00010000-\U0010ffff]")


def text(value):
    """A value as the text of an element or, in double quotes, of an attribute."""
    return escape(FORBIDDEN.sub("?", str(value)), {'"': "&quot;", "\n": "&#10;", "\r": "&#13;", "\t": "&#9;"})


def element(name, value, attributes=""):
    """An element with a text, or nothing where the value is None or empty."""
    return f"<{name}{attributes and ' ' + attributes}>{text(value)}</{name}>" if value not in (None, "") else ""


def attributes(**values):
    """Attributes with their values; those that are None or empty are left out."""
    return "".join(f' {name}="{text(value)}"' for name, value in values.items() if value not in (None, ""))
