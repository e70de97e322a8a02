"""Text of a recording made harmless: a task may have any bytes in its name, escape sequences of a terminal among them."""
from html import escape


def printable(text: str) -> str:
    """The text with each character that doesn't show itself written as an escape."""
    return ''.join(letter if letter.isprintable() else letter.encode('unicode_escape', 'surrogatepass').decode('ascii')
                   for letter in text)


def markup(text: str) -> str:
    """The text for HTML and SVG, in an attribute in quotes too."""
    return escape(printable(text), quote=True)
