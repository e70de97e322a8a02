"""Lines for the operator, on standard error."""
from ..progress import say


def tell(text: str) -> None:
    """Says it, if anybody can hear it: a terminal that went away must not cost the recording."""
    try:
        say(f'lpt-live: {text}')
    except OSError:
        pass
