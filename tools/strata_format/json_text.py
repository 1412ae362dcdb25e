"""The value of JSON text, by the part of Python's own reader that is in C: the whole of it takes
longer to load than a mount."""


class Reading:
    """How the reader takes what JSON leaves open; as json.loads does."""
    strict, memo = True, {}
    object_hook = object_pairs_hook = array_hook = None
    parse_float, parse_int, parse_constant = float, int, float


SPACE = " \t\n\r"


def value_of(data):
    """The value of bytes; ValueError where they are no JSON, RecursionError where it is very
    deep."""
    text = data.decode("utf-8")
    try:
        from _json import make_scanner
        read = make_scanner(Reading)
    except (ImportError, AttributeError, TypeError):
        import json
        return json.loads(text)
    try:
        value, end = read(text, len(text) - len(text.lstrip(SPACE)))
    except (StopIteration, SystemError):
        # the part in C finds no error to raise as long as nothing has loaded json.decoder
        raise ValueError("no JSON") from None
    if text[end:].strip(SPACE):
        raise ValueError("more than one value")
    return value
