"""Tuples whose fields have names, as collections.namedtuple makes them: to load that takes longer
than to mount."""
from _operator import itemgetter


def record(name, fields, defaults=()):
    """A class of tuples with these fields, of which the last ones have these defaults."""
    names = tuple(fields.split())
    by_default = dict(zip(names[len(names) - len(defaults):], defaults))

    class Record(tuple):
        __slots__ = ()

        def __new__(cls, *values, **said):
            left = names[len(values):]
            every = {**by_default, **said}
            if len(values) > len(names) or not said.keys() <= {*left} <= every.keys():
                raise TypeError("%s has the fields %s" % (name, ", ".join(names)))
            return tuple.__new__(cls, (*values, *(every[field] for field in left)))

        def _asdict(self):
            return dict(zip(names, self))

        def _replace(self, **said):
            return type(self)(**{**self._asdict(), **said})

    Record.__name__ = Record.__qualname__ = name
    for at, field in enumerate(names):
        setattr(Record, field, property(itemgetter(at)))
    return Record
