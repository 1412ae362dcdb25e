"""Calls of the C library that Python has no function for.

They are made by the part of ctypes that is in C: the whole of it takes half as long to load as
Python to start. Where a Python has that part in another form, ctypes itself is loaded.
"""
import os

try:
    from _ctypes import (FUNCFLAG_CDECL, FUNCFLAG_USE_ERRNO, CFuncPtr, _SimpleCData, addressof, dlopen,
                         get_errno)

    class c_int(_SimpleCData):
        _type_ = "i"

    class c_ulong(_SimpleCData):
        _type_ = "L"

    class c_char(_SimpleCData):
        _type_ = "c"

    class Function(CFuncPtr):
        _flags_, _restype_ = FUNCFLAG_CDECL | FUNCFLAG_USE_ERRNO, c_int

    class Library:
        """The C library; its functions are its attributes, as those of ctypes.CDLL are."""
        _handle = dlopen(None, 0)

        def __getattr__(self, name):
            found = Function((name, self))
            setattr(self, name, found)
            return found

    libc = Library()
except (ImportError, AttributeError, TypeError, ValueError):
    from ctypes import CDLL, addressof, c_char, c_ulong, get_errno
    libc = CDLL(None, use_errno=True)


def called(status, place=None):
    """Raises what a call of the C library failed with."""
    if status != 0:
        raise OSError(get_errno(), os.strerror(get_errno()), place)
