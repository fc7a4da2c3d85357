# What the structs of _api.py are made of; generate.py copies it there.
_U8 = ctypes.c_uint8
_Any = TypeVar("_Any", bound="_Image")
_ARRAYS: Dict[int, Any] = {}


def _octet(name: str, value: object) -> int:
    if isinstance(value, bool) or not isinstance(value, int):
        raise TypeError("%s must be an int, not %s" % (name, type(value).__name__))
    if not 0 <= value <= 255:
        raise ValueError("%s is one byte: it must be within 0 to 255, not %d" % (name, value))
    return value


def _octets(count: int) -> Any:
    """The type of a member of so many bytes, which refuses what is not a byte. ctypes alone would cut it off."""

    def __setitem__(self: Any, at: Any, value: Any) -> None:
        if isinstance(at, slice):
            value = value if isinstance(value, (bytes, bytearray)) else [_octet("an item", v) for v in value]
        else:
            value = _octet("an item", value)
        plain.__setitem__(self, at, value)

    if count not in _ARRAYS:
        plain: Any = _U8 * count
        _ARRAYS[count] = type("Octets%d" % count, (plain,), {"__setitem__": __setitem__})
    return _ARRAYS[count]


class _Members(ctypes.Structure):
    """A struct of bytes: a member that it does not have is refused with AttributeError, a number that is not a byte with ValueError."""

    def __setattr__(self, name: str, value: Any) -> None:
        kind = self._kinds.get(name)
        if kind is None:
            raise AttributeError("%s has no member %s" % (type(self).__name__, name))
        if kind is _U8:
            value = _octet(name, value)
        elif isinstance(value, tuple):
            value = kind(*value)
        super().__setattr__(name, value)

    def __init_subclass__(cls, **words: Any) -> None:
        super().__init_subclass__(**words)
        cls._kinds = dict(cls.__dict__.get("_fields_", ()))

    _kinds: Dict[str, Any] = {}


class _Image(_Members):
    """A struct with a kind and a layout."""

    KIND = ""

    @classmethod
    def load(cls: Type[_Any], image: Union[bytes, bytearray, memoryview]) -> _Any:
        """The struct of a stored image; ValueError for another length, kind or layout. The calls judge the members."""
        data = bytes(image)
        if len(data) != ctypes.sizeof(cls):
            raise ValueError("the image of a %s has %d bytes, not %d" % (cls.__name__, ctypes.sizeof(cls), len(data)))
        if data[0] != ord(cls.KIND):
            raise ValueError("the image of a %s begins with %r, not %r" % (cls.__name__, cls.KIND.encode(), data[:1]))
        if data[1] != LAYOUT:
            raise ValueError("the image has layout %d, this package %d" % (data[1], LAYOUT))
        return cls.from_buffer_copy(data)


_Made = TypeVar("_Made", bound="_Object")


class _Object(_Image):
    """A struct that a caller may make by hand."""

    @classmethod
    def new(cls: Type[_Made]) -> _Made:
        """An empty one, with its kind and layout. A parameter is written only if its report is set to Report.TAKEN."""
        return cls(kind=ord(cls.KIND), layout=LAYOUT)
