"""The library called as a program in C calls it, on any bytes: buffers in an arena, with guards around each of them."""

import ctypes

from tests.support.page.header import BUFFER, functions

from revosti.library import shared_object

GUARD = b"\x5a" * 64
POINTER, NUMBERS = ctypes.c_void_p, {16: ctypes.c_uint16, 32: ctypes.c_uint32, 64: ctypes.c_uint64}


class Native:
    """The functions of the shared object. `native(name, ..)` answers a number, and the buffers after the call."""

    def __init__(self):
        self.functions = functions()
        self.loaded = ctypes.CDLL(str(shared_object()))
        for name, function in self.functions.items():
            declared = getattr(self.loaded, name)
            declared.argtypes = [word for parameter in function.parameters for word in self.words(parameter)]
            declared.restype = ctypes.c_int64 if function.signed else ctypes.c_uint64
        self.make_arena(1 << 20)

    @staticmethod
    def words(parameter):
        """What C is handed for a parameter."""
        return (POINTER, ctypes.c_size_t) if parameter.width == BUFFER else (NUMBERS[parameter.width],)

    def make_arena(self, size):
        self.arena = memoryview(bytearray(size))
        self.base = ctypes.addressof(ctypes.c_char.from_buffer(self.arena))

    def __call__(self, name, *given):
        buffers = [one for one in given if isinstance(one, bytes)]
        block = GUARD.join([b"", *buffers, b""])
        if len(block) > len(self.arena):
            self.make_arena(2 * len(block))
        self.arena[:len(block)] = block
        answer = getattr(self.loaded, name)(*self.placed(given))
        after = bytes(self.arena[:len(block)])
        return answer, buffers if after == block else self.taken_back(name, buffers, after)

    def placed(self, given):
        """The words of a call."""
        place = self.base + len(GUARD)
        for one in given:
            if isinstance(one, bytes):
                yield place
                yield len(one)
                place += len(one) + len(GUARD)
            else:
                yield one

    def taken_back(self, name, buffers, after):
        """The buffers after a call. Only those that it may write to have changed, and no guard has."""
        written = [parameter.written for parameter in self.functions[name].parameters if parameter.width == BUFFER]
        result, place = [], len(GUARD)
        for old, may_change in zip(buffers, written):
            new = after[place:place + len(old)]
            assert may_change or new == old, f"{name} writes to a buffer that it reads"
            result.append(new)
            place += len(old) + len(GUARD)
        assert GUARD.join([b"", *result, b""]) == after, f"{name} writes where nothing is lent"
        return result
