"""The engine as a library: `Marlowe("bindings/out/libmarlowe.so").run(contract, state, transaction)`. An object is for one thread at a time. A `Session`
keeps contracts by name until it is closed."""
import ctypes
import json


class Refused(Exception):
    """A request that isn't answered, and why: the object `refused` of the answer."""


class Marlowe:
    def __init__(self, path, text_numbers=False):
        self.library = ctypes.CDLL(path)
        self.text_numbers, self.room = text_numbers, ctypes.create_string_buffer(65_536)
        self.call = self.function("marlowe_answer")

    def function(self, name, *before):
        """A function of the library that answers a request."""
        function = self.library[name]
        function.argtypes = [*before, ctypes.c_bool, ctypes.c_char_p, ctypes.c_size_t, ctypes.c_char_p, ctypes.c_size_t]
        function.restype = ctypes.c_ssize_t
        return function

    def called(self, request):
        return self.call(self.text_numbers, request, len(request), self.room, len(self.room))

    def answer(self, request):
        """The answer to a request, both as bytes."""
        length = self.called(request)
        if length > len(self.room):
            self.room = ctypes.create_string_buffer(length)
            length = self.called(request)
        if length < 0:
            raise MemoryError
        return ctypes.string_at(self.room, length)

    def ask(self, **request):
        """What is told of a request: `ask(table={"contract": contract})`."""
        answer = json.loads(self.answer(json.dumps(request).encode()))
        if "refused" in answer:
            raise Refused(answer["refused"])
        return answer["ok"]

    def run(self, contract, state, transaction):
        """The outcome of a transaction."""
        return self.ask(run={"contract": contract, "state": state, "transaction": transaction})


class Handle(ctypes.Structure):
    _fields_ = [("names", ctypes.c_void_p)]


class Session(Marlowe):
    """In a session `ask(define={"escrow": contract})` gives a contract a name, and {"name": "escrow"} is that contract."""

    def __init__(self, path, text_numbers=False):
        super().__init__(path, text_numbers)
        self.handle = Handle()
        self.call = self.function("marlowe_session_answer", ctypes.POINTER(Handle))
        self.library.marlowe_session_open.restype = ctypes.c_bool
        if not self.library.marlowe_session_open(ctypes.byref(self.handle)):
            raise MemoryError

    def called(self, request):
        if len(self.room) < len(request) + 128:
            self.room = ctypes.create_string_buffer(len(request) + 128)
        return self.call(ctypes.byref(self.handle), self.text_numbers, request, len(request), self.room, len(self.room))

    def close(self):
        self.library.marlowe_session_close(ctypes.byref(self.handle))

    def __enter__(self):
        return self

    def __exit__(self, *_):
        self.close()
