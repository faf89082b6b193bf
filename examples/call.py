#!/usr/bin/env python3
"""One call between two hosts in one process, from Python, over the shared library.

usage: call.py LIBRARY [TEXT]      prints what the server was asked and what the client got: its bytes in reverse
"""
import ctypes
import sys

OK, ASKS = 0, 1
RAN, DONE = 1, 2
CLIENT, SERVER, SERVICE = 0, 1, 7
ROOM = 1_000_000


def struct(name, *fields):
    return type(name, (ctypes.Structure,), {"_fields_": list(fields)})


U8, U16, U32, U64, SIZE = ctypes.c_uint8, ctypes.c_uint16, ctypes.c_uint32, ctypes.c_uint64, ctypes.c_size_t
NAMES = "hosts seg window unsched overcommit rate resend tries life pages calls served rebalance skew wire".split()
Handle = struct("Handle", ("at", ctypes.c_void_p), ("is_open", ctypes.c_bool))
Settings = struct("Settings", *[(name, U32) for name in NAMES])
CallId = struct("CallId", ("client", U16), ("incarnation", U32), ("number", U32))
Asked = struct("Asked", ("id", CallId), ("service", U32))
Frame = struct("Frame", ("sender", U16), ("to", U16), ("len", SIZE))
Entry = struct("Entry", ("kind", U32), ("service", U32), ("id", CallId), ("len", SIZE))


def point(to):
    return ctypes.POINTER(to)


CALLS = {  # what each call answers, and what it takes
    "homa_service": (None, point(Settings)),
    "homa_open": (U32, point(Settings), U16, U32, U64, point(Handle)),
    "homa_close": (U32, point(Handle)),
    "homa_call": (U32, point(Handle), U16, U8, ctypes.c_char_p, SIZE, U64, point(CallId)),
    "homa_deliver": (U32, point(Handle), U16, ctypes.c_char_p, SIZE, U64, ctypes.c_char_p, SIZE, point(Asked)),
    "homa_frames": (SIZE, point(Handle)),
    "homa_frame": (U32, point(Handle), SIZE, ctypes.c_char_p, SIZE, point(Frame)),
    "homa_entries": (SIZE, point(Handle)),
    "homa_entry": (U32, point(Handle), SIZE, point(Entry)),
    "homa_whole": (U32, point(Handle), ctypes.c_char_p, SIZE, point(SIZE)),
}


class Host:
    def __init__(self, library, settings, number):
        self.library, self.handle, self.number = library, Handle(), number
        self.room = ctypes.create_string_buffer(ROOM)
        self.need("homa_open", settings, number, 1, 0, self.handle)

    def need(self, name, *words):
        result = getattr(self.library, name)(*words)
        if result != OK:
            sys.exit(f"{name}: {result}")

    def call(self, server, service, request):
        self.need("homa_call", self.handle, server, service, request, len(request), 0, CallId())

    def deliver(self, source, frame, answer):
        """A datagram comes; the request is what `answer` gets, where one becomes whole."""
        def step(response):
            return self.library.homa_deliver(self.handle, source, frame, len(frame), 0, response, len(response), asked)
        asked = Asked()
        if step(b"") == ASKS and step(answer(asked, self.whole())) != OK:
            sys.exit("the answer wasn't taken")

    def whole(self):
        length = SIZE()
        self.need("homa_whole", self.handle, self.room, ROOM, length)
        return self.room.raw[:length.value]

    def frames(self):
        for i in range(self.library.homa_frames(self.handle)):
            frame = Frame()
            self.need("homa_frame", self.handle, i, self.room, ROOM, frame)
            yield frame.to, self.room.raw[:frame.len]

    def entries(self):
        for i in range(self.library.homa_entries(self.handle)):
            entry = Entry()
            self.need("homa_entry", self.handle, i, entry)
            yield entry


def answer(asked, request):
    print(f"call {asked.id.client}.{asked.id.incarnation}.{asked.id.number} asks service {asked.service}: {request.decode(errors='replace')}")
    return request[::-1]


def hand_over(hosts, source):
    """The frames of a host's last step go to the other, and so on."""
    for to, frame in list(hosts[source].frames()):
        hosts[to].deliver(source, frame, answer)
        for entry in hosts[to].entries():
            if entry.kind == DONE:
                print(f"done: {hosts[to].whole().decode(errors='replace')}")
        hand_over(hosts, to)


def main(words):
    if len(words) not in (1, 2):
        sys.exit(__doc__)
    library = ctypes.CDLL(words[0])
    for name, (answers, *takes) in CALLS.items():
        getattr(library, name).restype = answers
        getattr(library, name).argtypes = takes
    settings = Settings()
    library.homa_service(settings)
    hosts = [Host(library, settings, number) for number in (CLIENT, SERVER)]
    hosts[CLIENT].call(SERVER, SERVICE, (words[1] if len(words) == 2 else "hello").encode())
    hand_over(hosts, CLIENT)
    for host in hosts:
        host.need("homa_close", host.handle)


main(sys.argv[1:])
