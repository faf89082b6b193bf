"""Calls and services over Homa: an endpoint for asyncio, and the host below it for programs with a loop of their own.

    async with homa.Endpoint(1, {0: ("10.0.0.1", 4000), 1: ("10.0.0.2", 4000)}) as endpoint:
        print(await endpoint.call(0, 7, b"hello", timeout=1.0))

It needs libhoma: the file that HOMA_LIBRARY names, or the one that the system finds."""
from ._host import (Ask, CallId, Counts, Done, Event, Forgotten, Frame, Full, Host, NoLibrary, Note, NotNow, Ran, Refused, Settings, Spent, TimedOut)
from ._late import Answered, LateHost
from .endpoint import CallFailed, CallForgotten, CallTimeout, Endpoint, Handler

__all__ = [
    "Answered", "Ask", "CallFailed", "CallForgotten", "CallId", "CallTimeout", "Counts", "Done", "Endpoint", "Event", "Forgotten", "Frame", "Full", "Handler",
    "Host", "LateHost", "NoLibrary", "Note", "NotNow", "Ran", "Refused", "Settings", "Spent", "TimedOut",
]
