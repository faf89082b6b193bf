"""A host that keeps what asks, so that answers may come later."""
from __future__ import annotations

import enum

from ._host import ASKS, AT_WORK, BAD_SETTING, FULL, GONE, LATER, Ask, CallId, Host, Settings, _Asked, _Call, _id, _in, _need


class Answered(enum.Enum):
    """What came of an answer. `STEP`: read `frames` and `events`; without an event `Ran` the library keeps the answer, and gives it to the
    next datagram that asks. `LATER`: there was no step, and it is kept. `GONE`: no such call waits."""

    STEP = "step"
    LATER = "later"
    GONE = "gone"


class LateHost(Host):
    """A host with room for `kept` calls, 1 to 4,096: each is reported once while it is kept, and may be answered later. A kept datagram is
    delivered at most `keep` ticks after it came, 0 to `life` of the settings."""

    def __init__(self, settings: Settings, number: int, incarnation: int, last: int = 0, *, kept: int = 1024, keep: int | None = None) -> None:
        self._kept = _in(kept, 0xFFFFFFFF, "kept")
        self._keep = _in(settings.life if keep is None else keep, 0xFFFFFFFF, "keep")
        super().__init__(settings, number, incarnation, last)

    def _open(self, settings: Settings, number: int, incarnation: int, last: int) -> None:
        code = self._library.homa_open_late(settings._raw(), number, incarnation, last, self._kept, self._keep, self._handle)
        _need(code, f"homa_open_late: {settings.fault or 'kept or keep'}" if code == BAD_SETTING else "homa_open_late")

    def deliver(self, source: int, datagram: bytes, now: int, answer: bytes = b"") -> Ask | None:
        """A datagram came. What is asked, once for each call while it is kept. None also if it asks for a call that is kept, or there is no
        room for one more: then `frames` and `events` have nothing."""
        asked = _Asked()
        code = self._library.homa_deliver(self._handle, source, datagram, len(datagram), now, answer, len(answer), asked)
        if code == ASKS:
            return Ask(_id(asked.id), asked.service, self._message())
        if code not in (AT_WORK, FULL):
            _need(code, "homa_deliver")
        return None

    def answer(self, id: CallId, answer: bytes, now: int) -> Answered:
        """The answer to a call that asked, of 1 to 1,000,000 bytes."""
        code = self._library.homa_answer(self._handle, _Call(*id), answer, len(answer), now)
        if code in (LATER, GONE):
            return Answered.LATER if code == LATER else Answered.GONE
        _need(code, "homa_answer")
        return Answered.STEP

    def decline(self, id: CallId) -> bool:
        """No answer will come: if the call asks again, it is reported again. Whether it was kept."""
        return bool(self._library.homa_decline(self._handle, _Call(*id)) == 0)
