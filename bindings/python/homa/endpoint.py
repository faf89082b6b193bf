"""A host over a UDP socket, for asyncio."""
from __future__ import annotations

import asyncio
import logging
import socket
import time
from typing import Awaitable, Callable, Mapping

from ._host import CallId, Done, Event, Forgotten, Settings, TimedOut
from ._late import Answered, LateHost

Address = tuple[str, int]
Handler = Callable[[bytes], Awaitable[bytes]]
log = logging.getLogger("homa")


class CallFailed(Exception):
    """A call failed. Its request was served at most once in each incarnation of its server."""


class CallTimeout(CallFailed, TimeoutError):
    """The server was silent or knew nothing of the call, or the caller's own time is over. It may have been served, and may still be."""


class CallForgotten(CallFailed):
    """The call was served, and its response is gone."""


class Endpoint(asyncio.DatagramProtocol):
    """Host `number` of those in `addresses`, open inside `async with`. All endpoints of a net have the same settings, ticks and epoch.

    `incarnation` must be larger than each earlier one of this host. If it is left out, it is the second of the wall clock, and the endpoint
    waits for the next second before it opens. No two processes may be this host at a time; the bound port sees to that."""

    def __init__(
        self, number: int, addresses: Mapping[int, Address], *, settings: Settings = Settings(rate=1_000_000), tick: float = 0.001, epoch: float = 1_735_689_600,
        incarnation: int | None = None, last: int = 0, most_at_work: int = 1024, on_error: bytes = b"\xff", clock: Callable[[], float] = time.time,
        receive_buffer: int = 4 << 20,
    ) -> None:
        self.number, self._addresses, self._settings = number, dict(addresses), settings
        self._hosts = {address: host for host, address in self._addresses.items() if host != number}
        self._tick, self._epoch, self._last, self._clock = tick, epoch, last, clock
        self._incarnation, self._room, self._on_error, self._receive_buffer = incarnation, most_at_work, on_error, receive_buffer
        self._handlers: dict[int, Handler] = {}
        self._calls: dict[CallId, asyncio.Future[bytes]] = {}
        self._tasks: set[asyncio.Task[None]] = set()
        self._timer: asyncio.TimerHandle | None = None
        self.foreign = 0

    def service(self, number: int) -> Callable[[Handler], Handler]:
        """A decorator: this coroutine answers the requests to a service, 0 to 255. An exception in it is logged and answered by `on_error`."""

        def add(handler: Handler) -> Handler:
            self._handlers[number] = handler
            return handler

        return add

    async def __aenter__(self) -> Endpoint:
        self._loop = asyncio.get_running_loop()
        incarnation = self._incarnation
        if incarnation is None:
            incarnation = int(time.time())
            await asyncio.sleep(incarnation + 1 - time.time())
        self._incarnation = incarnation
        self._host = LateHost(self._settings, self.number, incarnation, max(self._last, self.now()), kept=self._room)
        self._closed: asyncio.Future[None] = self._loop.create_future()
        try:
            self._net, _ = await self._loop.create_datagram_endpoint(lambda: self, local_addr=self._addresses[self.number])
        except BaseException:
            self._host.close()
            raise
        self._net.get_extra_info("socket").setsockopt(socket.SOL_SOCKET, socket.SO_RCVBUF, self._receive_buffer)
        return self

    async def __aexit__(self, *_: object) -> None:
        if self._timer:
            self._timer.cancel()
        for task in self._tasks:
            task.cancel()
        await asyncio.gather(*self._tasks, return_exceptions=True)
        for future in self._calls.values():
            future.cancel()
        self._net.close()
        await self._closed  # the port is free then
        self._host.close()

    def connection_lost(self, why: Exception | None) -> None:
        self._closed.set_result(None)

    def now(self) -> int:
        """The host's tick, which never falls."""
        self._last = max(self._last, int((self._clock() - self._epoch) / self._tick))
        return self._last

    @property
    def incarnation(self) -> int | None:
        return self._incarnation

    @property
    def live(self) -> int:
        """How many calls the host has, those among them that were given up here."""
        return self._host.live

    async def call(self, host: int, service: int, request: bytes, *, timeout: float | None = None) -> bytes:
        """The response of a call. `timeout` is the caller's own, in seconds. The host goes on with a call that is given up, which stays one of
        its `calls` until it ends."""
        id = self._host.call(host, service, request, self.now())
        future = self._calls[id] = self._loop.create_future()
        self._after(self._host.events())
        try:
            return await asyncio.wait_for(future, timeout)
        except asyncio.TimeoutError as why:
            raise why if isinstance(why, CallTimeout) else CallTimeout(f"call {id.number} of service {service} of host {host}") from None
        finally:
            self._calls.pop(id, None)

    def _after(self, told: list[Event]) -> None:
        for frame in self._host.frames():
            if frame.to in self._addresses:
                self._net.sendto(frame.data, self._addresses[frame.to])
        for it in told:
            future = self._calls.pop(it.id, None) if isinstance(it, (Done, TimedOut, Forgotten)) else None
            if future is None or future.done():
                continue
            if isinstance(it, Done):
                future.set_result(it.response)
            elif isinstance(it, TimedOut):
                future.set_exception(CallTimeout(f"call {it.id.number}"))
            else:
                future.set_exception(CallForgotten(f"call {it.id.number}"))
        self._arm()

    def _arm(self) -> None:
        if self._timer:
            self._timer.cancel()
        at = self._host.next_turn()
        self._timer = None if at is None else self._loop.call_later(max(0.0, at * self._tick + self._epoch - self._clock()), self._turn)

    def _turn(self) -> None:
        self._host.turn(self.now())
        self._after(self._host.events())

    def datagram_received(self, data: bytes, address: Address) -> None:
        source = self._hosts.get(address[:2])
        if source is None:
            self.foreign += 1
            return
        ask = self._host.deliver(source, data, self.now())
        if not ask:
            self._after(self._host.events())
        else:
            task = self._loop.create_task(self._serve(ask.id, ask.service, ask.request))
            self._tasks.add(task)
            task.add_done_callback(self._tasks.discard)

    def error_received(self, why: Exception) -> None:
        log.debug("%s", why)  # a port that nobody has; the host's timers see to it

    async def _serve(self, id: CallId, service: int, request: bytes) -> None:
        handler = self._handlers.get(service)
        try:
            answer = await handler(request) if handler else self._on_error
            if not 1 <= len(answer) <= min(1_000_000, 4096 * self._settings.pages):
                raise ValueError(f"an answer of {len(answer)} bytes")
        except Exception:
            log.exception("service %d of host %d", service, self.number)
            answer = self._on_error
        try:
            answered = self._host.answer(id, answer, self.now())
        except MemoryError:
            log.warning("service %d of host %d: no memory for an answer", service, self.number)
            self._host.decline(id)  # it asks again, and is reported again
            return
        if answered is Answered.STEP:
            self._after(self._host.events())
