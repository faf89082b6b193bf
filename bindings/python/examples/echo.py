#!/usr/bin/env python3
"""Two endpoints of one process over UDP: one answers requests in reverse, slowly, and the other calls it.

usage: echo.py [CALLS]     HOMA_LIBRARY names libhoma's file, where the system doesn't find it
"""
import asyncio
import sys

import homa

AT = {0: ("127.0.0.1", 47010), 1: ("127.0.0.1", 47011)}
# A call fails after 30 seconds of silence: a machine with other work may pause a program for seconds.
SETTINGS = homa.Settings(rate=1_000_000, resend=300, tries=100, life=40_000)


async def main(calls: int) -> None:
    async with homa.Endpoint(0, AT, settings=SETTINGS) as server, homa.Endpoint(1, AT, settings=SETTINGS) as client:

        @server.service(7)
        async def reverse(request: bytes) -> bytes:
            await asyncio.sleep(0.01)
            return request[::-1]

        requests = [f"request {i}".encode() for i in range(calls)]
        answers = await asyncio.gather(*(client.call(0, 7, it, timeout=60) for it in requests))
        print(f"{sum(answer == it[::-1] for it, answer in zip(requests, answers))} of {calls} calls are done")


asyncio.run(main(int(sys.argv[1]) if len(sys.argv) > 1 else 100))
