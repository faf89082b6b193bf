#!/usr/bin/env python3
"""A server that answers ten ticks after it was asked: its host keeps what asks, so the program keeps the calls' ids alone. Two hosts in one
process; ticks are counted by hand. Prints when each call is told, and when it is done.

usage: later.py     HOMA_LIBRARY names libhoma's file, where the system doesn't find it
"""
import collections

import homa

SETTINGS = homa.Settings()
CLIENT, SERVER = 0, 1


def main() -> None:
    client, server = homa.Host(SETTINGS, CLIENT, 1), homa.LateHost(SETTINGS, SERVER, 1, kept=16)
    under_way: collections.deque[homa.Frame] = collections.deque()
    jobs: collections.deque[tuple[int, homa.CallId, bytes]] = collections.deque()
    for request in (b"hello", b"good day"):
        client.call(SERVER, 7, request, 0)
        under_way += client.frames()
    for now in range(20):
        while under_way:
            frame = under_way.popleft()
            host, other = (client, SERVER) if frame.to == CLIENT else (server, CLIENT)
            ask = host.deliver(other, frame.data, now)
            under_way += host.frames()
            if ask:
                print(f"tick {now}: call {ask.id.number} is told")
                jobs.append((now + 10, ask.id, ask.request[::-1]))
            for event in host.events():
                if isinstance(event, homa.Done):
                    print(f"tick {now}: call {event.id.number} is done: {event.response.decode()}")
        while jobs and jobs[0][0] <= now:
            _, id, answer = jobs.popleft()
            if server.answer(id, answer, now) is homa.Answered.STEP:
                under_way += server.frames()
        for it in (client, server):
            it.turn(now)
            under_way += it.frames()
    print(f"{server.counts().kept} calls are kept at the end")


main()
