"""Beside the store in C (examples/kv): a client in Python of its server, and its clients at a server in Python. KV names the program."""
import asyncio
import os
import random
import subprocess
import tempfile
import unittest

import homa
from tests.test_endpoints import TICK, addresses

KV = os.environ.get("KV", "")
EPOCH = 1_767_225_600  # of examples/recipes/tick.h
PUT, GET, PUT_LATER, GET_LATER = 1, 2, 3, 4
STORED, NOT_STORED = b"\0", b"\1"


@unittest.skipUnless(KV, "KV names no program")
class TestStore(unittest.IsolatedAsyncioTestCase):
    def setUp(self):
        self.at = addresses(3)
        self.folder = tempfile.TemporaryDirectory()
        self.hosts = f"{self.folder.name}/hosts"
        with open(self.hosts, "w", encoding="utf-8") as it:
            it.write("".join(f"{address} {port}\n" for address, port in self.at.values()))

    def tearDown(self):
        self.folder.cleanup()

    def endpoint(self, number):
        return homa.Endpoint(number, self.at, settings=homa.Settings(), tick=TICK, epoch=EPOCH, incarnation=1)

    def started(self, *words):
        around = {**os.environ, "KV_TICK_US": str(round(TICK * 1_000_000))}
        return subprocess.Popen([KV, words[0], self.hosts, self.folder.name, *words[1:]], env=around, stdout=subprocess.PIPE, stderr=subprocess.DEVNULL,
                                text=True)

    async def test_client_of_the_store_in_c(self):
        server = self.started("server")
        try:
            self.assertEqual(server.stdout.readline(), "up\n")
            async with self.endpoint(1) as client:
                async def one(key, value):
                    for put, get in ((PUT, GET), (PUT_LATER, GET_LATER)):
                        self.assertEqual((await client.call(0, put, bytes([len(key)]) + key + value))[:1], STORED)
                        self.assertEqual((await client.call(0, get, bytes([len(key)]) + key))[5:], value)

                lengths = (1, 100, 5000, 200_000, 900_000)
                await asyncio.gather(*(one(f"key {i}".encode(), random.randbytes(lengths[i % 5])) for i in range(20)))
                self.assertEqual((await client.call(0, GET, b"\4none"))[:1], NOT_STORED)
        finally:
            server.terminate()
            server.communicate()

    async def test_server_of_the_clients_in_c(self):
        store, served = {}, 0
        async with self.endpoint(0) as server:
            async def serve(service, request):
                nonlocal served
                served += 1
                key, value = request[1 : 1 + request[0]], request[1 + request[0] :]
                if service in (PUT_LATER, GET_LATER):
                    await asyncio.sleep(random.random() / 5)
                if service in (PUT, PUT_LATER):
                    store[key] = value
                    value = b""
                else:
                    value = store.get(key)
                return (NOT_STORED if value is None else STORED) + b"life" + (value or b"")

            for service in (PUT, GET, PUT_LATER, GET_LATER):
                server.service(service)(lambda request, service=service: serve(service, request))
            clients = [self.started("client", str(i), "60", "4", "20000") for i in (1, 2)]
            said = await asyncio.gather(*(asyncio.to_thread(it.communicate, timeout=120) for it in clients))
            for client, (text, _) in zip(clients, said):
                self.assertEqual(client.returncode, 0, text)
                self.assertIn(": 60 done, 0 timed out, 0 forgotten, 0 wrong, 0 not stored", text)
        self.assertEqual(served, 120, "each call is told once")


if __name__ == "__main__":
    unittest.main()
