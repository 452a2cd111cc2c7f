"""A small Channel Access server on the loopback, for the cases of scripts/epics. It speaks what libca asks of it, and no more.

It has no beacons, no access rules and no dead bands; a put may be refused, or be answered only when the case says so.
"""
import asyncio
import socket
import struct
import threading
from contextlib import contextmanager

import wire
from wire import message

LOOPBACK = "127.0.0.1"
# For what the thread of the server has to do.
SECONDS = 60


def free_port():
    """Sockets for UDP and TCP on one port of the loopback that nobody uses."""
    for _ in range(100):
        # With the protocol named, asyncio sends small messages at once, as servers of EPICS do.
        stream, packets = socket.socket(proto=socket.IPPROTO_TCP), socket.socket(type=socket.SOCK_DGRAM)
        stream.bind((LOOPBACK, 0))
        try:
            packets.bind(stream.getsockname())
            return stream, packets
        except OSError:
            stream.close()
            packets.close()
    raise OSError("no port of the loopback is free")


class Circuit(asyncio.Protocol):
    """A client that is connected."""

    def __init__(self, server):
        """A circuit of this server."""
        self.server, self.data, self.is_off = server, bytearray(), False
        # By the number that the server gave a channel: the channel, and the number of the client. By that of a subscription:
        # the channel's number, its type and count.
        self.channels, self.subscriptions = {}, {}
        self.answers = {
            wire.SEARCH: self.search, wire.CREATE: self.create, wire.ECHO: self.echo, wire.CLEAR: self.clear,
            wire.EVENT_ADD: self.subscribe, wire.EVENT_CANCEL: self.cancel, wire.READ_NOTIFY: self.read,
            wire.WRITE: self.write, wire.WRITE_NOTIFY: self.write_notify,
        }  # fmt: skip

    def connection_made(self, transport):
        """Greets the client."""
        self.transport = transport
        self.server.circuits.add(self)
        self.say(wire.VERSION, count=wire.MINOR)

    def connection_lost(self, _):
        """The client is gone."""
        self.server.circuits.discard(self)

    def data_received(self, data):
        """Answers the messages that are whole by now."""
        self.data += data
        found, taken = wire.messages(self.data)
        del self.data[:taken]
        for command, *rest in found:
            if command in self.answers:
                self.answers[command](*rest)

    def say(self, *words, **more):
        """Sends a message."""
        self.transport.write(message(*words, **more))

    def search(self, _kind, _count, one, _two, payload):
        """A search over TCP."""
        if self.server.has(payload):
            self.transport.write(self.server.found(one))

    def create(self, _kind, _count, one, _two, payload):
        """Gives a channel its number."""
        if not self.server.has(payload):
            self.say(wire.CREATE_FAIL, one=one)
            return
        channel = self.server.channels[wire.name_in(payload)]
        self.server.last += 1
        self.channels[self.server.last] = channel, one
        self.say(wire.RIGHTS, one=one, two=channel.access)
        self.say(wire.CREATE, kind=channel.kind, count=channel.count, one=one, two=self.server.last)

    def echo(self, *_):
        """The client asks whether we are there."""
        self.say(wire.ECHO)

    def clear(self, _kind, _count, one, two, _payload):
        """The client has no more use for a channel."""
        self.forget(one)
        self.say(wire.CLEAR, one=one, two=two)

    def subscribe(self, kind, count, one, two, _payload):
        """From now on each value is sent, the first one at once."""
        if one in self.channels and kind <= wire.LAST_WITH_STAMP:
            self.subscriptions[two] = one, kind, count
            self.send(two)

    def cancel(self, kind, count, one, two, _payload):
        """The client wants no more values of a subscription."""
        self.subscriptions.pop(two, None)
        self.say(wire.EVENT_ADD, kind=kind, count=count, one=one, two=two)

    def read(self, kind, count, one, two, _payload):
        """The values of a channel, once."""
        if one in self.channels and (kind <= wire.LAST_WITH_STAMP or kind == wire.WITH_TEXTS):
            body, many = self.channels[one][0].body(kind, count)
            self.say(wire.READ_NOTIFY, body, kind, many, wire.NORMAL, two)
        else:
            self.say(wire.READ_NOTIFY, kind=kind, one=wire.BAD_TYPE, two=two)

    def write(self, kind, count, one, two, payload):
        """A plain put. Only a refusal is answered, with the head of what was refused."""
        if one in self.channels:
            channel, client = self.channels[one]
            status = self.server.put(channel, wire.values_in(kind, count, payload), False)
            if status != wire.NORMAL:
                head = struct.pack(">HHHHII", wire.WRITE, len(payload), kind, count, one, two)
                self.say(wire.ERROR, head + b"refused\0", one=client, two=status)

    def write_notify(self, kind, count, one, two, payload):
        """A put that asks for an answer, which comes now or when the case says so."""
        if one in self.channels:
            channel = self.channels[one][0]
            status = self.server.put(channel, wire.values_in(kind, count, payload), True)
            answer = message(wire.WRITE_NOTIFY, kind=kind, count=count, one=status, two=two)
            if channel.holds and status == wire.NORMAL:
                self.server.held.append((self.transport, answer))
            else:
                self.transport.write(answer)

    def send(self, number):
        """Sends the values of a subscription."""
        one, kind, count = self.subscriptions[number]
        body, many = self.channels[one][0].body(kind, count)
        self.say(wire.EVENT_ADD, body, kind, many, wire.NORMAL, number)

    def changed(self, channel):
        """Sends the values of a channel to whoever asked for them."""
        for number, (one, _, _) in self.subscriptions.items():
            if self.channels[one][0] is channel:
                self.send(number)

    def lose(self, channel):
        """Tells the client that a channel is gone."""
        for one in [it for it, (known, _) in self.channels.items() if known is channel]:
            self.say(wire.DISCONNECTED, one=self.channels[one][1])
            self.forget(one)

    def forget(self, one):
        """Forgets a channel and its subscriptions."""
        self.channels.pop(one, None)
        self.subscriptions = {number: it for number, it in self.subscriptions.items() if it[0] != one}


class Searches(asyncio.DatagramProtocol):
    """Answers the searches for channels."""

    def __init__(self, server):
        """Searches for the channels of this server."""
        self.server = server

    def connection_made(self, transport):
        """The port is open."""
        self.transport = transport

    def datagram_received(self, data, address):
        """Answers the searches of a packet in one packet."""
        answer = b""
        for command, _, _, one, _, payload in wire.messages(data)[0]:
            if command == wire.SEARCH and self.server.has(payload):
                answer += self.server.found(one)
            elif command == wire.REGISTER:  # it stands for the repeater as well
                self.transport.sendto(message(wire.CONFIRM, two=0x7F000001), address)
        if answer:
            self.transport.sendto(message(wire.VERSION, count=wire.MINOR) + answer, address)


class Server:
    """A server and its channels. All but `puts` and `port` is touched by its own thread: `call` has others do something there."""

    def __init__(self, channels):
        """A server of these channels, which does not run yet."""
        self.channels = {it.name: it for it in channels}
        self.circuits, self.held, self.last = set(), [], 100
        # Each put that came: the name of the channel, its values, whether it asked for an answer, whether it was taken.
        self.puts, self.on_put = [], lambda name, values: None

    def has(self, payload):
        """Whether a search for a name is answered."""
        channel = self.channels.get(wire.name_in(payload))
        return channel is not None and channel.is_there

    def found(self, one):
        """The answer to a search."""
        return message(wire.SEARCH, struct.pack(">HHI", wire.MINOR, 0, 0), self.port, 0, 0xFFFFFFFF, one)

    def put(self, channel, values, asks):
        """Does a put, or refuses it. Its status."""
        status = wire.NO_WRITE if not channel.access & 2 else wire.PUT_FAIL if channel.refusals else wire.NORMAL
        channel.refusals = max(0, channel.refusals - 1)
        values = channel.read(values)
        if status == wire.NORMAL:
            self.set(channel.name, values)
            self.on_put(channel.name, values)
        self.puts.append((channel.name, values, asks, status == wire.NORMAL))
        return status

    def set(self, name, values):
        """Gives a channel values, and sends them."""
        self.channels[name].values = list(values)
        for circuit in list(self.circuits):
            circuit.changed(self.channels[name])

    def down(self, name):
        """A channel is gone, and searches for it stay without an answer."""
        self.channels[name].is_there = False
        for circuit in list(self.circuits):
            circuit.lose(self.channels[name])

    def up(self, name):
        """Searches for a channel are answered again."""
        self.channels[name].is_there = True

    def answer(self):
        """Sends the answers that were held back."""
        for transport, answer in self.held:
            transport.write(answer)
        self.held.clear()

    def drop(self):
        """Closes all circuits, as if the server had died."""
        for circuit in list(self.circuits):
            circuit.transport.abort()

    def call(self, do, *words):
        """Has the thread of the server do something, and waits for it: `server.call(server.set, "LAB:LAMP", [1])`."""

        async def done():
            """Does it, in the thread of the server."""
            do(*words)

        asyncio.run_coroutine_threadsafe(done(), self.loop).result(SECONDS)


@contextmanager
def serving(channels):
    """A server of these channels, while the block runs, in a thread of its own."""
    server = Server(channels)
    stream, packets = free_port()
    server.port = stream.getsockname()[1]
    server.loop = loop = asyncio.new_event_loop()

    async def begin():
        """Opens both ports. What closes them."""
        listener = await loop.create_server(lambda: Circuit(server), sock=stream)
        searches, _ = await loop.create_datagram_endpoint(lambda: Searches(server), sock=packets)
        return listener, searches

    ports = loop.run_until_complete(begin())
    thread = threading.Thread(target=loop.run_forever, daemon=True)
    thread.start()
    try:
        yield server
    finally:
        for it in (server.drop, *(port.close for port in ports)):
            server.call(it)
        server.call(lambda: None)  # one more turn of the loop, in which the circuits end
        loop.call_soon_threadsafe(loop.stop)
        thread.join()
        loop.close()


def environment(server):
    """What tells libca to look at this server alone."""
    found = {"ADDR_LIST": LOOPBACK, "AUTO_ADDR_LIST": "NO", "SERVER_PORT": server.port, "REPEATER_PORT": server.port}
    found["MAX_SEARCH_PERIOD"] = 60  # the least that it takes: so long it may wait before it looks for a channel once more
    return {f"EPICS_CA_{name}": str(value) for name, value in found.items()}
