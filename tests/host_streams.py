"""The server and its TCP streams: pieces, many clients, slow ones, broken ones, noise."""
import contextlib
import os
import random
import socket
import threading
import time

from preset import Preset, READ, READ_REPLY
from serving import PATIENCE, Client, Server, Wrong, asked, check, same, soon, tcp, values_of, words


def test_pieces(program):
    """However the bytes of a TCP stream are grouped, the replies are the same."""
    frames = [tcp(READ, n) for n in range(40)]
    replies = b"".join(tcp(READ_REPLY, n) for n in range(40))
    with Preset(program) as server:
        for size in (1, 5, 13, 29, 480):
            with Client(server.port) as client:
                client.socket.setsockopt(socket.IPPROTO_TCP, socket.TCP_NODELAY, 1)
                stream = b"".join(frames)
                for at in range(0, len(stream), size):
                    client.send(stream[at:at + size])
                    time.sleep(0.002 if size < 100 else 0)
                same(client.receive(len(replies)), replies, f"the replies to pieces of {size} bytes")
        with Client(server.port) as client:  # all that it wants, and then it sends no more
            client.send(b"".join(frames))
            client.socket.shutdown(socket.SHUT_WR)
            same(client.closed(), replies, "the replies after the client's end")


def test_many_at_once(program):
    """30 clients, each with a register of its own, asking in threads of their own."""
    wrong = []

    def work(port, own):
        try:
            with Client(port) as client:
                for n in range(40):
                    same(client.ask(asked(6, own, n)), asked(6, own, n), "an echo")
                    same(values_of(client.ask(asked(3, own, 1))), [n], f"register {own}")
        except (Wrong, OSError) as fault:
            wrong.append(str(fault))
    with Server(program) as server:
        workers = [threading.Thread(target=work, args=(server.port, own)) for own in range(30)]
        for worker in workers:
            worker.start()
        for worker in workers:
            worker.join()
    same(wrong, [], "the clients")


def test_silent_and_slow(program):
    """Clients that say nothing, stop in a frame, or drip, are closed; another is served all the while."""
    with Preset(program, "--idle", "2", "--patience", "1") as server, Client(server.port) as good, \
            Client(server.port) as silent, Client(server.port) as stopped, Client(server.port) as dripping:
        stopped.send(tcp(READ)[:7])
        begun = time.monotonic()
        for n in range(30):
            if n < 9:
                dripping.send(tcp(READ)[n:n + 1])
            same(good.ask(READ), READ_REPLY, "the reply to the good client")
            time.sleep(0.1)
        for client in (silent, stopped, dripping):
            same(client.closed(), b"", "what a client that is closed is sent")
        check(time.monotonic() - begun < 15, "closing took too long")
        reasons = sorted(line.partition("closed, ")[2] for line in server.log() if "closed" in line)
        same(reasons, ["since it was silent too long"] + 2 * ["since its frame did not come to an end"], "the log")


def test_replies_not_taken(program):
    """A client that asks and never reads fills its own buffers, stalls nobody, and is closed."""
    with Preset(program, "--patience", "1") as server, Client(server.port) as good, \
            Client(server.port, receive_room=4096) as greedy:
        greedy.socket.setblocking(False)
        many, end, closed = tcp(asked(3, 0, 125)) * 100, time.monotonic() + PATIENCE, False
        while not closed:
            check(time.monotonic() < end, "a client that takes no replies is not closed")
            try:
                greedy.socket.send(many)
            except BlockingIOError:
                time.sleep(0.02)
            except ConnectionError:
                closed = True
            same(good.ask(READ), READ_REPLY, "the reply to the good client")
        check(any("does not take" in line for line in server.log()), "why it was closed is not logged")


def test_broken_streams(program):
    """FrameBroken and WrongLength: no reply. Where the next frame begins is known from a length of 2 to 254, and the
    client goes on; from any other it is not, and the client is closed after the replies that are due."""
    with Preset(program) as server, Client(server.port) as good:
        with Client(server.port) as client:
            for broken in (b"\0\1\0\1\0\6" + READ, b"\0\1\1\0\0\6" + READ, b"\0\1\0\0\0\2\1\3", tcp(READ[:5]),
                           tcp(asked(16, 0, 122, bytes(244)) + b"\0"), tcp(asked(16, 0, 123, bytes(246)) + b"\0")):
                client.send(broken + tcp(READ, 99))
                same(client.receive(13), tcp(READ_REPLY, 99), f"the reply after {broken[:8].hex()}")
        for field in (0, 1, 255, 256, 65535):
            with Client(server.port) as client:
                client.send(tcp(READ, 5) + b"\0\6\0\0" + words(field) + 5000 * b"\x01")
                same(client.closed(), tcp(READ_REPLY, 5), f"what comes before a length of {field} ends it")
        with Client(server.port) as client:
            client.send(b"GET / HTTP/1.1\r\n\r\n")
            same(client.closed(), b"", "the reply to another protocol")
        same(good.ask(READ), READ_REPLY, "the reply to the good client")
        for outcome, count in (("FrameBroken", 8), ("WrongLength", 4)):
            same(sum(line.endswith(outcome) for line in server.log()), count, f"how often {outcome} is logged")


def test_noise(program):
    """Random streams: noise, and frames with a byte changed, lost or added; the server goes on."""
    chance = random.Random(1)
    with Preset(program, "--patience", "1") as server, Client(server.port) as good:
        for n in range(int(os.environ.get("STREAMS", "300"))):
            with Client(server.port) as client:
                stream = bytearray()
                for _ in range(chance.randrange(1, 20)):
                    piece = bytearray(tcp(asked(chance.choice((1, 2, 3, 4, 8, 43)), chance.randrange(1100), 1)))
                    place = chance.randrange(len(piece))
                    how = chance.randrange(5)
                    piece[place:place + (how < 3)] = bytes([chance.randrange(256)]) * (how % 3)
                    stream += chance.randbytes(chance.randrange(1, 40)) if how == 4 else piece
                client.send(stream)
            if n % 10 == 0:
                same(good.ask(READ), READ_REPLY, "the reply to the good client")


def test_places(program):
    """With all places taken, a new client takes that of one that never asked, whenever that came; else that of the
    longest silent."""
    with Preset(program, "--clients", "2") as server, Client(server.port) as first, Client(server.port) as second:
        same(second.ask(READ), READ_REPLY, "the second client's reply")
        same(first.ask(READ), READ_REPLY, "the first client's reply")
        with Client(server.port) as third:
            same(third.ask(READ), READ_REPLY, "the third client's reply")
            same(second.closed(), b"", "what the silent client is sent")
            same(first.ask(READ), READ_REPLY, "the first client's reply")
    with Preset(program, "--clients", "2") as server, Client(server.port) as first:
        same(first.ask(READ), READ_REPLY, "the first client's reply")
        for wordless in (b"", tcp(READ)[:5], b"\0\1\0\1\0\6" + READ):
            with Client(server.port) as idle:
                idle.send(wordless)
                soon(lambda: sum(line.endswith("came") for line in server.log()) % 2 == 0, "it is not let in")
                with Client(server.port) as third:
                    same(third.ask(READ), READ_REPLY, "the third client's reply")
                    with contextlib.suppress(ConnectionResetError):  # where something of it was not read
                        same(idle.closed(), b"", "what the client that never asked is sent")
            soon(lambda: server.log()[-1].endswith("gone"), "the third client is not gone")
        same(first.ask(READ), READ_REPLY, "the first client's reply")


def connect_idly(port, rate, seconds):
    """So many connections a second that say nothing; the last hundred stay open."""
    begun, held = time.monotonic(), []
    for n in range(int(rate * seconds)):
        time.sleep(max(0, begun + n / rate - time.monotonic()))
        held.append(socket.socket())
        held[-1].setblocking(False)
        held[-1].connect_ex(("127.0.0.1", port))
        if len(held) > 100:
            held.pop(0).close()
    for each in held:
        each.close()


def come_until_served(port):
    """As clients do: one that was closed before it could ask, since others came meanwhile, comes again."""
    for _ in range(50):
        with contextlib.suppress(Wrong, OSError), Client(port) as client:
            same(client.ask(READ), READ_REPLY, "a new client's reply")
            return
    raise Wrong("a new client is not served among idle connects")


def test_idle_connects(program):
    """Who connects and says nothing, 50 and 1,000 times a second, costs a client nothing that polls, nor one that has
    asked once; and a client that comes in the midst of it is served."""
    for rate in (50, 1000):
        with Preset(program, "--clients", "4") as server, Client(server.port) as polling, Client(server.port) as seldom:
            same(seldom.ask(READ), READ_REPLY, "the reply to the client that asks seldom")
            crowd = threading.Thread(target=connect_idly, args=(server.port, rate, 2.5))
            crowd.start()
            while crowd.is_alive():
                same(polling.ask(READ), READ_REPLY, f"the reply among {rate} idle connects a second")
                come_until_served(server.port)
                time.sleep(0.2)
            crowd.join()
            same(seldom.ask(READ), READ_REPLY, "the reply to the client that asks seldom, afterwards")


def poll_alone(port):
    """Polls for 2 seconds while others wait for the only place; the longest time between two requests."""
    crowd = threading.Thread(target=connect_idly, args=(port, 50, 2))
    longest, last = 0, None
    with Client(port) as polling:
        same(polling.ask(READ), READ_REPLY, "the first reply")
        crowd.start()
        try:
            while crowd.is_alive():
                last = time.monotonic()
                time.sleep(0.1)
                same(polling.ask(READ), READ_REPLY, "the reply to the client that polls")
                longest = max(longest, time.monotonic() - last)
        except (Wrong, OSError):
            check(time.monotonic() - last > 0.8, "a client that asked within the last second is closed")
            longest = 1
        finally:
            crowd.join()
    return longest


def test_one_place(program):
    """Who asked within the last second keeps even the only place; tries in which this machine itself took longer do
    not count."""
    for _ in range(20):
        with Preset(program, "--clients", "1") as server:
            if poll_alone(server.port) < 0.8:
                same(sum("a client waits, since all 1 places" in line for line in server.output().splitlines()), 1,
                     "how often it is said that somebody waits")
                return
    raise Wrong("this machine pauses too often")


def test_crowded_writers(program):
    """60 clients at once for one place, each of which comes again until its write is answered: no write is done whose
    reply is not sent, so that none is done twice."""
    replied = []

    def write(port, own):
        end = time.monotonic() + 60
        while own not in replied and time.monotonic() < end:
            with contextlib.suppress(Wrong, OSError), Client(port) as client:
                same(client.ask(asked(6, own, own + 1)), asked(6, own, own + 1), "an echo")
                replied.append(own)
    with Preset(program, "--clients", "1") as server:
        writers = [threading.Thread(target=write, args=(server.port, own)) for own in range(60)]
        for writer in writers:
            writer.start()
        for writer in writers:
            writer.join()
        done = sum("wrote holdings" in line for line in server.log())
        same((len(replied), done), (60, 60), "writers that were answered, and writes that were done")
