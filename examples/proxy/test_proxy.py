"""Tests of the proxy, between clients and a server of the tests' own.

    PROXY=target/release/proxy python3 -B -m unittest test_proxy

Clients and server speak by sockets: a packet is sent as bytes, and what comes is compared. `try.sh`
has what takes a real server.
"""

import contextlib
import glob
import os
import re
import resource
import selectors
import signal
import socket
import struct
import subprocess
import sys
import threading
import time
import unittest

from server import CACHE_METADATA, COMPRESS, OPTIONAL_METADATA, PLAIN, SSL, ZSTD
import debian_clients
from server import ACKNOWLEDGED, DUMP, EOF, EOF_IN_CURSOR, FAILED, OK, PING, QUIT, REFUSED
from server import Greeter, Peer, Server, column, login, long_ok, text

PROXY = os.environ.get("PROXY", "target/release/proxy")
PATIENCE = 20

class Proxy:
    """A running proxy. What it logs is kept as it comes, where `reads_log` is true."""

    def __init__(self, server_port, *options, reads_log=True, descriptors=None):
        words = [PROXY, "--statements", *map(str, options)]
        words += ["127.0.0.1:0", f"127.0.0.1:{server_port}"]
        self.process = subprocess.Popen(words, stdout=subprocess.PIPE)
        if descriptors:
            limits = (descriptors, resource.getrlimit(resource.RLIMIT_NOFILE)[1])
            resource.prlimit(self.process.pid, resource.RLIMIT_NOFILE, limits)
        first = self.process.stdout.readline()
        self.port = int(first.rpartition(b":")[2])
        self.lines = [first.decode()]
        self.reader = threading.Thread(target=self.read_log, daemon=True)
        if reads_log:
            self.reader.start()

    def read_log(self):
        for line in self.process.stdout:
            self.lines.append(line.decode())

    def logged(self, pattern):
        return within(lambda: any(re.search(pattern, line) for line in self.lines))

    def close(self):
        self.process.kill()
        self.process.wait()
        if self.reader.is_alive():
            self.reader.join()
        self.process.stdout.close()

    def memory(self, field):
        with open(f"/proc/{self.process.pid}/status", encoding="ascii") as status:
            return int(re.search(rf"^{field}:\s*(\d+) kB", status.read(), re.M)[1])

    def threads(self):
        return len(os.listdir(f"/proc/{self.process.pid}/task"))

    def waits(self, name):
        """How often the thread of this name has waited for something."""
        for status in glob.glob(f"/proc/{self.process.pid}/task/*/status"):
            with open(status, encoding="ascii") as lines:
                fields = dict(line.split(":", 1) for line in lines)
            if fields["Name"].strip() == name:
                return int(fields["voluntary_ctxt_switches"])
        raise LookupError(name)


def within(holds, seconds=PATIENCE):
    """Whether this holds soon."""
    ends = time.monotonic() + seconds
    while not holds():
        if time.monotonic() > ends:
            return False
        time.sleep(0.02)
    return True


def unused_port():
    with socket.create_server(("127.0.0.1", 0)) as away:
        return away.getsockname()[1]


def number_in(path):
    """The number in a file of the system's, or the greatest where it has none."""
    with contextlib.suppress(OSError, ValueError), open(path, encoding="ascii") as file:
        return int(file.read())
    return sys.maxsize


def turned_away():
    """How many connections found a listener's queue full so far, where the system counts them."""
    with contextlib.suppress(OSError), open("/proc/net/netstat", encoding="ascii") as file:
        lines = [line.split() for line in file]
        for names, counts in zip(lines[::2], lines[1::2]):
            if "ListenOverflows" in names:
                return int(counts[names.index("ListenOverflows")])
    return 0


def burst():
    """How many clients come at once: 2000, or as many as the system has room for."""
    _, most = resource.getrlimit(resource.RLIMIT_NOFILE)
    files = min(most, 1 << 16) if most != resource.RLIM_INFINITY else 1 << 16
    resource.setrlimit(resource.RLIMIT_NOFILE, (files, most))
    waiting = number_in("/proc/sys/net/core/somaxconn")
    threads = number_in("/sys/fs/cgroup/pids.max")
    return min(2000, (files - 100) // 3, waiting, threads // 2)


class ProxyTests(unittest.TestCase):
    def setUp(self):
        self.server = Server()
        self.addCleanup(self.server.close)

    def proxy(self, *options, port=None, **how):
        proxy = Proxy(port or self.server.port, *options, **how)
        self.addCleanup(proxy.close)
        return proxy

    def connect(self, proxy):
        stream = socket.create_connection(("127.0.0.1", proxy.port), timeout=PATIENCE)
        self.addCleanup(stream.close)
        return Peer(stream)

    def client(self, proxy, packet=None):
        """A client that has sent its login."""
        client = self.connect(proxy)
        client.receive()
        client.send(packet or login())
        return client

    def logged_in(self, proxy):
        client = self.client(proxy)
        self.assertEqual(client.receive(), OK)
        return client

    def assert_error(self, client, code, is_last=True):
        packet = client.receive()
        self.assertEqual((packet[0], *struct.unpack("<H", packet[1:3])), (0xFF, code))
        if is_last:
            self.assert_end(client)

    def assert_end(self, client):
        with self.assertRaises(EOFError):
            client.receive()

    def assert_row(self, client, value):
        came = [client.receive() for _ in range(5)]
        self.assertEqual(came, [b"\x01", column(), EOF, text(value), EOF])

    def is_served(self, proxy):
        """Whether a new client comes as far as its login."""
        try:
            return self.client(proxy).receive() == OK
        except (EOFError, OSError):
            return False

    def is_refused(self, proxy):
        """Whether nobody listens."""
        try:
            self.connect(proxy).stream.close()
        except ConnectionRefusedError:
            return True
        return False

    def assert_serves(self, proxy):
        client = self.logged_in(proxy)
        client.command(b"\x03select")
        self.assert_row(client, b"select")


class Packets(ProxyTests):
    def test_answers_pass(self):
        proxy = self.proxy()
        client = self.logged_in(proxy)
        for statement in [b"select 1", b"select 2"]:
            client.command(b"\x03" + statement)
            self.assert_row(client, statement)
        client.command(PING)
        self.assertEqual(client.receive(), OK)

    def test_long_ends_of_answers_pass(self):
        client = self.logged_in(self.proxy())
        for count in [500, 600, 20000, 100000]:
            client.command(b"\x03long %d" % count)
            self.assertEqual(client.receive(), long_ok(count))
            client.command(b"\x03fail %d" % count)
            self.assertEqual(client.receive(), FAILED + b"x" * count)
        client.command(b"\x03select")
        self.assert_row(client, b"select")

    def test_a_procedure_selects_inside_its_cursor(self):
        client = self.logged_in(self.proxy())
        for _ in range(2):
            client.command(b"\x03call 2")
            for row in b"0", b"1":
                result = [b"\x01", column(), EOF_IN_CURSOR, text(row), EOF_IN_CURSOR]
                self.assertEqual([client.receive() for _ in result], result)
            self.assertEqual(client.receive(), OK)
        client.command(b"\x03SELECT 1")
        self.assert_row(client, b"SELECT 1")

    def test_bytes_pass_one_by_one(self):
        client = self.logged_in(self.proxy())
        for byte in b"\x09\0\0\0\x03select 1":
            client.stream.sendall(bytes([byte]))
            time.sleep(0.005)
        self.assert_row(client, b"select 1")

    def test_commands_may_come_before_the_answer(self):
        client = self.logged_in(self.proxy())
        client.stream.sendall(3 * b"\x09\0\0\0\x03select 1")
        for _ in range(3):
            self.assert_row(client, b"select 1")

    def test_a_row_of_60_million_bytes_takes_little_memory(self):
        proxy = self.proxy()
        client = self.logged_in(proxy)
        before = proxy.memory("VmRSS")
        client.command(b"\x03row 60000000")
        for _ in range(3):
            client.receive()
        self.assertEqual(client.receive_long(), 60000009)
        self.assertEqual(client.receive(), EOF)
        self.assertLess(proxy.memory("VmHWM"), before + 1024)


class HalfClosed(ProxyTests):
    """Clients that send no more."""

    def test_commands_before_the_end_are_answered(self):
        client = self.logged_in(self.proxy())
        count = 5000
        client.stream.sendall(count * (b"\x01\0\0\0" + PING))
        client.stream.shutdown(socket.SHUT_WR)
        for _ in range(count):
            self.assertEqual(client.receive(), OK)
        self.assert_end(client)

    def test_a_login_with_its_commands_behind_it(self):
        client = self.connect(self.proxy())
        packet = login()
        client.stream.sendall(len(packet).to_bytes(3, "little") + b"\x01" + packet)
        client.stream.sendall(3 * b"\x09\0\0\0\x03select 1")
        client.stream.shutdown(socket.SHUT_WR)
        client.receive()
        self.assertEqual(client.receive(), OK)
        for _ in range(3):
            self.assert_row(client, b"select 1")
        self.assert_end(client)

    def test_an_end_inside_a_command(self):
        proxy = self.proxy()
        clients = [self.logged_in(proxy) for _ in range(40)]
        threads = proxy.threads()
        for client in clients:
            client.stream.sendall((1000).to_bytes(3, "little") + b"\0\x03" + bytes(600))
        for client in clients:
            client.stream.close()
        self.assertTrue(within(lambda: self.server.left == 40, 3))
        self.assertTrue(within(lambda: proxy.threads() == threads - 40, 3))
        self.assertTrue(proxy.logged("client went away inside a packet"))

    def test_an_end_inside_a_command_that_waits(self):
        client = self.logged_in(self.proxy())
        client.stream.sendall(b"\x09\0\0\0\x03wait 0.5" + b"\x09\0\0\0\x03sel")
        client.stream.shutdown(socket.SHUT_WR)
        self.assertEqual(client.receive(), OK)
        self.assert_end(client)

    def test_the_end_reaches_a_server_at_work(self):
        proxy = self.proxy()
        client = self.logged_in(proxy)
        client.command(b"\x03watch 15")
        self.assertTrue(proxy.logged("COM_QUERY watch"))
        client.stream.close()
        self.assertTrue(within(lambda: self.server.left == 1, 3))
        self.assertTrue(proxy.logged("the client hung up before its answer"))


    def test_a_reset_reaches_a_server_at_work(self):
        client = self.logged_in(self.proxy())
        client.command(b"\x03watch 15")
        client.stream.setsockopt(socket.SOL_SOCKET, socket.SO_LINGER, struct.pack("ii", 1, 0))
        client.stream.close()
        self.assertTrue(within(lambda: self.server.left == 1, 3))


class Crowds(ProxyTests):
    """More clients than there is room for."""

    def test_two_thousand_clients_at_once(self):
        count = burst()
        server = Greeter()
        self.addCleanup(server.close)
        proxy = self.proxy("--clients", count, port=server.port, reads_log=False)
        before = turned_away()
        ends = time.monotonic() + 3 * PATIENCE
        with contextlib.ExitStack() as stack, selectors.DefaultSelector() as ready:
            for _ in range(count):
                client = stack.enter_context(socket.socket())
                client.setblocking(False)
                client.connect_ex(("127.0.0.1", proxy.port))
                ready.register(client, selectors.EVENT_READ)
            left = count
            while left and time.monotonic() < ends:
                for key, _ in ready.select(1):
                    self.assertEqual(key.fileobj.recv(5)[4:], b"\x0a")
                    ready.unregister(key.fileobj)
                    left -= 1
        self.assertEqual(left, 0)
        self.assertEqual(turned_away(), before)

    def test_no_descriptor_for_a_client(self):
        proxy = self.proxy(descriptors=64)
        served = []
        while (client := self.connect(proxy)).receive()[0] != 0xFF:
            served.append(client)
        self.assertIn(len(served), range(25, 30))
        for _ in range(3):
            client = self.connect(proxy)
            client.stream.settimeout(3)
            self.assert_error(client, 1040)
        self.assertTrue(proxy.logged("isn't served: Too many open files"))
        for client in served:
            client.stream.close()
        self.assertTrue(within(lambda: self.is_served(proxy)))

    def test_no_thread_for_a_client(self):
        proxy = self.proxy()
        first = self.logged_in(proxy)
        # Of memory for stacks there is less than two threads take.
        size = proxy.memory("VmSize") * 1024 + (3 << 20)
        resource.prlimit(proxy.process.pid, resource.RLIMIT_AS, (size, size))
        clients = [self.connect(proxy) for _ in range(4)]
        self.assertIn(0xFF, [client.receive()[0] for client in clients])
        self.assertTrue(proxy.logged("isn't served: Resource temporarily unavailable"))
        self.assert_error(self.connect(proxy), 1040)
        first.command(PING)
        self.assertEqual(first.receive(), OK)


class Logins(ProxyTests):
    def test_what_is_not_offered_is_taken_back(self):
        proxy = self.proxy()
        client = self.connect(proxy)
        offered = client.receive()
        at = offered.index(b"\0", 1) + 14
        low, high = struct.unpack("<H3xH", offered[at : at + 7])
        self.assertEqual(low | high << 16, PLAIN)
        self.assertEqual(offered[at + 14 : at + 18], bytes(4))
        client.send(login(PLAIN | OPTIONAL_METADATA, CACHE_METADATA))
        self.assertEqual(client.receive(), OK)
        self.assertEqual(self.server.logins, [login()])

    def test_a_login_that_asks_for_tls_or_compression(self):
        proxy = self.proxy()
        for flag in [COMPRESS, SSL, ZSTD]:
            self.assert_error(self.client(proxy, login(PLAIN | flag)), 1043)
        self.assert_error(self.client(proxy, struct.pack("<IIB23x", PLAIN | SSL, 1, 45)), 1043)
        self.assertEqual(self.server.logins, [])

    def test_logins_that_are_cut_short(self):
        proxy = self.proxy()
        for count in [1, 3, 4, 31]:
            self.assert_error(self.client(proxy, login()[:count]), 1043)

    def test_a_long_login(self):
        proxy = self.proxy()
        for count in [600, 20000, 65000]:
            packet = login().replace(b"user", b"u" * count)
            self.assertEqual(self.client(proxy, packet).receive(), OK)
            self.assertEqual(self.server.logins.pop(), packet)

    def test_a_login_that_says_more_than_its_flags(self):
        proxy = self.proxy()
        self.assert_error(self.client(proxy, login() + b"more"), 1043)
        self.assertEqual(self.server.logins, [])

    def test_bytes_that_are_no_packets(self):
        proxy = self.proxy()
        for came, code in [(b"GET / HTTP/1.1\r\n\r\n", 1153), (b"\x01\0\0\x09ab", 1156)]:
            client = self.connect(proxy)
            client.receive()
            client.stream.sendall(came)
            self.assert_error(client, code)
        self.assert_serves(proxy)

    def test_a_client_too_many(self):
        proxy = self.proxy("--clients", 1)
        first = self.logged_in(proxy)
        self.assert_error(self.connect(proxy), 1040)
        first.command(QUIT)
        self.assertTrue(proxy.logged("hung up"))
        self.assertTrue(within(lambda: self.server.left == 1))
        self.assert_serves(proxy)

    def test_a_server_that_is_away(self):
        self.assert_error(self.connect(self.proxy(port=unused_port())), 1105)

    def test_no_descriptors(self):
        proxy = self.proxy(descriptors=12)
        first = self.logged_in(proxy)
        silent = [self.connect(proxy) for _ in range(30)]
        self.assertTrue(proxy.logged("isn't served: Too many open files"))
        first.command(b"\x03select 1")
        self.assert_row(first, b"select 1")
        for client in silent:
            client.stream.close()
        self.assertTrue(within(lambda: self.is_served(proxy)))


class Faults(ProxyTests):
    def test_a_command_out_of_order(self):
        client = self.logged_in(self.proxy())
        client.number = 3
        client.send(PING)
        self.assert_error(client, 1156)

    def test_a_command_above_the_limit(self):
        client = self.logged_in(self.proxy("--limit", 1 << 20))
        client.number = 0
        client.send_long(b"\x03", 2 << 20)
        self.assert_error(client, 1153)

    def test_an_answer_out_of_order(self):
        client = self.logged_in(self.proxy())
        client.command(b"\x03another")
        self.assert_error(client, 1156)

    def test_a_server_that_refuses_a_command_before_its_end(self):
        client = self.logged_in(self.proxy())
        client.number = 0
        client.send_long(b"\x03", 8 << 20)
        self.assertEqual(client.receive(), REFUSED)
        self.assert_end(client)

    def test_a_server_that_leaves_inside_a_command(self):
        client = self.logged_in(self.proxy())
        client.command(PING)
        self.assertEqual(client.receive(), OK)
        client.number = 0
        client.send_long(b"\x03", 16 << 20)
        self.assert_error(client, 1053)

    def test_an_answer_above_the_limit(self):
        client = self.logged_in(self.proxy("--limit", 1 << 20))
        client.command(b"\x03row 2000000")
        self.assertEqual([client.receive() for _ in range(3)], [b"\x01", column(), EOF])
        self.assert_error(client, 1153)

    def test_an_answer_above_the_limit_in_its_second_chunk(self):
        client = self.logged_in(self.proxy("--limit", 17000000))
        client.command(b"\x03row 20000000")
        self.assertEqual([client.receive() for _ in range(3)], [b"\x01", column(), EOF])
        self.assertEqual(client.bytes(4), b"\xff\xff\xff\x04")
        for _ in range(255):
            client.bytes(0xFFFFFF // 255)
        self.assert_end(client)

    def test_a_server_that_leaves_before_its_answer(self):
        client = self.logged_in(self.proxy())
        client.command(b"\x03leave")
        self.assert_error(client, 1053)

    def test_what_came_before_a_fault_goes_out(self):
        client = self.logged_in(self.proxy())
        client.command(b"\x03half 16")
        self.assertEqual([client.receive() for _ in range(3)], [b"\x01", column(), EOF])
        self.assert_end(client)

    def test_no_error_stands_inside_a_packet(self):
        client = self.logged_in(self.proxy())
        client.command(b"\x03half 2000")
        self.assertEqual([client.receive() for _ in range(3)], [b"\x01", column(), EOF])
        self.assertEqual(client.bytes(1004), (2000).to_bytes(3, "little") + b"\x04" + bytes(1000))
        with self.assertRaises(EOFError):
            client.bytes(1)

    def test_a_client_that_leaves_inside_a_packet(self):
        proxy = self.proxy()
        client = self.logged_in(proxy)
        client.stream.sendall(b"\x10\0\0\0half")
        time.sleep(0.1)
        client.stream.close()
        self.assertTrue(proxy.logged("client went away inside a packet"))
        self.assertTrue(within(lambda: self.server.left == 1))


class ShownErrors(ProxyTests):
    """What a user of Debian's clients is shown."""

    def assert_shown(self, proxy, statement, number, words):
        clients = debian_clients.installed()
        if not clients:
            self.skipTest("there is none of Debian's clients here")
        for client in clients:
            with self.subTest(client=client):
                shown, text = debian_clients.error_of(client, proxy.port, statement)
                self.assertEqual(shown, number)
                self.assertRegex(text, words)

    def test_a_client_too_many(self):
        self.assert_shown(self.proxy("--clients", 0), "select 1", 1040, "^Too many connections$")

    def test_a_server_that_is_away(self):
        proxy = self.proxy(port=unused_port())
        self.assert_shown(proxy, "select 1", 1105, "^Can't connect to the server$")

    def test_a_server_that_leaves_before_its_answer(self):
        words = "^The server hung up before its answer$"
        self.assert_shown(self.proxy(), "leave", 1053, words)

    def test_a_server_that_leaves_inside_its_answer(self):
        proxy = self.proxy()
        for statement in ["half 16", "half 2000"]:
            self.assert_shown(proxy, statement, 2013, "^Lost connection to .*server during query")

    def test_an_answer_above_the_limit(self):
        words = "^Got a packet bigger than 'max_allowed_packet' bytes$"
        self.assert_shown(self.proxy("--limit", 1 << 20), "row 2000000", 1153, words)


class Deadlines(ProxyTests):
    def test_a_silent_login(self):
        client = self.connect(self.proxy("--login", 1))
        client.receive()
        self.assert_error(client, 1159)

    def test_an_idle_client(self):
        client = self.logged_in(self.proxy("--idle", 1))
        self.assert_error(client, 4031)

    def test_a_client_that_stops_inside_a_command(self):
        proxy = self.proxy("--stalled", 1)
        client = self.logged_in(proxy)
        client.stream.sendall((1000).to_bytes(3, "little") + b"\0\x03" + bytes(600))
        self.assert_error(client, 1159)
        client.stream.close()
        self.assertTrue(proxy.logged("the client stopped inside a packet"))

    def test_a_server_may_work_for_longer(self):
        client = self.logged_in(self.proxy("--idle", 1, "--stalled", 1))
        client.command(b"\x03wait 1.5")
        self.assertEqual(client.receive(), OK)

    def test_a_client_that_reads_nothing(self):
        proxy = self.proxy("--stalled", 1)
        client = self.logged_in(proxy)
        client.command(b"\x03row 60000000")
        self.assertTrue(proxy.logged("client takes no more bytes"))
        self.assertTrue(within(lambda: self.server.left == 1))

    def test_a_client_that_ended_gets_its_answer(self):
        client = self.logged_in(self.proxy())
        client.command(b"\x03wait 0.3")
        client.stream.shutdown(socket.SHUT_WR)
        self.assertEqual(client.receive(), OK)
        with self.assertRaises(EOFError):
            client.receive()

    def test_an_answer_that_never_comes(self):
        proxy = self.proxy("--stalled", 1)
        client = self.logged_in(proxy)
        client.command(b"\x03wait 9")
        client.stream.shutdown(socket.SHUT_WR)
        self.assertTrue(proxy.logged("client hung up before its answer"))


class Ends(ProxyTests):
    def test_a_command_ends_after_sigterm(self):
        proxy = self.proxy()
        idle, busy = self.logged_in(proxy), self.logged_in(proxy)
        busy.command(b"\x03wait 1")
        self.assertTrue(proxy.logged("COM_QUERY wait"))
        proxy.process.send_signal(signal.SIGTERM)
        self.assert_error(idle, 1053)
        self.assertTrue(within(lambda: self.is_refused(proxy)))
        self.assertEqual(busy.receive(), OK)
        self.assert_error(busy, 1053)
        self.assertEqual(proxy.process.wait(PATIENCE), 0)
        self.assertTrue(proxy.logged("ends with 0 clients"))

    def test_a_replica(self):
        proxy = self.proxy()
        replica = self.logged_in(proxy)
        replica.command(DUMP + struct.pack("<IHI", 1, 0, 1))
        replica.receive()
        proxy.process.send_signal(signal.SIGTERM)
        self.assert_error(replica, 1053)
        replica.stream.close()
        self.assertEqual(proxy.process.wait(4), 0)

    def test_idle_clients_that_do_not_read(self):
        proxy = self.proxy()
        idle = [self.logged_in(proxy) for _ in range(3)]
        proxy.process.send_signal(signal.SIGTERM)
        self.assertEqual(proxy.process.wait(4), 0)
        self.assertTrue(proxy.logged("ends with 0 clients"))
        for client in idle:
            self.assert_error(client, 1053)

    def test_a_command_that_takes_too_long_is_left(self):
        proxy = self.proxy("--drain", 1)
        self.logged_in(proxy).command(b"\x03wait 9")
        self.assertTrue(proxy.logged("COM_QUERY wait"))
        proxy.process.send_signal(signal.SIGTERM)
        self.assertEqual(proxy.process.wait(5), 0)
        self.assertTrue(proxy.logged("ends with 1 client$"))

    def test_sigint(self):
        # Where a shell runs this in the background it is ignored, and that is inherited.
        signal.signal(signal.SIGINT, signal.default_int_handler)
        proxy = self.proxy()
        self.logged_in(proxy)
        proxy.process.send_signal(signal.SIGINT)
        self.assertEqual(proxy.process.wait(PATIENCE), -signal.SIGINT)


class Replicas(ProxyTests):
    def test_acknowledgements_pass_while_the_log_is_sent(self):
        client = self.logged_in(self.proxy())
        client.stream.settimeout(5)
        client.command(DUMP + struct.pack("<IHI", 5, 0, 1))
        for event in range(5):
            self.assertEqual(client.receive(), b"\0\xef\x01" + bytes([event]))
            self.assertEqual(client.number, 2)
            client.command(ACKNOWLEDGED)
        self.assertEqual(client.receive(), EOF)
        client.command(PING)
        self.assertEqual(client.receive(), OK)


class Logs(ProxyTests):
    def test_lines_that_nobody_reads_stop_nothing(self):
        proxy = self.proxy(reads_log=False)
        client = self.logged_in(proxy)
        for _ in range(4000):
            client.command(PING)
            self.assertEqual(client.receive(), OK)
        proxy.reader.start()
        self.assertTrue(within(lambda: len(proxy.lines) > 1500))
        client.command(PING)
        self.assertEqual(client.receive(), OK)
        self.assertTrue(proxy.logged(r" \d+ lines dropped"))

    def test_lines_are_written_together(self):
        proxy = self.proxy()
        client = self.logged_in(proxy)
        before = proxy.waits("log")
        for _ in range(2000):
            client.command(PING)
            self.assertEqual(client.receive(), OK)
        self.assertLess(proxy.waits("log") - before, 1000)
        self.assertTrue(within(lambda: sum("COM_PING" in line for line in proxy.lines) == 2000))

    def test_lines_have_time_number_and_address(self):
        proxy = self.proxy()
        client = self.logged_in(proxy)
        client.command("\x03se\nle\u202ect".encode())
        port = client.stream.getsockname()[1]
        self.assertTrue(
            proxy.logged(
                rf"^\d{{4}}-\d\d-\d\dT\d\d:\d\d:\d\d\.\d{{3}}Z 1 127\.0\.0\.1:{port}"
                r" COM_QUERY se\\u\{a\}le\\u\{202e\}ct$"
            )
        )

    def test_words_of_the_command_line(self):
        for words, status in [(["--help"], 0), ([], 2), (["--limit"], 2), (["--nothing"], 2)]:
            ran = subprocess.run([PROXY, *words], capture_output=True, timeout=PATIENCE, check=False)
            self.assertEqual(ran.returncode, status)
            self.assertIn(b"usage: proxy", ran.stdout + ran.stderr)


if __name__ == "__main__":
    unittest.main()
