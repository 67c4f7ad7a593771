"""Clients of the program's `serve`, and the program over stores in files, for the tools beside this file."""
import contextlib
import os
import socket
import sqlite3
import struct
import subprocess
import threading
import time

TOP = os.path.dirname(os.path.dirname(os.path.abspath(__file__)))
PROGRAM = os.environ.get("HUB", os.path.join(TOP, "crates/fare_hub/out/fare_hub"))
# How many items the inbox and the owner's lane queue may hold.
QUEUE = int(os.environ.get("QUEUE", "64"))
MOMENT = 1_704_100_000
DAY = 19_723
# How many seconds stand between two taps of a station that sends slowly.
PAUSE = 0.05


def framed(kind, body):
    return struct.pack(">HB", len(body) + 1, kind) + body


def greeted(device, version=1):
    return framed(5, struct.pack(">IH", device, version))


def tapped(device, link):
    """Its tap of this link: of four, one without a route and three on routes 1 to 3."""
    body, route = struct.pack(">IQHQIQQI", device, link, 1, link, 1, 77, MOMENT, DAY), link % 4
    return framed(6, body + struct.pack(">H", route)) if route else framed(1, body)


def acked(device, link):
    return framed(3, struct.pack(">IQ", device, link))


def scheme_of(stations):
    """The lines of a scheme of one owner with so many stations, each of one device of its number."""
    lines = [f"owner 1 {QUEUE}", "operator 1", "product 1 1 175", "caps 1 525 2470", f"inbox {QUEUE}",
             "zone GMT0BST,M3.5.0/1,M10.5.0", f"start {DAY}"]
    for number in range(1, stations + 1):
        lines += [f"station {number} 1", f"device {number} {number} 64"]
    return "\n".join(lines + ["seal", ""])


class Hub:
    """The program, serving so many stations once, or for as long as a file isn't there; answering an operator, if it is to."""

    def __init__(self, folder, turns=2_000, read_ms=5, write_ms=200, stations=2, under=(), until=None, options=(),
                 ask=None):
        self.path = os.path.join(folder, "outbox")
        given = {"--read-ms": read_ms, "--write-ms": write_ms, "--until": until, "--ask": ask}
        self.program = subprocess.Popen(
            [*under, PROGRAM, "serve", "--port", "0", "--turns", str(turns), "--outbox", self.path, *options,
             *[word for name, value in given.items() if value is not None for word in (name, str(value))]],
            stdin=subprocess.PIPE, stdout=subprocess.PIPE, stderr=subprocess.PIPE)
        self.program.stdin.write(scheme_of(stations).encode())
        self.program.stdin.close()
        self.port = self.port_behind("listening ")
        self.answering = None if ask is None else self.port_behind("answering ")

    def port_behind(self, word):
        line = self.program.stdout.readline().decode()
        if not line.startswith(word):
            raise AssertionError(f"the program said {line!r} {self.program.stderr.read()!r}")
        return int(line.split()[1])

    def connect(self, timeout=60):
        line = socket.create_connection(("127.0.0.1", self.port))
        line.setsockopt(socket.IPPROTO_TCP, socket.TCP_NODELAY, 1)
        line.settimeout(timeout)
        return line

    def killed(self):
        """Ends the program at once, as it stands, and says whether it had not ended by itself."""
        was_up = self.program.poll() is None
        self.program.kill()
        self.program.stdout.close()
        self.program.stderr.close()
        self.program.wait()
        return was_up

    def ended(self, within=60):
        """The counts, what standard error got, and the greatest memory in KiB."""
        killer = threading.Timer(within, self.program.kill)
        killer.start()
        written = self.program.stdout.read().decode().splitlines()
        told = self.program.stderr.read().decode().splitlines()
        _, status, usage = os.wait4(self.program.pid, 0)
        killer.cancel()
        self.program.returncode = os.waitstatus_to_exitcode(status)
        if self.program.returncode != 0:
            raise AssertionError(f"status {self.program.returncode}, {written}, {told}")
        return written, told, usage.ru_maxrss


def links_in(path):
    """The links of the taps in the ledger of owner 1, by device."""
    return looked_at(path + ".1")[0]


def read_to_end(line):
    """All that comes until the line's end, or until it breaks."""
    got = b""
    try:
        while True:
            piece = line.recv(65_536)
            if not piece:
                return got
            got += piece
    except OSError:
        return got


def taps(device, first, last):
    return b"".join(tapped(device, link) for link in range(first, last + 1))


def sends(line, data):
    """Sends all of it and ends this side; then what comes back."""
    try:
        line.sendall(data)
        line.shutdown(socket.SHUT_WR)
    except OSError:
        pass
    got = read_to_end(line)
    line.close()
    return got


def resets(line):
    line.setsockopt(socket.SOL_SOCKET, socket.SO_LINGER, struct.pack("ii", 1, 0))
    line.close()


def at_once(*jobs):
    """Runs these side by side, and answers what each gave."""
    results = [None] * len(jobs)

    def run(place):
        results[place] = jobs[place]()

    threads = [threading.Thread(target=run, args=(place,)) for place in range(len(jobs))]
    for thread in threads:
        thread.start()
    for thread in threads:
        thread.join()
    return results


def wants(what, is_there, should_be):
    if is_there != should_be:
        raise AssertionError(f"{what}: {is_there!r} instead of {should_be!r}")


def looked_at(path):
    """What the stock sqlite3 finds in a store: that it is whole, and its taps and greatest links."""
    with contextlib.closing(sqlite3.connect(path)) as store:
        wants(f"integrity of {path}", store.execute("PRAGMA integrity_check").fetchall(), [("ok",)])
        names = [name for name, in store.execute("SELECT name FROM sqlite_schema WHERE type = 'table'")]
        rows = store.execute("SELECT device, link FROM tap2 ORDER BY device, lane").fetchall() if "tap2" in names else []
        upto = dict(store.execute("SELECT id, upto FROM device").fetchall()) if "device" in names else {}
    links = {}
    for device, link in rows:
        links.setdefault(device, []).append(link)
    return links, upto


class Validator:
    """A device that numbers its taps, keeps those that aren't acknowledged, and sends them again."""

    def __init__(self, device):
        self.device = device
        self.acknowledged = 0
        self.made = 0

    def plays(self, hub, chance):
        """One line: what waits and some more taps, in pieces; it ends, breaks, or is left open and silent."""
        self.made += chance.randrange(1, 30)
        line = hub.connect(timeout=5)
        data = greeted(self.device) + taps(self.device, self.acknowledged + 1, self.made)
        ending = chance.choice(["ends", "ends", "cut", "reset", "left"])
        if ending == "cut":
            data = data[:chance.randrange(len(data))]
        try:
            while data:
                size = chance.randrange(1, 400)
                line.sendall(data[:size])
                data = data[size:]
            if ending == "reset":
                time.sleep(chance.random() / 20)
                self.hears(line, wait=False)
                resets(line)
                return
            if ending == "left":
                self.hears(line)
                line.close()
                return
            line.shutdown(socket.SHUT_WR)
        except OSError:
            pass
        self.hears(line)
        line.close()

    def hears(self, line, wait=True):
        if not wait:
            line.setblocking(False)
        got = read_to_end(line)
        for place in range(0, len(got) - 14, 15):
            length, kind, device, upto = struct.unpack(">HBIQ", got[place:place + 15])
            wants("an answer", (length, kind, device), (13, 3, self.device))
            self.acknowledged = max(self.acknowledged, upto)

    def streams(self, hub, chance, most):
        """One line on which taps are made, sent and acknowledged, until the line breaks or so many are acknowledged."""
        try:
            line = hub.connect(timeout=5)
        except OSError:
            return
        sent, heard = self.acknowledged, b""
        try:
            line.sendall(greeted(self.device))
            while self.acknowledged < most:
                self.made = max(self.made, min(most, self.acknowledged + chance.randrange(1, 60)))
                line.sendall(taps(self.device, sent + 1, self.made))
                sent = max(sent, self.made)
                piece = line.recv(4_096)
                if not piece:
                    break
                heard += piece
                while len(heard) >= 15:
                    self.acknowledged = max(self.acknowledged, struct.unpack(">HBIQ", heard[:15])[3])
                    heard = heard[15:]
            line.shutdown(socket.SHUT_WR)
            read_to_end(line)
        except OSError:
            pass
        line.close()


def answers(line, heard, count):
    """Notes when each of so many links is covered by an answer."""
    got, upto = b"", 0
    while upto < count:
        piece = line.recv(65_536)
        now = time.monotonic()
        if not piece:
            return
        got += piece
        while len(got) >= 2 and len(got) >= 2 + (size := struct.unpack_from(">H", got)[0]):
            kind, body, got = got[2], got[3:2 + size], got[2 + size:]
            if kind == 3:
                link = struct.unpack_from(">Q", body, 4)[0]
                for place in range(upto, min(link, count)):
                    heard[place] = now
                upto = max(upto, link)


def sends_slowly(hub, device, count):
    """How long each of so many taps waited for its answer."""
    line = hub.connect(timeout=120)
    heard, sent = [None] * count, [0.0] * count
    listener = threading.Thread(target=answers, args=(line, heard, count))
    listener.start()
    line.sendall(greeted(device))
    time.sleep(0.5 + PAUSE * device / 17)
    begun = time.monotonic()
    for link in range(1, count + 1):
        time.sleep(max(0, begun + PAUSE * link - time.monotonic()))
        line.sendall(tapped(device, link))
        sent[link - 1] = time.monotonic()
    listener.join()
    line.close()
    wants("the answers", heard.count(None), 0)
    return [after - before for after, before in zip(heard, sent)]


def request(method="GET", target="/stand", host="127.0.0.1", fields=(), body=b""):
    """The bytes of a request over HTTP."""
    lines = [f"{method} {target} HTTP/1.1", f"Host: {host}", *fields]
    if body:
        lines.append(f"Content-Length: {len(body)}")
    return "\r\n".join([*lines, "", ""]).encode() + body


def asking(port, receives=None):
    """A connection to the port where the program answers its operator."""
    line = socket.socket()
    if receives:
        line.setsockopt(socket.SOL_SOCKET, socket.SO_RCVBUF, receives)
    line.settimeout(20)
    line.connect(("127.0.0.1", port))
    return line


def status_in(answer):
    """The status of the first answer of these bytes; 0 where there is none."""
    words = answer.split(b"\r\n", 1)[0].split(b" ")
    return int(words[1]) if answer.startswith(b"HTTP/1.1 ") and len(words) > 1 else 0


def asks(port, data):
    """What is answered there to these bytes, sent at once."""
    line = asking(port)
    try:
        line.sendall(data)
    except OSError:
        pass
    answer = read_to_end(line)
    line.close()
    return answer
