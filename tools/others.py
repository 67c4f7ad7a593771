"""Other stores of taps, for tools/serve-speed: PostgreSQL and redis, each made anew in a folder, with each write on the
disk before it is answered."""
import glob
import os
import pwd
import shutil
import subprocess
import tempfile
import time

TABLE = """CREATE TABLE tap (owner smallint, device integer, lane bigint, link bigint, product integer, token bigint,
    moment bigint, day integer, PRIMARY KEY (owner, device, lane), UNIQUE (device, link));"""
PREPARED = "PREPARE put(bigint) AS INSERT INTO tap VALUES (1, {device}, $1, $1, 1, 77, 1704100000, 19723);\n"
# As many bytes as a tap's body has.
BODY = "x" * 46


def as_user(name):
    """What goes before a command so that it runs as this user: these servers don't run as root."""
    return ["runuser", "-u", name, "--"] if os.geteuid() == 0 else []


def puts(device, count, commit):
    """The statements by which a connection stores so many taps, so many a commit."""
    lines = [PREPARED.format(device=device)]
    for link in range(1, count + 1):
        if commit > 1 and link % commit == 1:
            lines.append("BEGIN;\n")
        lines.append(f"EXECUTE put({link});\n")
        if commit > 1 and (link % commit == 0 or link == count):
            lines.append("COMMIT;\n")
    return "".join(lines)


def postgres_speeds(folder, count, forms):
    """Taps a second of a new PostgreSQL for each form, a number of connections and how many taps a commit has, each
    connection by a statement that it prepares once; or None where there is no PostgreSQL."""
    found = sorted(glob.glob("/usr/lib/postgresql/*/bin"))
    if not found or not shutil.which("psql"):
        return None
    with tempfile.TemporaryDirectory(dir=folder) as place:
        user = as_user("postgres")
        if user:
            os.chown(place, pwd.getpwnam("postgres").pw_uid, -1)
        control = [*user, os.path.join(found[-1], "pg_ctl"), "-D", f"{place}/data", "-w"]
        client = [*user, "psql", "-h", place, "-q", "-d", "postgres"]
        quiet = {"check": True, "stdout": subprocess.DEVNULL, "text": True}
        subprocess.run([*user, os.path.join(found[-1], "initdb"), "-D", f"{place}/data", "-A", "trust"], **quiet)
        subprocess.run([*control, "-o", f"-k {place} -h ''", "-l", f"{place}/log", "start"], **quiet)
        try:
            return [postgres_speed(client, quiet, count, *form) for form in forms]
        finally:
            subprocess.run([*control, "-m", "fast", "stop"], **quiet)


def postgres_speed(client, quiet, count, connections, commit):
    subprocess.run(client, input="DROP TABLE IF EXISTS tap;" + TABLE, stderr=subprocess.DEVNULL, **quiet)
    each = count // connections
    texts = [puts(device, each, commit) for device in range(1, connections + 1)]
    clients = [subprocess.Popen(client, stdin=subprocess.PIPE, stdout=subprocess.DEVNULL, text=True) for _ in texts]
    for running in clients:
        running.stdin.write("SELECT 1;\n")
        running.stdin.flush()
    time.sleep(1)
    begun = time.monotonic()
    for running, text in zip(clients, texts):
        running.stdin.write(text)
        running.stdin.close()
    if any([running.wait() for running in clients]):
        raise AssertionError("psql failed")
    return each * connections / (time.monotonic() - begun)


def redis_speeds(folder, count, forms):
    """Taps a second of a new redis with `appendfsync always` for each form, a number of clients and how many taps a call
    has; or None where there is no redis."""
    if not shutil.which("redis-server"):
        return None
    with tempfile.TemporaryDirectory(dir=folder) as place:
        path = os.path.join(place, "socket")
        server = subprocess.Popen(["redis-server", "--port", "0", "--unixsocket", path, "--dir", place, "--appendonly",
                                   "yes", "--appendfsync", "always", "--save", ""], stdout=subprocess.DEVNULL)
        try:
            for _ in range(500):
                if os.path.exists(path):
                    break
                time.sleep(0.01)
            return [redis_speed(path, count, *form) for form in forms]
        finally:
            server.terminate()
            server.wait()


def redis_speed(path, count, clients, call):
    command = ["redis-benchmark", "-s", path, "-c", str(clients), "-n", str(count // call), "--csv", "RPUSH", "lane"]
    begun = time.monotonic()
    subprocess.run([*command, *[BODY] * call], check=True, stdout=subprocess.DEVNULL)
    return count // call * call / (time.monotonic() - begun)
