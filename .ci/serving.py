"""What the checks of clients and servers share: runs of the program, each within a limit of time, and an example's bus that is served on
this machine. The checks stand in the folder of the examples, and EB names the program."""
import contextlib, os, random, socket, subprocess, time

EB = os.environ["EB"]
HERE = "127.0.0.1"
MOST = 20  # seconds for a step
HEADER, HEADED = bytes.fromhex("4E6F1044"), bytes.fromhex("4E6F1444")  # magic, addresses and port of 32 bits; and the answer
failed = []


def compare(what, got, wanted):
    if got != wanted:
        failed.append(what)
        print(f"{what}: wanted {wanted}, got {got}")


def run(*words):
    """What a run writes, on both streams, and its status."""
    ran = subprocess.run(words, stdin=subprocess.DEVNULL, capture_output=True, timeout=MOST)
    return ran.stdout.decode(), ran.stderr.decode(), ran.returncode


def free_port(count, kind):
    """The first of so many ports in a row that nobody has."""
    while True:
        first = random.randrange(20000, 60000)
        with contextlib.ExitStack() as held, contextlib.suppress(OSError):
            for port in range(first, first + count):
                held.enter_context(socket.socket(socket.AF_INET, kind)).bind((HERE, port))
            return first


def reach(port):
    return socket.create_connection((HERE, port), timeout=MOST)


def receive(link, count):
    """Takes so many octets of a link, or fewer where it ends before."""
    octets = b""
    while len(octets) < count and (piece := link.recv(count - len(octets))):
        octets += piece
    return octets


def asked(link):
    """A peer that asks for an answer to a header, and leaves."""
    with link:
        link.sendall(HEADER)
        return receive(link, len(HEADED))


def meet(port):
    return asked(reach(port))


def reach_when(server, port):
    """Reaches a port as soon as the server listens there."""
    while True:
        try:
            return reach(port)
        except ConnectionRefusedError:
            if server.poll() is not None:
                raise
            time.sleep(0.01)


@contextlib.contextmanager
def serving(*words):
    """A server, which must end by itself. Its output and its status are in `told` then."""
    told = {}
    with subprocess.Popen([EB, *words], stdin=subprocess.DEVNULL, stdout=subprocess.PIPE, stderr=subprocess.PIPE, text=True) as server:
        try:
            yield server, told
            told["out"], told["err"] = server.communicate(timeout=MOST)
            told["status"] = server.returncode
        finally:
            server.kill()


@contextlib.contextmanager
def served(what, endings, status=0):
    """The bus of soc.json by the program's `serve`, its first port for those who ask, its second for peers that come and go. The streams of
    the first must end so, and the run with this status."""
    port, count = free_port(2, socket.SOCK_STREAM), len(endings)
    with serving("serve", "soc.json", str(port), str(count)) as (server, told):
        first = asked(reach_when(server, port + 1))
        compare(f"{what}: the second port", {first, *(meet(port + 1) for _ in range(count - 1))}, {HEADED})
        yield port, told
    lines = [f"port 0 connection {k} {ending}\n" for k, ending in enumerate(endings)]
    lines += [f"port 1 connection {k} clean\n" for k in range(count)]
    compare(f"{what}: the streams", told["out"].partition("journal\n")[0], "".join(lines))
    compare(f"{what}: the status", (told["err"], told["status"]), ("", status))
