"""A switch that is started, its commands, and a relay before it that hears each request."""
import socket
import subprocess
import threading

SECONDS = 60


class Checks:
    def __init__(self):
        self.passed = self.failed = 0

    def true(self, name, holds, found=""):
        if holds:
            self.passed += 1
        else:
            self.failed += 1
            print(f"{name}: does not hold {found}".rstrip())

    def equal(self, name, found, expected):
        self.true(name, found == expected, f"\n  found    {found!r}\n  expected {expected!r}")


class Switch:
    """A switch with a configuration that is known: `config` is that of `version`."""

    def __init__(self, program, work):
        self.program, self.work = program, work
        words = [program, "serve", "--front", "127.0.0.1:0", "--control", "127.0.0.1:0", "--workers", "1"]
        self.process = subprocess.Popen(words, stdin=subprocess.DEVNULL, stdout=subprocess.PIPE, text=True)
        self.control = self.process.stdout.readline().split()[2]
        self.version, self.config = 0, {}

    def run(self, *words, given=""):
        """Runs a command of the program: its status, standard output and standard error."""
        made = subprocess.run([self.program, *words], input=given.encode(), stdout=subprocess.PIPE, stderr=subprocess.PIPE, timeout=SECONDS)
        return made.returncode, made.stdout.decode(), made.stderr.decode()

    def tell(self, *words, given=""):
        return self.run("tell", "--control", self.control, *words, given=given)

    def rules(self, *words, control=None):
        return self.run("rules", "--control", control or self.control, *words)

    def file(self, text, name="rules.txt"):
        path = f"{self.work}/{name}"
        with open(path, "w", encoding="utf-8", newline="") as file:
            file.write(text)
        return path

    def load(self, text, *words, control=None):
        return self.run("load", "--control", control or self.control, self.file(text), *words)

    def now(self, config):
        """The configuration is this one now, and a version more if it was another one."""
        self.version += config != self.config
        self.config = config

    def forget(self):
        """Removes all groups, and reads the version."""
        self.tell("anew 0")
        self.version, self.config = int(self.tell("show")[1].split()[1]), {}

    def stop(self):
        self.tell("stop")
        return self.process.wait(SECONDS)


class Relay:
    """An address before a switch. `reply_to(relay, request)` gives the reply to a request, or None for no reply."""

    def __init__(self, control, reply_to):
        address, port = control.split(":")
        self.client = socket.socket(socket.AF_INET, socket.SOCK_DGRAM)
        self.client.bind(("127.0.0.1", 0))
        self.switch = socket.socket(socket.AF_INET, socket.SOCK_DGRAM)
        self.switch.connect((address, int(port)))
        self.switch.settimeout(SECONDS)
        self.control = f"127.0.0.1:{self.client.getsockname()[1]}"
        self.reply_to, self.requests = reply_to, []
        self.thread = threading.Thread(target=self.serve, daemon=True)

    def ask(self, request):
        """Sends a request to the switch, and returns its reply."""
        self.switch.send(request)
        return self.switch.recv(65536)

    def serve(self):
        while True:
            request, client = self.client.recvfrom(65536)
            if not request:
                return
            self.requests.append(request)
            reply = self.reply_to(self, request)
            if reply is not None:
                self.client.sendto(reply, client)

    def __enter__(self):
        self.thread.start()
        return self

    def __exit__(self, *_):
        with socket.socket(socket.AF_INET, socket.SOCK_DGRAM) as last:
            last.sendto(b"", self.client.getsockname())
        self.thread.join(SECONDS)
        self.client.close()
        self.switch.close()
