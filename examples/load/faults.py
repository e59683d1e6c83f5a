"""What goes wrong with `rules` and `load`: files, switches, other operators, and locked members."""
import subprocess

import configurations
from switch import Relay

RULES = """# DNS behind two servers
add 10.0.0.2:53
join 10.0.0.2:53 1 192.0.2.11:9001
join 10.0.0.2:53 2 192.0.2.12:9001

# Nothing of this network goes to the second one.
filter 10.0.0.2:53 2 expr not src net 10.9.0.0/16"""
CONTROLS = ["--diff", "--check", "--timeout=1"]
# How often `rules` and `load` begin.
TIMES = 17


def is_change(request):
    return request.startswith(b"at ")


def look_at_files(checks, switch):
    """Files that are refused, that are not there, and those that `--check` accepts."""
    text = RULES + " udp"
    expected = (1, "refused P1 24 line 7\n", f"{switch.work}/rules.txt:7:51: P1: The text is no filter expression.\n"
                f"filter 10.0.0.2:53 2 expr not src net 10.9.0.0/16 udp\n{' ' * 50}^\n")
    for word in CONTROLS:
        checks.equal(f"a refused file, {word}", switch.load(text, word), expected)
    path = switch.file("add 10.0.0.2:53")
    checks.equal("no address", switch.run("load", path), (1, "refused C1\n", ""))
    checks.equal("no address for --diff", switch.run("load", path, "--diff"), (1, "refused C1\n", ""))
    checks.equal("an address that is none", switch.run("load", path, "--control", "localhost:1"), (1, "refused C1\n", ""))
    checks.equal("rules of no address", switch.run("rules", "--control", "x"), (1, "refused C1\n", ""))
    checks.equal("a file that is checked", switch.run("load", path, "--check"), (0, "groups 1 members 0 charge 6\n", ""))
    checks.equal("one for --check and --diff", switch.run("load", path, "--check", "--diff", "--control", "x"), (0, "groups 1 members 0 charge 6\n", ""))
    for word in CONTROLS:
        checks.equal(f"no file, {word}", switch.run("load", "--control", switch.control, f"{switch.work}/none", word), (3, "", "failed E1\n"))
    program = "; ".join(["ld len"] * 4095 + ["ret a"])
    large = "add 10.0.0.2:53\n" + "".join(f"join 10.0.0.2:53 {it} 127.0.0.1:9001\nfilter 10.0.0.2:53 {it} asm {program}\n" for it in (1, 2))
    refused = switch.load(large)
    checks.equal("a charge that is too large", refused[:2], (1, "refused B1\n"))
    checks.equal("a line that is no change", switch.load("show\n")[:2], (1, "refused C1 line 1\n"))
    checks.equal("an empty file", switch.load(""), (0, "version 0 unchanged\n", ""))
    checks.equal("rules without groups", switch.rules(), (0, "# version 0 groups 0 members 0 charge 2\n", ""))
    many = [f"add 10.0.{it}.2:53" for it in range(27)] + [f"join 10.0.{it % 27}.2:53 {it} 127.100.100.100:19001" for it in range(27 * 60)]
    checks.equal("a file that fits no datagram", switch.load("\n".join(many)),
                 (1, "refused C2\n", f"{switch.work}/rules.txt: C2: The line, the block or the file is too long.\n"))
    checks.equal("the same file, checked", switch.load("\n".join(many), "--check"), (0, f"groups 27 members 1620 charge {2 + 4 * (27 + 1620)}\n", ""))
    checks.equal("nothing was changed", switch.rules()[1], "# version 0 groups 0 members 0 charge 2\n")


def look_at_switches(checks, switch):
    """A switch that does not reply, or only to some requests, other operators, and changes that are refused."""
    key, path = configurations.KEYS[0], switch.file("add 10.0.0.2:53\njoin 10.0.0.2:53 1 127.0.0.1:9001\n")

    def through(reply_to, *words):
        """What a command says through a relay, and the changes that it sent."""
        with Relay(switch.control, reply_to) as relay:
            return switch.run(*words, "--control", relay.control), [it for it in relay.requests if is_change(it)]

    def version():
        return int(switch.tell("show")[1].split()[1])

    silent = (3, "", "failed E4\n")
    checks.equal("rules of no switch", through(lambda relay, request: None, "rules", "--timeout", "1")[0], silent)
    checks.equal("load to no switch", through(lambda relay, request: None, "load", path)[0], silent)

    def to_first(relay, request):
        return relay.ask(request) if len(relay.requests) < 2 else None

    switch.tell(f"add {key}", f"join {key} 7 127.0.0.1:7")
    checks.equal("a switch that falls silent", through(to_first, "load", path), (silent, []))
    there = version()

    def lost_before(relay, request):
        return None if is_change(request) else relay.ask(request)

    checks.equal("a change that is lost", through(lost_before, "load", path)[0], silent)
    checks.equal("then nothing was changed", version(), there)

    def lost_after(relay, request):
        reply = relay.ask(request)
        return None if is_change(request) else reply

    checks.equal("a reply that is lost", through(lost_after, "load", path)[0], silent)
    checks.equal("then load again", switch.run("load", path, "--control", switch.control), (0, f"version {there + 1} unchanged\n", ""))

    def crossed(times):
        left = [times]

        def reply_to(relay, request):
            if is_change(request) and left[0]:
                left[0] -= 1
                relay.ask(f"selector {key} asm ret #{left[0]}".encode())
            return relay.ask(request)
        return reply_to

    switch.tell("anew 0")
    switch.tell(f"add {key}")
    there = version()
    ended, changes = through(crossed(2), "load", path)
    checks.equal("another operator, twice", ended, (0, f"version {there + 3}\n", ""))
    checks.equal("the versions of the changes", [it.split(b"\n")[0] for it in changes], [b"at %d anew 2" % (there + it) for it in range(3)])
    checks.equal("the rules are the file's", switch.rules()[1].split("\n", 1)[1], "add 10.0.0.2:53\njoin 10.0.0.2:53 1 127.0.0.1:9001\n")
    switch.tell("anew 0")
    switch.tell(f"add {key}")
    ended, changes = through(crossed(100), "load", path)
    checks.equal("another operator, each time", (ended, len(changes)), ((3, "", "failed E5\n"), TIMES))

    def moving(relay, request):
        if request.startswith(b"group "):
            relay.ask(f"selector {key} asm ret #1".encode())
        return relay.ask(request)

    for words in (["rules"], ["load", path], ["load", path, "--diff"]):
        checks.equal(f"rules that change while they are read: {words[0]}", through(moving, *words), ((3, "", "failed E5\n"), []))

    def refused(reply, times):
        def reply_to(relay, request):
            if is_change(request) and sum(map(is_change, relay.requests)) <= times:
                return reply
            return relay.ask(request)
        return reply_to

    there = version()
    ended, changes = through(refused(b"refused B2", 3), "load", path)
    checks.equal("rows that are held for a while", (ended, len(changes)), ((0, f"version {there + 1}\n", ""), 4))
    switch.tell("anew 0")
    ended, changes = through(refused(b"refused B2", 100), "load", path)
    checks.equal("rows that are held", (ended, len(changes)), ((3, "", "failed E5\n"), TIMES))
    for reply, meaning in ((b"refused B1", "B1: The new configuration is too large to be published."),
                           (b"refused B3", "B3: The switch has used up its version numbers."),
                           (b"failed E3", "E3: Memory ran out."),
                           (b"refused G8 line 2", "G8: Memory for the new configuration was refused."),
                           (b"refused by an older switch", None)):
        ended, changes = through(refused(reply, 100), "load", path)
        told = f"{path}: {meaning}\n" if meaning else ""
        checks.equal(f"a change that is refused: {reply}", (ended, len(changes)), ((1, f"{reply.decode()}\n", told), 1))


def look_at_locks(checks, switch):
    """A locked member with another filter leaves, and joins anew."""
    key = configurations.KEYS[0]
    one = {key: configurations.Group(None, (configurations.Member(1, "127.0.0.1:9001", "ret #0", True),))}
    other = {key: configurations.Group(None, (configurations.Member(1, "127.0.0.1:9001", "ret #65535", False),))}
    files = ["\n".join(configurations.rules_lines(it)) for it in (one, other)]
    switch.load(files[0])
    checks.equal("a locked member", switch.load(files[1], "--diff")[:2],
                 (0, f"leave {key} 1\njoin {key} 1 127.0.0.1:9001\nfilter {key} 1 asm ret #65535\n"))
    checks.equal("how its load ends", switch.load(files[1])[0], 0)
    checks.equal("its rules", switch.rules()[1].split("\n", 1)[1], files[1] + "\n")
    checks.equal("one more lock", switch.load(files[1] + f"\nlock {key} 1\n", "--diff")[:2], (0, f"lock {key} 1\n"))


def look_at_two(checks, switch):
    """Two loads at the same time: both are done, one after the other."""
    texts = [f"add 10.0.0.{it}:53\njoin 10.0.0.{it}:53 {it} 127.0.0.1:9001\n" for it in (1, 2)]
    paths = [switch.file(text, f"operator-{it}.txt") for it, text in enumerate(texts)]
    ended = set()
    for _ in range(10):
        made = [subprocess.Popen([switch.program, "load", "--control", switch.control, it], stdout=subprocess.PIPE, stderr=subprocess.STDOUT) for it in paths]
        ended |= {(it.communicate()[0].split()[0], it.returncode) for it in made}
        checks.true("the rules of one of two loads", switch.rules()[1].split("\n", 1)[1] in texts)
    checks.equal("how two loads end", ended, {(b"version", 0)})
