"""Packets of `dswitch pack`, as tcpdump, the kernel and `dswitch packets --unwrap` see them."""
import ctypes
import fcntl
import os
import random
import socket
import struct
import subprocess

SECONDS = 60
CLONE_NEWNET = 0x40000000
TUNSETIFF = 0x400454CA
TUN_WITHOUT_INFORMATION = 0x0001 | 0x1000
LITTLE, MICROSECONDS, RAW, ETHERNET = "<", 0xA1B2C3D4, 101, 1

SOURCE, KEY = "10.0.0.1:5000", "10.0.0.2:53"
SIZES = (0, 1, 2, 3, 4, 7, 20, 255, 256, 1471, 1472, 1473, 9000, 65506, 65507)


def payloads():
    """Of each size random bytes, zeros and ones; and two bytes for which the sum is 0xffff, so that the checksum would be 0."""
    source = random.Random(5)
    for size in SIZES:
        yield bytes(source.randrange(256) for _ in range(size))
        yield bytes(size)
        yield b"\xff" * size
    yield bytes.fromhex("d81a")


def pack(dswitch, payload, source=SOURCE, key=KEY):
    words = [dswitch, "pack", "--from", source, "--to", key, "--payload", payload.hex()]
    done = subprocess.run(words, capture_output=True, text=True, timeout=SECONDS)
    return bytes.fromhex(done.stdout) if done.returncode == 0 else b""


def check_tcpdump(checks, packets, capture, work):
    """tcpdump looks at both checksums, and says which is bad."""
    path = f"{work}/packed.pcap"
    with open(path, "wb") as opened:
        opened.write(capture(LITTLE, MICROSECONDS, RAW, [(packet, len(packet)) for _, packet in packets]))
    told = subprocess.run(["tcpdump", "-tnvvr", path], capture_output=True, text=True, timeout=SECONDS).stdout
    shown = told.split("\nIP ")
    good = len(shown) == len(packets) and "bad" not in told and told.count("[udp sum ok]") == len(packets)
    for text, (payload, packet) in zip(shown, packets):
        length = f"proto UDP (17), length {28 + len(payload)})"
        good = good and length in text
        good = good and "id 0," in text and "flags [DF]" in text and "ttl 64" in text and "10.0.0.1.5000 > 10.0.0.2.53" in text
    checks.check("packed packets in tcpdump", good, told[:2000])


def open_tun():
    """A TUN device with the source's network, in a network namespace of this process."""
    if ctypes.CDLL(None, use_errno=True).unshare(CLONE_NEWNET) != 0:
        raise OSError(ctypes.get_errno(), "unshare")
    device = os.open("/dev/net/tun", os.O_RDWR)
    fcntl.ioctl(device, TUNSETIFF, struct.pack("16sH22x", b"packed0", TUN_WITHOUT_INFORMATION))
    for words in ("addr add 10.0.0.2/24 dev packed0", "link set packed0 mtu 65535 up"):
        subprocess.run(["ip", *words.split()], check=True, capture_output=True, timeout=SECONDS)
    return device


def receive(packets):
    """Writes packets to a TUN device, and returns what a socket receives of each, None for what does not come."""
    device = open_tun()
    found = []
    with socket.socket(socket.AF_INET, socket.SOCK_DGRAM) as heard:
        heard.setsockopt(socket.SOL_SOCKET, socket.SO_RCVBUF, 1 << 22)
        heard.bind(("10.0.0.2", 53))
        for packet in packets:
            os.write(device, packet)
            heard.settimeout(5 if packet is not packets[-1] else 0.5)
            try:
                data, sender = heard.recvfrom(1 << 16)
                found.append((sender, data))
            except TimeoutError:
                found.append(None)
    return found


def in_child(call):
    """What a call returns, or the error that it raises, in a process of its own."""
    reader, writer = os.pipe()
    child = os.fork()
    if child == 0:
        os.close(reader)
        try:
            told = repr(call())
        except Exception as error:
            told = repr(f"{error}")
        with os.fdopen(writer, "w") as opened:
            opened.write(told)
        os._exit(0)
    os.close(writer)
    with os.fdopen(reader) as opened:
        told = opened.read()
    os.waitpid(child, 0)
    return eval(told)


def check_kernel(checks, packets):
    """The kernel drops a packet with a bad checksum: the last one, in which a byte of the payload is changed."""
    changed = bytearray(packets[-1][1])
    changed[-1] ^= 1
    found = in_child(lambda: receive([packet for _, packet in packets] + [bytes(changed)]))
    if isinstance(found, str):
        print(f"packed packets through the kernel: left out, for want of a TUN device in a network namespace ({found})")
        return
    want = [(("10.0.0.1", 5000), payload) for payload, _ in packets] + [None]
    checks.check("packed packets through the kernel", found == want, f"{[len(it[1]) if it else None for it in found]}")


def unwrapped(checks, port, file):
    done = subprocess.run([checks.dswitch, "packets", "--unwrap", str(port)], input=file, capture_output=True, timeout=SECONDS)
    return done.returncode, done.stdout.decode(), done.stderr.decode()


def check_files(checks, packets, capture):
    """Datagrams that carry packets, in a file of each of two link types; beside them datagrams to another port."""
    lines = "".join(f"packet {packet.hex()}\n" for _, packet in packets)
    outer = [pack(checks.dswitch, packet, "192.0.2.1:40000", "192.0.2.2:4500") for _, packet in packets]
    others = [pack(checks.dswitch, packet, "192.0.2.1:4500", "192.0.2.2:40000") for _, packet in packets[:3]]
    frame = lambda packet: bytes.fromhex("0200000000020200000000010800") + packet + bytes(4)
    for link, record in ((RAW, lambda packet: packet), (ETHERNET, frame)):
        records = [(record(packet), len(record(packet))) for packet in others + outer + others]
        file = capture(LITTLE, MICROSECONDS, link, records)
        found = unwrapped(checks, 4500, file)
        checks.check(f"unwrapped, link type {link}", found == (0, lines, f"packets {len(outer)} cut 0 other 6\n"), f"{found[0]} {found[2]!r}")
        # What is unwrapped is packets of UDP again, to another port: unwrapped once more these are their payloads.
        again = capture(LITTLE, MICROSECONDS, RAW, [(packet, len(packet)) for _, packet in packets])
        found = unwrapped(checks, 53, again)
        want = "".join(f"packet {payload.hex()}\n" for payload, _ in packets)
        checks.check("unwrapped payloads", found == (0, want, f"packets {len(packets)} cut 0 other 0\n"), f"{found[0]} {found[2]!r}")


def check_capture(checks, packets, tcpdump_writes, work):
    """What tcpdump captures of datagrams that carry packets, on the loopback device."""
    def send(port):
        with socket.socket(socket.AF_INET, socket.SOCK_DGRAM) as heard, socket.socket(socket.AF_INET, socket.SOCK_DGRAM) as sender:
            heard.bind(("127.0.0.1", port))
            for _, packet in packets:
                sender.sendto(packet, ("127.0.0.1", port))

    port, path = 20000 + os.getpid() % 20000 + 100, f"{work}/unwrapped.pcap"
    if not tcpdump_writes(path, ["-i", "lo"], port, send):
        print("datagrams that carry packets: left out, for want of a capture")
        return
    with open(path, "rb") as opened:
        status, out, errs = unwrapped(checks, port, opened.read())
    want = "".join(f"packet {packet.hex()}\n" for _, packet in packets)
    checks.check("unwrapped of a capture", (status, out) == (0, want), f"status {status}, {errs!r}, {len(out.splitlines())} of {len(packets)} lines")


def check(checks, capture, tcpdump_writes, work):
    packets = [(payload, pack(checks.dswitch, payload)) for payload in payloads()]
    checks.check("packed packets are whole", all(packet[28:] == payload for payload, packet in packets), "")
    checks.check("a checksum of 0", packets[-1][1][26:28] == b"\xff\xff", packets[-1][1].hex())
    check_tcpdump(checks, packets, capture, work)
    check_kernel(checks, packets)
    # A datagram has room for at most 65,507 bytes, so for packets of payloads up to 65,479.
    carried = [(payload, packet) for payload, packet in packets if len(packet) <= 65507]
    check_files(checks, carried, capture)
    check_capture(checks, [it for it in carried if len(it[1]) < 9000], tcpdump_writes, work)
