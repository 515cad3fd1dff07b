"""TUN devices, whose reads and writes are whole IPv4 datagrams."""
import errno
import fcntl
import json
import os
import socket
import struct
import subprocess

TUNSETIFF, SIOCSIFFLAGS, SIOCSIFADDR, SIOCSIFNETMASK, SIOCSIFMTU, SIOCSIFTXQLEN = 0x400454CA, 0x8914, 0x8916, 0x891C, 0x8922, 0x8943
TUN_WITHOUT_HEADER, MULTI_QUEUE, LONG_SEGMENTS, NEW_ALONE = 0x0001 | 0x1000, 0x0100, 0x4000, 0x8000
# What a device with long segments takes: segments over IPv4 that aren't cut, without their checksums.
TUNSETOFFLOAD, NOT_CUT = 0x400454D0, 0x1 | 0x2
UP_AND_RUNNING = 0x1 | 0x40
# The kind that TUN devices are of.
SIOCGIFHWADDR, WITHOUT_LINK = 0x8927, 0xFFFE
# The bytes of a virtio_net_hdr, which stands before each datagram of such a device: zeros say nothing.
HEAD = 10
# So many datagrams wait for the program in each queue: more are lost, and a lost one costs a second.
QUEUE = 10000


def attached(name, flags):
    device = os.open("/dev/net/tun", os.O_RDWR | os.O_CLOEXEC)
    try:
        fcntl.ioctl(device, TUNSETIFF, struct.pack("16sH22x", name.encode(), flags))
    except OSError:
        os.close(device)
        raise
    return device


def open_device(name):
    """A TUN device."""
    return attached(name, TUN_WITHOUT_HEADER)


def open_queues(name, count, long_segments):
    """A TUN device with so many queues, a descriptor each. It must be a new one: else these would take a part of another server's flows.

    The kernel gives a flow to the queue that last sent for it, and a new one to a queue by its hash. With long segments each datagram
    stands behind a virtio_net_hdr.
    """
    flags = TUN_WITHOUT_HEADER | MULTI_QUEUE | (LONG_SEGMENTS if long_segments else 0)
    queues = [attached(name, flags | NEW_ALONE)]
    try:
        if long_segments:
            fcntl.ioctl(queues[0], TUNSETOFFLOAD, NOT_CUT)
        while len(queues) < count:
            queues.append(attached(name, flags))
    except OSError:
        for queue in queues:
            os.close(queue)
        raise
    return queues


def set_up(name, interface, mtu=1500):
    """Gives the device an address with its network, and switches it on."""
    def address(ip):
        return struct.pack("16sHH4s8x", name.encode(), socket.AF_INET, 0, ip.packed)

    with socket.socket(socket.AF_INET, socket.SOCK_DGRAM) as any_socket:
        fcntl.ioctl(any_socket, SIOCSIFADDR, address(interface.ip))
        fcntl.ioctl(any_socket, SIOCSIFNETMASK, address(interface.network.netmask))
        fcntl.ioctl(any_socket, SIOCSIFMTU, struct.pack("16si12x", name.encode(), mtu))
        fcntl.ioctl(any_socket, SIOCSIFTXQLEN, struct.pack("16si12x", name.encode(), QUEUE))
        fcntl.ioctl(any_socket, SIOCSIFFLAGS, struct.pack("16sH14x", name.encode(), UP_AND_RUNNING))


def way_to(address):
    """The interface by which this machine reaches an address, as `ip` of Debian's iproute2 tells; None where it isn't there."""
    try:
        told = subprocess.run(["ip", "-j", "route", "get", str(address)], capture_output=True, timeout=5).stdout
        return json.loads(told)[0].get("dev")
    except (OSError, ValueError, LookupError, subprocess.TimeoutExpired):
        return None


def kind_of(name):
    """The kind of a device by its number; None where there is none."""
    with socket.socket(socket.AF_INET, socket.SOCK_DGRAM) as any_socket:
        try:
            return struct.unpack_from("H", fcntl.ioctl(any_socket, SIOCGIFHWADDR, struct.pack("16s24x", name.encode())), 16)[0]
        except OSError:
            return None


def why_none(error, name):
    """What is in the way of a TUN device."""
    if error.errno in (errno.EBUSY, errno.EINVAL):
        if (kind := kind_of(name)) is None:
            return f"the kernel takes no device of the name {name}"
        another = "(--device names another one)"
        return f"there is a device {name} already, as another tools/sqlive has it {another}" if kind == WITHOUT_LINK else f"{name} is a device of another kind {another}"
    rights = "it takes root, or the rights that tools/live/sqlive.service names"
    return {errno.EPERM: rights, errno.EACCES: rights,
            errno.ENOENT: "there is no /dev/net/tun (modprobe tun)", errno.ENODEV: "there is no /dev/net/tun (modprobe tun)"}.get(error.errno, error.strerror)
