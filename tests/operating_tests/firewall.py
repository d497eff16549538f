"""The documented table of nftables: who reaches the server's ports on its own machine."""

import fcntl
import os
import pwd
import re
import socket
import struct
import subprocess
import sys

from operating_tests.document import commands_of

TABLE = re.compile(r"(?ms)<<'END'\n(.*?)^END$")
PORTS = (8080, 8081)
SIOCSIFFLAGS, IFF_UP = 0x8914, 1
# Users who are let through, and others. The server's own has the number of another one here.
LET, OTHERS = ("root", "www-data", "daemon"), ("nobody", "games")


def table() -> str:
    """The table of the document, with another user in place of the server's own."""
    text = "".join(commands_of("Who else can write"))
    (found,) = TABLE.findall(text)
    return str(found).replace("streetmap }", "daemon }")


def connects(user: str, port: int) -> bool:
    """Whether a process of a user connects to a port of this machine."""
    child = os.fork()
    if child == 0:
        try:
            os.setuid(pwd.getpwnam(user).pw_uid)
            socket.create_connection(("127.0.0.1", port), 5)
            os._exit(0)
        except OSError:
            os._exit(1)
    return os.waitpid(child, 0)[1] == 0


def main() -> int:
    """Runs in a network of its own. Prints who connects, a line for each port and user."""
    with socket.socket() as any_socket:
        fcntl.ioctl(any_socket, SIOCSIFFLAGS, struct.pack("16sh", b"lo", IFF_UP))
    subprocess.run(["nft", "-f", "-"], input=table().encode(), check=True)
    listeners = [socket.create_server(("127.0.0.1", port)) for port in (*PORTS, 8443)]
    for listener in listeners:
        port = listener.getsockname()[1]
        print(port, *(user for user in (*LET, *OTHERS) if connects(user, port)))
    return 0


if __name__ == "__main__":
    sys.exit(main())
