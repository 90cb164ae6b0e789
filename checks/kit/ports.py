"""Free ports of the loopback, for one check each."""
import random
import socket

HELD = []  # what keeps other checks from the ports of this one


def free_port():
    """A free port of the loopback, below the ephemeral ports, which no other check gets while this one runs."""
    while True:
        port, held = random.SystemRandom().randrange(10000, 30000), socket.socket(socket.AF_UNIX)
        with socket.socket() as it:
            try:
                held.bind(f"\0olr-keep-port-{port}")
                it.bind(("127.0.0.1", port))
            except OSError:
                held.close()
                continue
        HELD.append(held)
        return port
