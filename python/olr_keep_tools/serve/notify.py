"""What systemd passes to a service, and what is reported to it."""
import os
import socket
from typing import Dict, List

FIRST_SOCKET = 3
MOMENT = 1.0  # seconds for which a change of state waits until there is room for it
STATES = ("READY=1", "RELOADING=1", "STOPPING=1")


class Systemd:
    """The service manager, if it started this process."""

    def __init__(self, environment: "os._Environ[str]") -> None:
        self.address = environment.pop("NOTIFY_SOCKET", "")
        self.is_watched = environment.get("WATCHDOG_PID", str(os.getpid())) == str(os.getpid())
        self.watchdog = int(environment.pop("WATCHDOG_USEC", "0")) / 1e6 if self.is_watched else 0.0

    def tell(self, *words: str) -> None:
        """Sends assignments such as READY=1. Nothing happens if nobody listens, or if what was sent before isn't read: the service
        never waits for its manager."""
        if not self.address:
            return
        name = "\0" + self.address[1:] if self.address.startswith("@") else self.address
        try:
            with socket.socket(socket.AF_UNIX, socket.SOCK_DGRAM | socket.SOCK_CLOEXEC) as to:
                to.settimeout(MOMENT if set(words) & set(STATES) else 0.0)
                to.connect(name)
                to.sendall("\n".join(words).encode())
        except OSError:
            pass


def passed_sockets(environment: "os._Environ[str]") -> Dict[str, socket.socket]:
    """The sockets that systemd opened, by their names."""
    if environment.get("LISTEN_PID") != str(os.getpid()):
        return {}
    names: List[str] = environment.get("LISTEN_FDNAMES", "").split(":")
    found = {}
    for k in range(int(environment.get("LISTEN_FDS", "0"))):
        os.set_inheritable(FIRST_SOCKET + k, False)
        found[names[k] if k < len(names) and names[k] else f"socket{k}"] = socket.socket(fileno=FIRST_SOCKET + k)
    for name in ("LISTEN_PID", "LISTEN_FDS", "LISTEN_FDNAMES"):
        environment.pop(name, None)
    return found
