"""What systemd is told by a service of Type=notify: the protocol of sd_notify, a datagram a message."""
import contextlib, os, socket


class Supervisor:
    """Says nothing where no supervisor asked for it."""

    def __init__(self):
        address = os.environ.get("NOTIFY_SOCKET", "")
        self.address = "\0" + address[1:] if address.startswith("@") else address
        self.socket = socket.socket(socket.AF_UNIX, socket.SOCK_DGRAM) if self.address else None

    def say(self, *states: str):
        """READY=1: it works. WATCHDOG=1: it still does. STOPPING=1: it ends. STATUS=: a line for people."""
        if self.socket:
            with contextlib.suppress(OSError):  # a supervisor that hears nothing holds up no round
                self.socket.sendto("\n".join(states).encode(), socket.MSG_DONTWAIT, self.address)
