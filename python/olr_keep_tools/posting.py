"""Sinks of events: a file with all strings, and a receiver over HTTP."""
import http.client
import ipaddress
import json
import os
import ssl
import stat
import time
from typing import Dict, NamedTuple, Optional
from urllib.parse import urlsplit

from .command import STREAM, USAGE, Failure, say
from .files import FileFailure, replacing
from .following import Changed, Event, Whole

REFUSED = 5
LATER = (408, 425, 429)  # statuses of the receiver after which a request is sent again, as after all from 500 on
PAUSE = 0.2  # seconds before a request is sent again, at first


class AllStrings:
    """A file with all strings, which is replaced as a whole: at once if no event follows, and at the latest after so many seconds."""

    def __init__(self, file: str, every: float):
        self.file, self.every, self.changed = file, every, 0.0
        self.identity, self.position, self.after = "", 0, ""
        self.answers: Dict[str, str] = {}
        self.is_between = True  # whether all changes of the last position were taken
        if os.path.exists(file):
            self.read()

    def read(self) -> None:
        """Reads what an earlier run has written."""
        try:
            with open(self.file, encoding="utf-8") as text:
                found = json.load(text)
            self.identity, self.position = str(found["identity"]), int(found["position"])
            self.answers = {str(name): f"text,{it}" for name, it in found["strings"].items()}
            self.answers.update({str(name): str(it) for name, it in found["reasons"].items()})
        except OSError as error:
            raise FileFailure(f"{self.file}: {error.strerror}") from None
        except (ValueError, KeyError, TypeError, AttributeError):
            raise FileFailure(f"{self.file} was not written by this tool: it stays as it is") from None

    def take(self, event: Event) -> None:
        """Takes an event."""
        if isinstance(event, Whole):
            self.answers = dict(event.answers)
        elif event.answer == "dropped":
            self.answers.pop(event.name, None)
        else:
            self.answers[event.name] = event.answer
        self.is_between = not event.after
        if self.is_between:
            self.identity, self.position = event.identity, event.position
        self.changed = self.changed or time.monotonic()
        if time.monotonic() - self.changed >= self.every:
            self.rest()

    def rest(self) -> None:
        """Writes the file, if something has changed, and it has all of its position."""
        if self.changed and self.is_between:
            found = Whole(self.identity, self.position, self.answers).as_json()
            with replacing(self.file) as file:
                json.dump({key: value for key, value in found.items() if key != "event"}, file, indent=1)
                file.write("\n")
            self.changed = 0.0


class Receiver(NamedTuple):
    """Where events are posted, and how long an answer may take. `ca` has the certificates that are trusted, and `token` is a file."""

    url: str
    timeout: float
    ca: Optional[str] = None
    token: Optional[str] = None

    def check(self) -> None:
        """Fails for a URL that can't be used, and for a token that others could read."""
        parts = urlsplit(self.url)
        try:
            is_right = parts.scheme in ("http", "https") and parts.hostname and not parts.username and parts.port != 0
        except ValueError:
            is_right = False
        if not is_right or not self.url.isascii() or not self.url.isprintable() or " " in self.url:
            raise Failure(USAGE, f"{self.url}: not a URL as https://HOST/PATH")
        if self.token and parts.scheme != "https" and not is_loopback(str(parts.hostname)):
            raise Failure(USAGE, f"{self.url}: a token is sent over https alone, or to this machine")
        self.secret()

    def secret(self) -> Optional[str]:
        """The token."""
        if not self.token:
            return None
        try:
            with open(self.token, encoding="ascii") as file:
                found = os.fstat(file.fileno())
                text = file.read(4096).strip()
        except OSError as error:
            raise FileFailure(f"{self.token}: {error.strerror}") from None
        except UnicodeDecodeError:
            raise FileFailure(f"{self.token}: it is not ASCII") from None
        if not stat.S_ISREG(found.st_mode) or stat.S_IMODE(found.st_mode) & 0o077:
            raise FileFailure(f"{self.token}: others may read it: chmod 600 {self.token}")
        if not text or not text.isprintable() or " " in text:
            raise FileFailure(f"{self.token}: it is not one word")
        return text

    def connect(self) -> http.client.HTTPConnection:
        """A connection."""
        parts = urlsplit(self.url)
        host = str(parts.hostname)
        if parts.scheme == "http":
            return http.client.HTTPConnection(host, parts.port, timeout=self.timeout)
        try:
            trusted = ssl.create_default_context(cafile=self.ca)
        except OSError as error:
            raise FileFailure(f"{self.ca}: {error.strerror or 'no certificates'}") from None
        return http.client.HTTPSConnection(host, parts.port, timeout=self.timeout, context=trusted)

    @property
    def target(self) -> str:
        """The path of the URL with its query."""
        parts = urlsplit(self.url)
        return (parts.path or "/") + (f"?{parts.query}" if parts.query else "")


def is_loopback(host: str) -> bool:
    """Whether a host is this machine."""
    try:
        return host == "localhost" or ipaddress.ip_address(host).is_loopback
    except ValueError:
        return False


class Answered(NamedTuple):
    """What a receiver answered: the status, or 0 if there was no answer, and a text for a message."""

    status: int
    text: str

    @property
    def is_taken(self) -> bool:
        """Whether the event was taken."""
        return 200 <= self.status < 300

    @property
    def is_for_later(self) -> bool:
        """Whether the event has to be sent again."""
        return not self.status or self.status >= 500 or self.status in LATER


class Poster:
    """Posts each event, in order, until the receiver has taken it, and then stores its position."""

    def __init__(self, receiver: Receiver, state: str, most_pause: float, refused: Optional[str] = None):
        receiver.check()
        self.receiver, self.state, self.most_pause, self.refused = receiver, state, most_pause, refused
        self.connection: Optional[http.client.HTTPConnection] = None
        self.identity, self.position, self.after = "", 0, ""
        if os.path.exists(state):
            self.read()

    def read(self) -> None:
        """Reads the position of an earlier run."""
        try:
            with open(self.state, encoding="ascii") as file:
                self.identity, position, *names = file.read(200).split()
            self.position, self.after = int(position), " ".join(names)
        except OSError as error:
            raise FileFailure(f"{self.state}: {error.strerror}") from None
        except ValueError:
            raise FileFailure(f"{self.state} was not written by this tool: it stays as it is") from None

    def take(self, event: Event) -> None:
        """Posts an event until it is taken."""
        pause, said = PAUSE, ""
        while not (found := self.post(event)).is_taken:
            if not found.is_for_later:
                self.refuse(event, found)
                break
            if found.text != said:
                said = found.text
                say(f"position {event.position}: {said}; sends it again")
            time.sleep(pause)
            pause = min(2 * pause, self.most_pause)
        self.identity, self.position, self.after = event.identity, event.position, event.after
        self.store()

    def post(self, event: Event) -> Answered:
        """Posts an event once."""
        headers = {"Content-Type": "application/json", "Idempotency-Key": event.key}
        if secret := self.receiver.secret():
            headers["Authorization"] = f"Bearer {secret}"
        body = json.dumps(event.as_json()).encode()
        try:
            self.connection = self.connection or self.receiver.connect()
            self.connection.request("POST", self.receiver.target, body, headers)
            answer = self.connection.getresponse()
            if len(answer.read(1 << 16)) == 1 << 16:
                self.close()
            return Answered(answer.status, f"{answer.status} {''.join(it for it in answer.reason if it.isprintable())[:100]}")
        except ssl.SSLCertVerificationError as error:
            self.close()
            raise Failure(STREAM, f"{self.receiver.url}: {error.verify_message}") from None
        except (OSError, http.client.HTTPException) as error:
            self.close()
            return Answered(0, getattr(error, "strerror", None) or str(error) or type(error).__name__)

    def close(self) -> None:
        """Closes the connection; the next request makes another one."""
        if self.connection:
            self.connection.close()
            self.connection = None

    def refuse(self, event: Event, found: Answered) -> None:
        """Writes an event that the receiver refuses to a file, or ends."""
        what = f"position {event.position}" + (f", {event.name}" if isinstance(event, Changed) else ", all strings")
        hint = ": redirects are not followed" if 300 <= found.status < 400 else ""
        if not self.refused:
            raise Failure(REFUSED, f"{what}: the receiver answers {found.text}{hint}")
        say(f"{what}: the receiver answers {found.text}{hint}: it is in {self.refused}")
        with open(self.refused, "a", encoding="utf-8") as file:
            file.write(json.dumps({"status": found.status, **event.as_json()}) + "\n")
            file.flush()
            os.fsync(file.fileno())

    def store(self) -> None:
        """Stores the position. If the machine loses power, an earlier one may be found, and events are sent again."""
        beside = f"{self.state}.part"
        with open(beside, "w", encoding="ascii") as file:
            file.write(f"{self.identity} {self.position} {self.after}".rstrip() + "\n")
        os.replace(beside, self.state)

    def rest(self) -> None:
        """Nothing is held back."""
