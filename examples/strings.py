"""Takes the strings that `olr-keep-forward --file strings.json` writes from a web server, and prints what changed since the last run.

    python3 strings.py https://roads.example/strings.json copy.json

The copy is replaced once all of it is printed, so after a crash some is printed twice, and nothing is lost.
"""
import json
import os
import sys
import urllib.request
from typing import Any, Dict, Iterator

Strings = Dict[str, Any]


def read(text: bytes) -> Strings:
    """All strings and reasons by name, with the identity and the position."""
    found: Strings = json.loads(text)
    return found


def changes(old: Strings, new: Strings) -> Iterator[str]:
    """A line for each path whose string or reason is another one, or is gone."""
    for kind in ("strings", "reasons"):
        for name in sorted({**old.get(kind, {}), **new[kind]}):
            if old.get(kind, {}).get(name) != new[kind].get(name):
                yield f"{kind[:-1]},{name},{new[kind].get(name, '-')}"


url, copy = sys.argv[1:]
found, before = urllib.request.urlopen(url, timeout=20).read(), {}
if os.path.exists(copy):
    with open(copy, "rb") as file:
        before = read(file.read())
if (before.get("identity"), before.get("position")) != (read(found)["identity"], read(found)["position"]):
    print(*changes(before, read(found)), sep="\n", flush=True)
with open(f"{copy}.part", "wb") as file:
    file.write(found)
os.replace(f"{copy}.part", copy)
