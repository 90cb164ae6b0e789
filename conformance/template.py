#!/usr/bin/env python3
"""A template of an adapter: put your own decoder in the place of `decoded`.

    conformance/run -- conformance/template.py

As it is, it refuses every text, and so it passes the groups `other` and `malformed` alone.
"""
import json
import sys
from typing import Any, Dict


def decoded(text: str) -> Dict[str, Any]:
    """The line location of a text. Raises ValueError if the text is none.

    An object as in schema.json, for instance of two points, of which the last has neither lfrcnp nor dnp:

        {"points": [{"longitude": 6.1, "latitude": 49.6, "frc": 2, "fow": 3, "bearing": 106.9, "lfrcnp": 4, "dnp": 439.5},
                    {"longitude": 6.2, "latitude": 49.5, "frc": 4, "fow": 3, "bearing": 286.9}],
         "positive_offset": 9.4, "negative_offset": 344.2}

    Coordinates and bearings are degrees, distances and offsets metres: any value that the format rounds alike. A decoder that has
    the numbers of the intervals gives these: "bearing": {"interval": 9}. An offset that the text doesn't have is left out.
    """
    raise ValueError("there is no decoder here yet")


for line in sys.stdin:
    try:
        answer = decoded(line.rstrip("\n"))
    except ValueError as why:
        answer = {"error": str(why)}
    print(json.dumps(answer), flush=True)
