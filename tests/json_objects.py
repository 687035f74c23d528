"""For tests/explain: the objects of an answer as JSON."""
from __future__ import annotations

import json
from typing import Any

from driving import Failure, compare

Object = dict[str, Any]


def objects_of(output: bytes, command: str) -> list[Object]:
    """One on each line, with no blank between tokens; without the first, which is that command's head."""
    objects = []
    for line in output.decode().split("\n")[:-1]:
        try:
            objects.append(json.loads(line))
        except ValueError as fault:
            raise Failure(f"no JSON: {fault}") from None
        compare("a line", line, json.dumps(objects[-1], ensure_ascii=False, separators=(",", ":")))
    compare("the head", objects[:1], [{"version": 1, "command": command}])
    return objects[1:]
