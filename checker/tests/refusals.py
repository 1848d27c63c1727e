"""The lines of a command file that a transcript refuses."""
import json
from collections import Counter
from typing import Any

SPACE = b" \t\n\r"


def replies_by_stay(output: bytes) -> tuple[list[list[dict[str, Any]]], dict[int, str]]:
    """The replies of each stay, and the code of each stray line by its number."""
    stays: list[list[dict[str, Any]]] = [[]]
    strays: dict[int, str] = {}
    for reply in map(json.loads, output.splitlines()):
        if "line" in reply:
            strays[reply["line"]] = reply["no"]
        elif "final" in reply:
            stays.append([])
        else:
            stays[-1].append(reply)
    return stays, strays


def refused_lines(text: bytes, output: bytes) -> dict[int, str]:
    """The code of each line that a transcript refuses, of the codes of FORM and A4.

    The commands of a stay are counted in the file, and the replies by their `seq`.
    """
    stays, refused = replies_by_stay(output)
    plan = json.loads(text.split(b"\n")[0])
    has_stays = plan.get("version", 1) >= 3
    names = [row["game"] for row in plan["games"]]
    open_now = {name: at for at, name in enumerate(names)}
    answered: Counter[int] = Counter()
    for number, line in enumerate(text.split(b"\n")[1:], start=2):
        if number in refused or not line.strip(SPACE):
            continue
        members = json.loads(line)
        if has_stays and members.get("do") == "admit":
            open_now[members["game"]] = len(names)
            names.append(members["game"])
        elif has_stays and members.get("do") == "leave":
            del open_now[members["game"]]
        else:
            stay = open_now[members["game"]]
            reply = stays[stay][answered[stay]]
            answered[stay] += 1
            if (reply["game"], reply["seq"]) != (names[stay], answered[stay]):
                raise ValueError(f"line {number} has no reply in its place")
            if reply.get("no") == "G1":
                refused[number] = "G1"
    if [answered[stay] for stay in range(len(names))] != list(map(len, stays[:-1])):
        raise ValueError("a reply belongs to no line")
    return refused
