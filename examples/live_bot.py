#!/usr/bin/env python3
"""Plays one snake that sees its board: examples/live_bot.py [PROGRAM ..] > out/live.transcript"""
import json
import math
import random
import subprocess
import sys

STEPS = {"up": (0, 1), "down": (0, -1), "left": (-1, 0), "right": (1, 0)}
PIPE = subprocess.PIPE
PROGRAM = sys.argv[1:] or ["./arena"]
host = subprocess.Popen([*PROGRAM, "live"], stdin=PIPE, stdout=PIPE, text=True)
print('{"games":[{"game":"a","quota":1835007}],"version":3}', file=host.stdin)


def ask(**line):
    print(json.dumps({"game": "a", **line}), file=host.stdin, flush=True)
    print(reply := host.stdout.readline(), end="")
    return json.loads(reply)["board"]


def choose(board):
    body = [(part["x"], part["y"]) for part in board["snakes"][0]["body"]]
    goal = [(food["x"], food["y"]) for food in board["food"]] or body
    after = {it: (body[0][0] + x, body[0][1] + y) for it, (x, y) in STEPS.items()}
    free = [it for it, (x, y) in after.items() if (x, y) not in body and 0 <= x < 7 > y >= 0]
    return min(free or STEPS, key=lambda it: math.dist(after[it], goal[0]))


snakes, food = [{"id": "s", "x": 3, "y": 3}], [{"x": 5, "y": 6}]
board = ask(do="new", mode="solo", width=7, height=7, snakes=snakes, food=food)
while not board["over"]:
    board = ask(do="move", moves={"s": choose(board)}, words=[random.randrange(2**32)])
print(host.communicate()[0], end="")
