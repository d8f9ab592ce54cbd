#!/usr/bin/env python3
"""Times `pureefjord.loads` beside `json.loads` over the same logs: loads.py FOLDER [MEGABYTES [ROUNDS]]. FOLDER has the Python package.

The logs are in one array, and a record a line, which `json` reads line by line. It prints the least processor time of the rounds, of
`loads` also the part of the call alone, and compares what both give."""
import json
import random
import sys
import time

sys.dont_write_bytecode = True
sys.path.insert(0, sys.argv[1])
import pureefjord

WORDS = "request served cache miss retry upstream timeout connection closed by peer user not found ok slow query index rebuilt".split()
ITEM = 1 << 30


def record(chance, number):
    found = {
        "id": number,
        "time": f"2026-05-{chance.randint(1, 28):02}T{chance.randrange(24):02}:{chance.randrange(60):02}:{chance.randrange(60):02}Z",
        "level": chance.choice(["info", "warn", "error", "debug"]),
        "host": f"web-{chance.randrange(20)}",
        "path": chance.choice(["/api/items", "/api/users/42", "/health", "/static/app.js", "/login"]),
        "status": chance.choice([200, 200, 200, 304, 404, 500]),
        "size": chance.randrange(10**6),
        "message": " ".join(chance.choices(WORDS, k=chance.randint(3, 8))),
        "ok": chance.random() < 0.9,
    }
    if number % 4 == 0:
        found["tags"] = chance.choices(WORDS, k=chance.randrange(4))
    if number % 5 == 0:
        found["user"] = {"name": f"u{chance.randrange(1000)}", "admin": None}
    return found


def lines(octets):
    chance, found, number = random.Random(1), [], 0
    while octets > 0:
        found.append(json.dumps(record(chance, number)))
        octets -= len(found[-1]) + 1
        number += 1
    return found


def least(rounds, call):
    """The least processor time of some calls, in milliseconds, and what the last gave."""
    best, found = float("inf"), None
    for _ in range(rounds):
        found = None
        begin = time.process_time()
        found = call()
        best = min(best, time.process_time() - begin)
    return 1000 * best, found


def row(name, rounds, octets, by_json, by_loads):
    json_time, wanted = least(rounds, by_json)
    loads_time, found = least(rounds, by_loads)
    call_time, _ = least(rounds, lambda: pureefjord.events(octets, item=ITEM))
    print(f"{name}: json.loads {json_time:.0f} ms, loads {loads_time:.0f} ms, of which the call {call_time:.0f}: {loads_time / json_time:.2f} times")
    if found != wanted:
        sys.exit(f"{name}: not the same values")


def main():
    megabytes, rounds = [float(word) for word in sys.argv[2:3]] or [10], int((sys.argv[3:4] or [5])[0])
    records = lines(megabytes[0] * 10**6)
    array, text = "[" + ",".join(records) + "]", "\n".join(records)
    row("one array", rounds, array.encode(), lambda: json.loads(array), lambda: pureefjord.loads(array, item=ITEM))
    row("a record a line", rounds, text.encode(), lambda: list(map(json.loads, records)), lambda: pureefjord.loads(text, single_value=False))


main()
