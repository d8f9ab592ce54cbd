#!/usr/bin/env python3
"""Times a built ion_cmd beside other people's JSON readers: peers.py PROGRAM [MEGABYTES [ROUNDS]].

It needs a C++ compiler and, of Debian's packages, rapidjson-dev, libsimdjson-dev and jq. All read the same JSON of MEGABYTES
(usually 50) each, without floats: logs (an object a line), one array of objects, nested values, long strings. `check` goes over
it, `write` writes each value compactly: `ion_cmd check` and `convert --to text`, peers.cpp over rapidjson and simdjson, and `jq -c .`,
which always writes. Of each it prints the least processor time of ROUNDS (usually 5), in megabytes a second and as ours over theirs;
all take turns, so that they meet the same machine.
"""
import json
import os
import random
import subprocess
import sys
import tempfile

HERE = os.path.dirname(os.path.abspath(__file__))
sys.path.insert(0, os.path.dirname(HERE))
from shapes import NAMES, node, words, write  # noqa: E402


def log(source, number):
    return json.dumps(
        {
            "id": number,
            "level": source.choice(NAMES),
            "at": f"2026-{1 + number % 12:02}-{1 + number % 28:02}T{number % 24:02}:{number % 60:02}:00Z",
            "message": words(source, 3, 12),
            "tags": [source.randrange(-500, 70000) for _ in range(source.randrange(6))],
            "retry": number % 2 == 0,
        }
    )


def nested(source, room):
    kind = source.randrange(6) if room else 5
    count = range(source.randrange(1, 6))
    if kind < 3:
        return {f"{source.choice(NAMES)}{place}": nested(source, room - 1) for place in count}
    if kind < 5:
        return [nested(source, room - 1) for _ in count]
    return source.choice([source.randrange(-(10**6), 10**9), words(source, 1, 6), "größe 数据", "a \"quoted\"\n", True, None])


DOCUMENTS = {
    "logs": ("", "\n", "\n", log),
    "one array": ("[", ",", "]\n", lambda source, number: json.dumps(node(source, number))),
    "nested": ("", "\n", "\n", lambda source, number: json.dumps([nested(source, 7)], ensure_ascii=False)),
    "long strings": ("", "\n", "\n", lambda source, number: json.dumps([words(source, 100, 400) for _ in range(10)])),
}


def seconds(command):
    """The processor time of one run."""
    child = subprocess.Popen(command, stdout=subprocess.DEVNULL)
    _, status, used = os.wait4(child.pid, 0)
    child.returncode = os.waitstatus_to_exitcode(status)
    if status != 0:
        sys.exit(f"{' '.join(command)} ended with {child.returncode}")
    return used.ru_utime + used.ru_stime


def commands(program, peers, path):
    limit = ["--item", str(1 << 30)]
    return {
        "check": {
            "ion_cmd": [program, "check", path, *limit],
            "rapidjson": [peers, "rapidjson", "check", path],
            "simdjson": [peers, "simdjson", "check", path],
        },
        "write": {
            "ion_cmd": [program, "convert", path, "--to", "text", *limit],
            "rapidjson": [peers, "rapidjson", "write", path],
            "simdjson": [peers, "simdjson", "write", path],
            "jq": ["jq", "-c", ".", path],
        },
    }


def main():
    program = os.path.abspath(sys.argv[1])
    megabytes = int(sys.argv[2]) if len(sys.argv) > 2 else 50
    rounds = int(sys.argv[3]) if len(sys.argv) > 3 else 5
    with tempfile.TemporaryDirectory() as folder:
        peers = f"{folder}/peers"
        flags = ["-O3", "-march=native", "-std=c++17", "-DRAPIDJSON_SSE42"]
        subprocess.run(["g++", *flags, f"{HERE}/peers.cpp", "-lsimdjson", "-o", peers], check=True)
        for label, shape in DOCUMENTS.items():
            path = f"{folder}/{label.replace(' ', '_')}.json"
            write(path, megabytes * 1000 * 1000, *shape)
            size = os.path.getsize(path) / 1e6
            for task, programs in commands(program, peers, path).items():
                times = {name: [] for name in programs}
                for _ in range(rounds):
                    for name, command in programs.items():
                        times[name].append(seconds(command))
                least = {name: min(taken) for name, taken in times.items()}
                told = [f"ion_cmd {size / least['ion_cmd']:.0f}"]
                told += [f"{name} {size / taken:.0f} ({least['ion_cmd'] / taken:.2f})" for name, taken in least.items() if name != "ion_cmd"]
                print(f"{label}, {task}: {', '.join(told)}", flush=True)
            os.remove(path)


if __name__ == "__main__":
    main()
