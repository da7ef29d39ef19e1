#!/usr/bin/env python3
"""Holds a desk by two pipes: a dispatcher that asks `pfair desk` slot by slot who runs, and plans as requests come in.

  examples/hold-desk.py PFAIR    runs this build of pfair

Each line that it writes is answered before it writes the next. A request is taken where the desk can promise it; where it
can't, the dispatcher is told why, and the plan is as before."""
import json
import subprocess
import sys

REQUESTS = {0: ["join,0,camera,2,3", "join,0,radio,1,2"], 2: ["strict,join,2,report,2,3"], 4: ["leave,4,radio", "strict,join,4,report,2,3"]}

with subprocess.Popen([sys.argv[1], "desk", "--json"], stdin=subprocess.PIPE, stdout=subprocess.PIPE, text=True) as desk:

    def ask(line):
        print(line, file=desk.stdin, flush=True)
        return json.loads(desk.stdout.readline())

    for line in ("settings,2,6", "name,1,camera", "name,2,radio", "name,3,report"):
        ask(line)
    for slot in range(8):
        for request in REQUESTS.get(slot, []):
            answer = ask(request)
            print(f"{request}: {'taken' if 'event' in answer else answer['refused']['why']}")
        runs = [f"p{place} {'idle' if who is None else who[0]}" for place, who in enumerate(ask("step")["rows"][0])]
        print(f"slot {slot}: " + ", ".join(runs))
    print(ask("fit")["text"].split("\n")[0])
    desk.stdin.close()
