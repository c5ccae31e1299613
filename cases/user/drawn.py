"""Reads the data of pictures, and says what they have: drawn.py FILE.."""
import json
import re
import sys
from collections import Counter


def main():
    for name in sys.argv[1:]:
        with open(name, encoding="utf-8") as file:
            data = json.loads(re.search(r'id="data">(.*?)</script>', file.read(), re.S)[1])
        kinds = Counter(event["kind"] for event in data["events"])
        ends = {event["id"] for event in data["events"] if event["kind"] in ("deliver", "lose")}
        sent = {event["id"] for event in data["events"] if event["kind"] == "send"}
        leaders = [
            f"node {event['node']} in term {event['term']}"
            for event in data["events"]
            if event["kind"] == "role" and event["role"] == "leader"
        ]
        print(
            f"{name}: {len(data['script'])} lines, {kinds['crash']} crashes, {kinds['restart']} restarts, leaders "
            f"{', '.join(leaders)}; of the messages sent {'all' if ends <= sent else 'not all'} that came or were lost "
            f"were sent, {'some' if kinds['lose'] else 'none'} were lost"
        )
        for it in data["confirms"]:
            print(f"  line {it['line']} {it['text']}: {data['queues'][it['queue']]['rows'][it['row'] - 1]}")
        for event in data["events"]:
            if event["kind"] == "die":
                print(f"  line {event['line']}: {event['text']}")


main()
