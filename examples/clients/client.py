"""Prints what `fast-check build` answers of each module: python3 client.py FAST-CHECK REQUEST.json"""
import json
import subprocess
import sys

program, request = sys.argv[1:]
done = subprocess.run([program, "build", request], stdin=subprocess.DEVNULL, capture_output=True, text=True)
if done.returncode > 1:  # the request is refused, or memory ran out
    sys.exit(done.stderr.strip())
for specifier, answer in json.loads(done.stdout):
    for each in answer.get("Err", []):
        print(f"{specifier}: {each['code']}: {each['message']}")
    if "Ok" in answer:
        print(f"{specifier}: {len(answer['Ok']['program']['body'])} items")
