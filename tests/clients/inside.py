"""Runs programs for a test from within a trap or a container: a line of JSON with their words and input, and a line with status, output and errors."""
import json
import subprocess
import sys

for line in sys.stdin:
    words, piped = json.loads(line)
    ran = subprocess.run(words, input=piped, capture_output=True, text=True)
    print(json.dumps([ran.returncode, ran.stdout, ran.stderr]), flush=True)
