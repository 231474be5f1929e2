#!/usr/bin/env python3
"""timed.py LOG [COMMAND..]: runs COMMAND (`rt ci --anew`) and writes LOG for tools/landing.py.

LOG has each line that it prints, behind its second, and a line `check CRATE SECONDS` for each check of a crate that it starts (`compile CRATE SECONDS` where
what a check has proved is only compiled), as seen in /proc five times a second, so it needs Linux. It prints the last line, and ends as the command ended."""
import os
import subprocess
import sys
import threading
import time


def checks(parent):
    """The checks of crates that a process has started: of each its number and start, and what it is."""
    for pid in filter(str.isdigit, os.listdir('/proc')):
        try:
            words = open(f'/proc/{pid}/cmdline', errors='replace').read().split('\0')
            stat = open(f'/proc/{pid}/stat', errors='replace').read().rsplit(')', 1)[1].split()
        except OSError:
            continue
        if int(stat[1]) == parent and '--crate-name' in words:
            word = 'compile' if '--crate-checked' in words else 'check'
            yield (pid, stat[19]), f"{word} {words[words.index('--crate-name') + 1]}"


def main():
    if len(sys.argv) < 2 or sys.argv[1].startswith('-'):
        sys.exit(__doc__)
    out = open(sys.argv[1], 'w')
    began, lock, ended = time.monotonic(), threading.Lock(), threading.Event()

    def say(text):
        with lock:
            out.write(f'{time.monotonic() - began:8.1f} {text}\n')
            out.flush()

    def watch():
        seen, over = {}, False
        while not over:
            over = ended.wait(0.2)
            now, there = time.monotonic(), dict(checks(process.pid))
            for key, what in there.items():
                seen.setdefault(key, (what, now))
            for key in [key for key in seen if key not in there]:
                what, since = seen.pop(key)
                say(f'{what} {now - since:.1f}')

    process = subprocess.Popen(sys.argv[2:] or ['rt', 'ci', '--anew'], stdout=subprocess.PIPE, stderr=subprocess.STDOUT, text=True, errors='replace')
    watcher = threading.Thread(target=watch, daemon=True)
    watcher.start()
    line = ''
    for line in process.stdout:
        say('| ' + line.rstrip('\n'))
    status = process.wait()
    ended.set()
    watcher.join()
    say(f'ended {status}')
    print(line.rstrip('\n'))
    sys.exit(status if status >= 0 else 128 - status)


main()
