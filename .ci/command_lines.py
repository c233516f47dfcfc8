#!/usr/bin/env python3
"""command_lines.py PROGRAM: runs each row of command_lines.txt, and checks the status and both streams. A row with the word ENGINE runs with
every engine."""
import os
import subprocess
import sys
from concurrent.futures import ThreadPoolExecutor
from pathlib import Path

ENGINES = ["naive", "nosimd", "avx2", "ssse3"]


def rows():
    """Yields the words, the status and the text of each row."""
    for line in Path(__file__).with_suffix(".txt").read_text().splitlines():
        if line and not line.startswith("#"):
            words, status, text = line.split("\t")
            yield words, int(status), text.replace("\\n", "\n")


def difference(program, engine, row):
    """Runs a row with an engine, and returns how the result differs from the expected one, or None."""
    line, status, text = row
    words = [engine if word == "ENGINE" else word for word in line.split(" ")]
    done = subprocess.run([program, *words], capture_output=True, text=True)
    expected = (status, text, "") if status == 0 else (status, "", text)
    got = (done.returncode, done.stdout, done.stderr)
    return None if got == expected else f"{' '.join(words)}: {got}, and not {expected}"


def main():
    runs = [(engine, row) for row in rows() for engine in (ENGINES if "ENGINE" in row[0].split(" ") else ENGINES[:1])]
    with ThreadPoolExecutor(os.cpu_count()) as threads:
        wrong = [text for text in threads.map(lambda run: difference(sys.argv[1], *run), runs) if text]
    if wrong or not runs:
        sys.exit("program: not as it has to be:\n" + "\n".join(wrong))
    print(f"program: {len(runs)} command lines end with the expected status and text")


main()
