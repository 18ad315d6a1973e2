#!/usr/bin/env python3
"""Talks to the bench over pipes, as flight code can: writes A5h to chip 1 at 010h, polls it, reads the byte back.

    examples/client.py [PATH OF THE BENCH]      Exit status: 0 if A5h came back, else 1.
"""
import subprocess
import sys

with subprocess.Popen(sys.argv[1:] or ["./bench"], stdin=subprocess.PIPE, stdout=subprocess.PIPE, text=True) as bench:
    def ask(*events):  # sends events and returns the last reply; each line is flushed, and its answer read
        for event in events:
            print(event, file=bench.stdin, flush=True)
            answer = bench.stdout.readline().strip()
            if answer[:6] != event + "00":  # the event again, and a status that is not 00 where it was refused
                sys.exit(f"client: {event} is answered {answer or 'with nothing'}")
        return answer[6:]

    ask("0100", "03A2", "0300", "0310", "03A5", "0200")  # Start, chip 1 for writing, 010h, A5h, Stop
    while ask("0100", "03A2") != "01":  # acknowledged; 02 while the chip is busy
        ask("0701")  # its write cycle is over: the bench has no clock, and is told
    value = ask("0300", "0310", "0100", "03A3", "0401")  # 010h, Start, chip 1 for reading, one byte
print(value)
sys.exit(value != "A5")
