#!/usr/bin/env python3
"""Runs a command, its output into a file, and prints the processor time of its first thread in microseconds: main_time.py OUT WORD..

`run` opens the board, reads files, writes the report and does the searches of a group without loads in its first thread; where a group has
loads and searches, the loads are done in others.
"""
import os
import sys

out = (os.POSIX_SPAWN_OPEN, 1, sys.argv[1], os.O_WRONLY | os.O_CREAT | os.O_TRUNC, 0o644)
process = os.posix_spawnp(sys.argv[2], sys.argv[2:], os.environ, file_actions=[out])
os.waitid(os.P_PID, process, os.WEXITED | os.WNOWAIT)
with open(f"/proc/{process}/task/{process}/schedstat", encoding="ascii") as told:
    print(int(told.read().split()[0]) // 1000)
os.waitpid(process, 0)
