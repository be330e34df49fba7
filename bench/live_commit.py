#!/usr/bin/env python3
"""Times qemu's live commit of a qcow2 file into its VHDX backing file, with writes over NBD meanwhile.

    live_commit.py UNDER.vhdx OVER.qcow2 WRITES     prints the seconds from the job's start to the end of job and writes
"""
import json
import socket
import subprocess
import sys
import time

UNDER, OVER, WRITES = sys.argv[1:4]
DAEMON = ["qemu-storage-daemon",
          "--blockdev", f"driver=vhdx,node-name=base,file.driver=file,file.filename={UNDER}",
          "--blockdev", f"driver=qcow2,node-name=top,backing=base,file.driver=file,file.filename={OVER}",
          "--nbd-server", "addr.type=unix,addr.path=nbd.sock",
          "--export", "type=nbd,id=disk,node-name=top,name=top,writable=on",
          "--chardev", "socket,id=qmp,path=qmp.sock,server=on,wait=off", "--monitor", "chardev=qmp"]


class Monitor:
    def __init__(self):
        end = time.time() + 10
        while True:
            try:
                self.socket = socket.socket(socket.AF_UNIX)
                self.socket.connect("qmp.sock")
                break
            except OSError:
                if time.time() > end:
                    raise
                time.sleep(0.05)
        self.lines = self.socket.makefile("r")
        self.lines.readline()
        self.ask("qmp_capabilities")

    def ask(self, command, **arguments):
        self.socket.sendall((json.dumps({"execute": command, "arguments": arguments}) + "\n").encode())

    def wait_for(self, event):
        while True:
            line = json.loads(self.lines.readline())
            if "error" in line:
                sys.exit(str(line["error"]))
            if line.get("event") == event:
                return line["data"]


daemon = subprocess.Popen(DAEMON)
monitor = Monitor()
begun = time.time()
monitor.ask("block-commit", **{"job-id": "commit", "device": "top"})
with open(WRITES) as writes:
    guest = subprocess.Popen(["qemu-io", "-f", "raw", "-t", "writeback", "nbd+unix:///top?socket=nbd.sock"], stdin=writes, stdout=subprocess.DEVNULL)
    monitor.wait_for("BLOCK_JOB_READY")
    guest.wait()
monitor.ask("block-job-complete", device="commit")
monitor.wait_for("BLOCK_JOB_COMPLETED")
print(f"{time.time() - begun:.2f} s")
daemon.terminate()
daemon.wait()
