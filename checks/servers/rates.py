#!/usr/bin/env python3
"""Measures lp_gateway: whether its spool gets empty after an outage under load, before influxd; and what processor time a line takes, beside vmagent, before VictoriaMetrics.

    checks/servers/rates.py GATEWAY FOLDER [SECONDS]

GATEWAY: the program, built. FOLDER: an empty folder. SECONDS: how long clients write, by default 60. For a sixth of this time influxd is away. Eight clients write bodies of
5,000 lines, 115,741 lines in a second together. It prints each figure, with the load of the machine, and fails if the spool is not empty 30 seconds after the clients ended.
"""

import os
import signal
import subprocess
import sys
import threading
import time
from pathlib import Path

import client
from client import Fault, Program, call, free_ports, until

RATE, LINES, CLIENTS = 115741, 5000, 8


def body(number):
    """A body of lines as of vehicles."""
    start = 1700000000000000000 + number * 10**9
    return "".join(f"readings,fleet=South,name=truck_{n % 500},driver=Derek,model=F-150 latitude={n % 90}.5,longitude={n % 180}.25,velocity={n % 70}i,fuel=0.{n} "
                   f"{start + n}\n" for n in range(LINES)).encode()


def write(urls, bodies, seconds):
    """Has clients write bodies for so many seconds, and gives how many lines were answered by 204."""
    taken, began = [0] * CLIENTS, time.monotonic()

    def run(number):
        sent = 0
        while (due := began + (sent * CLIENTS + number) * LINES / RATE) < began + seconds:
            time.sleep(max(0, due - time.monotonic()))
            if call("POST", urls, bodies[(sent * CLIENTS + number) % len(bodies)])[0] == 204:
                taken[number] += LINES
            sent += 1

    threads = [threading.Thread(target=run, args=(number,)) for number in range(CLIENTS)]
    for thread in threads:
        thread.start()
    return threads, taken, began


def times_of(pid):
    """The seconds of processors that a process took."""
    words = Path(f"/proc/{pid}/stat").read_text().rsplit(")", 1)[1].split()
    return (int(words[11]) + int(words[12])) / os.sysconf("SC_CLK_TCK")


def gateway(program, folder, server, *options):
    (port,) = free_ports(1)
    return Program(port, [program, "serve", "--listen", f"http://127.0.0.1:{port}", "--server", server, "--spool", folder / "spool",
                          "--rejected", folder / "rejected.jsonl", *options], folder / "log")


def spooled(run):
    text = call("GET", run.url + "/metrics")[1]
    return sum(float(line.rsplit(" ", 1)[1]) for line in text.splitlines() if line.startswith("lp_gateway_spool_bytes"))


def outage(program, folder, bodies, seconds):
    """Influxd is away for a sixth of the time."""
    influx = client.Influx(folder)
    influx.results("CREATE DATABASE db")
    try:
        with gateway(program, folder, influx.url) as run:
            threads, taken, began = write(f"{run.url}/write?db=db&precision=ns", bodies, seconds)
            time.sleep(seconds / 3)
            influx.end(signal.SIGKILL)
            time.sleep(seconds / 6)
            influx.start()
            for thread in threads:
                thread.join()
            ended = time.monotonic()
            most = spooled(run)
            until("the spool is empty", lambda: spooled(run) == 0, 300)
            took = time.monotonic() - ended
            print(f"rates: {sum(taken)} lines in {ended - began:.1f} s; the spool has {most / 1e6:.0f} MB then, and is empty after {took:.1f} s; "
                  f"{times_of(run.process.pid) * 1e6 / max(1, sum(taken)):.2f} us of processor a line; memory {run.peak() >> 10} MiB", flush=True)
            return took
    finally:
        influx.end()


def beside(program, folder, bodies, seconds):
    """The same bodies by lp_gateway and by vmagent into VictoriaMetrics."""
    victoria = client.Victoria(folder)
    try:
        with gateway(program, folder, victoria.url) as run:
            threads, taken, _ = write(f"{run.url}/write?db=db&precision=ns", bodies, seconds)
            for thread in threads:
                thread.join()
            until("the spool is empty", lambda: spooled(run) == 0, 300)
            ours = times_of(run.process.pid) * 1e6 / sum(taken)
        (port,) = free_ports(1)
        agent = subprocess.Popen(["vmagent", f"-httpListenAddr=127.0.0.1:{port}", f"-remoteWrite.url={victoria.url}/api/v1/write",
                                  f"-remoteWrite.tmpDataPath={folder / 'agent'}"], stdout=subprocess.DEVNULL, stderr=subprocess.DEVNULL)
        try:
            until("vmagent listens", lambda: call("GET", f"http://127.0.0.1:{port}/metrics")[0])
            threads, taken, _ = write(f"http://127.0.0.1:{port}/write?db=db&precision=ns", bodies, seconds)
            for thread in threads:
                thread.join()
            time.sleep(3)
            theirs = times_of(agent.pid) * 1e6 / sum(taken)
        finally:
            agent.terminate()
            agent.wait()
        print(f"rates: into VictoriaMetrics {ours:.2f} us of processor a line by lp_gateway, {theirs:.2f} us by vmagent", flush=True)
    finally:
        victoria.end()


def main():
    program, folder, seconds = sys.argv[1], Path(sys.argv[2]), float(sys.argv[3]) if sys.argv[3:] else 60
    bodies = [body(number) for number in range(48)]
    print(f"rates: load {os.getloadavg()[0]:.1f}, {os.cpu_count()} processors, {len(bodies[0]) / LINES:.0f} bytes a line", flush=True)
    try:
        for name in ("outage", "beside"):
            (folder / name).mkdir()
        took = outage(program, folder / "outage", bodies, seconds)
        beside(program, folder / "beside", bodies, seconds / 3)
    except Fault as fault:
        print(f"rates: {fault}")
        return 1
    return int(took > 30)


if __name__ == "__main__":
    sys.exit(main())
