"""Kills a member at random moments, and compares the timestamps of all its requests.

Usage: restarts.py PROGRAM PORT FOLDER RUNS SEED, as restarts.sh calls it. The settings in FOLDER/member.conf name a
partner on 127.0.0.1:PORT, which is this program: it takes requests and answers none.
"""

import random
import socket
import subprocess
import sys
import time


def mark_of(image):
    """The greatest mark of the open slots of a keeper's image."""
    marks = [0]
    for at in (0, 64, 128):
        if image[at : at + 1] == b"\xa5":
            marks.append(int.from_bytes(image[at + 4 : at + 8], "big"))
    return max(marks)


def stamps_of(partner):
    """The transmit timestamps of the requests that came, each as its count and its word."""
    stamps = []
    while True:
        try:
            request = partner.recv(1024)
        except BlockingIOError:
            return stamps
        stamps.append((int.from_bytes(request[40:44], "big"), int.from_bytes(request[44:48], "big")))


def run_and_kill(words, seconds):
    """Begins a run, kills it after so many seconds, and says whether it was still alive."""
    member = subprocess.Popen(words, stdout=subprocess.DEVNULL, stderr=subprocess.DEVNULL)
    time.sleep(seconds)
    alive = member.poll() is None
    member.kill()
    member.wait()
    return alive


def seconds_to_first(words, partner, stamps):
    """Begins a run, kills it at its first request, and gives the seconds that it took to come to that."""
    begun = time.monotonic()
    member = subprocess.Popen(words, stdout=subprocess.DEVNULL, stderr=subprocess.DEVNULL)
    while not stamps and time.monotonic() < begun + 20:
        stamps += stamps_of(partner)
        time.sleep(0.0005)
    member.kill()
    member.wait()
    if not stamps:
        sys.exit("restarts.py: no request in 20 seconds")
    return time.monotonic() - begun


def read(path):
    """What the file holds, if it is there."""
    try:
        with open(path, "rb") as file:
            return file.read()
    except FileNotFoundError:
        return b""


def main():
    program, port, folder, runs, seed = sys.argv[1:]
    random.seed(int(seed))
    partner = socket.socket(socket.AF_INET, socket.SOCK_DGRAM)
    partner.bind(("127.0.0.1", int(port)))
    partner.setblocking(False)
    keeper = folder + "/keeper"
    words = [program, "/member:1000000", "/config:" + folder + "/member.conf", "/keeper:" + keeper]
    stamps = []
    begins = seconds_to_first(words, partner, stamps)
    greatest, sent, silent = max(count for count, _ in stamps), len(stamps), 0
    for number in range(1, int(runs) + 1):
        # One in ten lives for some requests; the others are killed at some moment up to a while behind their first one.
        seconds = random.uniform(0.5, 2.5) if number % 10 == 0 else random.uniform(0, 2 * begins)
        if not run_and_kill(words, seconds):
            sys.exit("restarts.py: run %d ended by itself" % number)
        time.sleep(0.002)
        stamps = stamps_of(partner)
        for count, word in stamps:
            if count <= greatest:
                sys.exit("restarts.py: run %d sent count %d, word %d behind %d" % (number, count, word, greatest))
            greatest = count
        mark = mark_of(read(keeper))
        if mark < greatest:
            sys.exit("restarts.py: run %d left the mark %d behind the count %d" % (number, mark, greatest))
        sent += len(stamps)
        silent += not stamps
    print("restarts.py: %s runs killed, %d of them before a request; %d requests, no count twice" % (runs, silent, sent))
    print("restarts.py: the last count is %d, and the keeper stands for %d" % (greatest, mark_of(read(keeper))))


main()
