"""Tests of conversations whose clients are made by code: ones that close, read late, or send very much."""

import fcntl
import os
import select
import signal
import socket
import subprocess
import time

from program import PROGRAM, SECONDS, Client, Wrong, expect, records_of, totals_of

# A round that nobody asks for is made after so many writes, or after as many as versions were left by the last one, if these are more.
FEW = 1024
# No conversation here needs more memory, in KB.
MOST_MEMORY = 16_384


def expect_end(client, status=0, said=b""):
    expect("the exit status and what is said", (status, said), client.end())


def expect_memory(client):
    found = client.memory()
    if found > MOST_MEMORY:
        raise Wrong(f"the resident memory in KB\n    wanted: at most {MOST_MEMORY}\n    found:  {found}")


def begins_and_commits(count):
    """Returns so many records, and their answers."""
    answers = (b"1,%d,begun,0\n1,%d,ended\n" % (place, place + 1) for place in range(1, count, 2))
    return b"1,begin\n1,commit\n" * (count // 2), b"".join(answers)


def a_client_closes_its_end():
    """The write of the next answer fails."""
    client = Client()
    client.send(b"1,begin\n")
    expect("the first answer", b"1,1,begun,0\n", client.answer())
    client.process.stdout.close()
    os.write(client.to, b"1,commit\n")
    expect_end(client, 5, b"write fault\nstandard output: Broken pipe (os error 32)\n")


def the_input_fails_in_the_midst():
    """A client on a socket closes it when an answer has come that it has not read, so the next read fails."""
    ours, theirs = socket.socketpair()
    with ours, theirs:
        process = subprocess.Popen([PROGRAM, "live"], stdin=theirs, stdout=theirs, stderr=subprocess.PIPE)
        theirs.close()
        ours.sendall(b"1,begin\n")
        select.select([ours], [], [], SECONDS)
    _, said = process.communicate(timeout=SECONDS)
    wanted = b"read fault\nstandard input: Connection reset by peer (os error 104)\n"
    expect("the exit status and what is said", (4, wanted), (process.returncode, said))


def a_client_reads_late():
    """It sends until both pipes are full and the program waits. Then it reads, and nothing is lost."""
    text, answers = begins_and_commits(200_000)
    client = Client()
    sent = 0
    while select.select([], [client.to], [], 0.5)[1]:
        sent += os.write(client.to, text[sent : sent + 4096])
    if sent == len(text):
        raise Wrong("the program has read everything, though nobody reads what it writes")
    client.send(text[sent:])
    expect("the answers", answers, client.read(len(answers)))
    expect_end(client)


def wait_until(what, is_so):
    end = time.monotonic() + SECONDS
    while not is_so():
        if time.monotonic() > end:
            raise Wrong(f"{what}: not after {SECONDS} s")
        time.sleep(0.001)


def is_in_state(process, state):
    """Whether a process is in a state: `S` if it sleeps, `T` if it is stopped."""
    with open(f"/proc/{process.pid}/stat") as stat:
        return stat.read().rsplit(")", 1)[1].split()[0] == state


def a_write_is_cut_short():
    """A write to a full pipe that is stopped and continued ends early. What follows has to be the rest of the answers."""
    text, answers = begins_and_commits(4000)
    client = Client()
    size = fcntl.fcntl(client.of, fcntl.F_SETPIPE_SZ, 4096)
    client.send(text)
    for _ in range(3):
        wait_until("the pipe is full", lambda: client.unread(client.of) == size and is_in_state(client.process, "S"))
        client.process.send_signal(signal.SIGSTOP)
        wait_until("the program is stopped", lambda: is_in_state(client.process, "T"))
        client.process.send_signal(signal.SIGCONT)
        client.take()
    expect("the answers", answers, client.read(len(answers)))
    expect_end(client)


def records_have_no_limit():
    """More records than a script may have, which take no more memory than a few."""
    text, answers = begins_and_commits(1_100_000)
    client = Client()
    client.send(text)
    expect("the answers", answers, client.read(len(answers)))
    expect_memory(client)
    expect_end(client)


def a_long_record_is_not_kept():
    """A record of 64 MiB is answered when it ends."""
    client = Client()
    client.send(b"version,2\ntable,t,t\n1,put,t,5,")
    for _ in range(64):
        client.send(b"long" * 2**18)
    expect_memory(client)
    client.send(b"\n1,get,t,5\n")
    answers = b"declared,1\ndeclared,2\nbad,3,Long\n1,4,at,0,none\n"
    expect("the answers", answers, client.read(len(answers)))
    expect_end(client)


def most_left(words, keys):
    """Puts some keys a hundred thousand times while a reader stays. Returns the most versions that were left at any time."""
    client = Client(words)
    client.send(b"table,t,1\n" + b"".join(b"1,put,t,%d,0\n" % key for key in range(keys)) + b"2,begin\n")
    left = []
    puts = [b"1,put,t,%d,%d\n" % (number % keys, number) for number in range(1, 100_001)]
    for first in range(0, len(puts), 1000):
        client.send(b"".join(puts[first : first + 1000]) + b"totals\n")
    for _ in range(1 + keys + 1 + len(puts) + len(puts) // 1000):
        answer = client.answer()
        if answer.startswith(b"total"):
            left.append(totals_of(records_of(answer))["left"])
    client.send(b"2,get,t,0\n")
    expect("what the reader reads", b"row,0\n", client.answer()[-6:])
    expect_end(client)
    return max(left)


def old_versions_are_few(keys):
    """Of each key the newest version is needed and the reader's. What is left is never more than twice as much as is needed, or as is
    written between two rounds."""
    found, most = most_left("live", keys), 2 * max(2 * keys, FEW)
    if found > most:
        raise Wrong(f"the versions that are left\n    wanted: at most {most}\n    found:  {found}")


def old_versions_stay_without_rounds():
    """With `--rounds 0` nobody removes what nobody asks to be removed."""
    expect("the versions that are left", 100_001, most_left("live --rounds 0", 1))


def memory_after(kind, has_rounds):
    """Puts a hundred keys two thousand times each, with a round of one collector after each 10,000 puts, or a get in its place. A reader
    stays at the first snapshot: of all tables for the interval collector, which takes what lies between it and the newest, and of another
    table for the table collector, which moves it there. Returns the resident memory."""
    reader = {"group": "2,begin\n2,commit\n", "table": "2,begin,u\n2,get,u,1\n", "interval": "2,begin\n2,get,t,1\n"}[kind]
    last = f"3,gc,{kind}\n" if has_rounds else "3,get,t,1\n"
    some = "".join(f"1,put,t,{key},{count}\n" for count in range(100) for key in range(100)) + last
    client = Client("live --long 1 --rounds 0")
    client.send(("table,t,1\ntable,u,1\n" + reader + some * 20 + "totals\n").encode())
    while not client.got.endswith(b"\ntotal,left,%d\n" % (100 if has_rounds else 200_000)):
        client.take_more()
    found = client.memory()
    expect_end(client)
    return found


def what_a_round_removes_leaves_memory(kind):
    """Without rounds the program needs at least 10 MB more."""
    few, many = (memory_after(kind, has_rounds) for has_rounds in (True, False))
    if many - few < 10_240:
        raise Wrong(f"the resident memory in KB, with rounds and without\n    wanted: at least 10240 apart\n    found:  {few} and {many}")


TESTS = (
    (a_client_closes_its_end,),
    (the_input_fails_in_the_midst,),
    (a_client_reads_late,),
    (a_write_is_cut_short,),
    (records_have_no_limit,),
    (a_long_record_is_not_kept,),
    (old_versions_are_few, 1, 5000),
    (old_versions_stay_without_rounds,),
    (what_a_round_removes_leaves_memory, "group", "table", "interval"),
)
