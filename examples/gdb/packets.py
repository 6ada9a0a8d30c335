#!/usr/bin/env python3
"""Sends random and changed packets to rrs gdb, and looks at each answer.

usage: packets.py RRS PROGRAM COUNT READER INPUT

Each packet has to end in one answer, and the session has to go on behind it. Before and behind each
packet the registers and some bytes of memory are asked for: where the answer is an error they must be
the same. The packets are those of a list, of which most are changed in a byte or more; some are
random bytes. A packet with a wrong sum is answered by `-`.

READER is an executable that reads the file INPUT, and writes. It goes on to its end, back by a number
of steps, and on again to its end, for each number up to BACK: it ends alike each time, and what it
writes is sent once.

The status is 0 where all is so, else 1. The last line says how many answers were errors, behind how
many packets something was other than before, and how often the reader went back.
"""

import random
import re
import subprocess
import sys

PACKETS = """? g p0 p20 p21 pffffffff P1=01020304 P20=00000000 P0=00000001 m0,4 m10,20 mffffffff,2 m0,ffffffff
M100,4:01020304 M100,4:0102 Mffffffff,2:0102 X100,2:ab c s bs bc C05 C00 S05 vCont? vCont;c vCont;s:1
vCont;C05:1;c Z0,10,4 z0,10,4 Z1,14,4 Z2,100,4 z2,100,4 Z3,100,4 Z4,100,1 z4,100,1 Z5,0,0 Hg0 Hc-1 T1 !
qSupported:swbreak+ qXfer:features:read:target.xml:0,100 qXfer:features:read:target.xml:fff,ffffffff
qXfer:exec-file:read::0,20 qAttached qC qfThreadInfo qsThreadInfo qRcmd,7374657073 qRcmd,6c696d6974203530
qRcmd,686973746f7279203130 qRcmd,zz QCatchSyscalls:0 QCatchSyscalls:1 QCatchSyscalls:1;40;5d qTStatus
vMustReplyEmpty""".split()
ALL = "G" + "01000000" * 33
ENDING = (b"k", b"D", b"R", b"vKill", b"vRun", b"QStartNoAckMode")
SHOWN = (b"g", b"m0,140")
BACK = 400


def framed(payload, wrong=0):
    """The packet of a payload, whose sum is wrong by so much."""
    body = payload.replace(b"}", b"}]").replace(b"#", b"}\x03").replace(b"$", b"}\x04")
    return b"$%s#%02x" % (body, (sum(body) + wrong) % 256)


def changed(choice):
    """A payload of the list, or one that is changed, or random bytes."""
    if choice.random() < 0.1:
        return bytes(choice.randrange(256) for _ in range(choice.randrange(40)))
    payload = bytearray(choice.choice(PACKETS + [ALL]).encode())
    for _ in range(choice.choice((0, 1, 1, 2, 3))):
        kind, at = choice.randrange(4), choice.randrange(len(payload) + 1)
        if kind == 0:
            payload[at:at] = bytes([choice.choice(b"0123456789abcdef,:;=")])
        elif kind == 1:
            payload[at:at + 1] = bytes([choice.randrange(256)])
        elif kind == 2:
            del payload[at:]
        else:
            payload[at:at + 1] = b""
    return bytes(payload)


def answers(output):
    """The answers: `-`, or the payload of a packet. Acknowledgements and output are left out."""
    at = 0
    while at < len(output):
        if output[at:at + 1] == b"$":
            end = output.find(b"#", at)
            if end < 0 or len(output) < end + 3:
                return
            body = output[at + 1:end]
            if int(output[end + 1:end + 3], 16) != sum(body) % 256:
                yield b"a wrong sum"
            at = end + 3
            if not body.startswith(b"O") or body == b"OK":
                yield body
        else:
            if output[at:at + 1] == b"-":
                yield b"-"
            at += 1


def ends_alike(rrs, reader, file):
    """Whether a program that went back from its end comes to that end again, and nothing is sent twice."""
    sent = [b"c", b"c"]
    for steps in range(1, BACK + 1):
        sent += [b"bs"] * steps + [b"c", b"c"]
    command = [rrs, "gdb", "--input", file, reader]
    once, again = (subprocess.run(command, input=b"".join(map(framed, packets)), capture_output=True,
                                  check=False, timeout=600) for packets in (sent[:2], sent))
    first, seen = (list(answers(run.stdout)) for run in (once, again))
    ends = {seen[index] for index, payload in enumerate(sent) if sent[index - 1:index + 1] == [b"c", b"c"]}
    texts = [b"".join(re.findall(rb"\$O([0-9a-f]+)#", run.stdout)) for run in (once, again)]
    if again.returncode or len(first) != 2 or ends != {first[1]} or texts[0] != texts[1] or not texts[0]:
        print(f"back from the end: {first} once, then {sorted(ends)}; {len(texts[0]) // 2} bytes, "
              f"then {len(texts[1]) // 2}")
        return False
    return True


def main():
    """Sends the packets, and compares."""
    rrs, program, count, reader, file = sys.argv[1], sys.argv[2], int(sys.argv[3]), *sys.argv[4:]
    choice = random.Random(46)
    shown = [framed(question) for question in SHOWN]
    sent, wants = [], []
    for _ in range(count):
        payload = changed(choice)
        while payload.startswith(ENDING) or payload[:1] in (b"k", b"D", b"R"):
            payload = changed(choice)
        wrong = choice.randrange(1, 256) if choice.random() < 0.02 else 0
        sent += [*shown, framed(payload, wrong)]
        wants.append((payload, wrong))
    sent += shown
    limit = framed(b"qRcmd," + b"limit 200".hex().encode())
    run = subprocess.run([rrs, "gdb", "--raw", program], input=limit + b"".join(sent),
                         capture_output=True, check=False, timeout=600)
    seen = list(answers(run.stdout))[1:]
    if run.returncode or len(seen) != len(sent):
        print(f"status {run.returncode}, {len(seen)} answers to {len(sent)} packets: {run.stderr[:200]}")
        return 1
    errors = changes = 0
    for index, (payload, wrong) in enumerate(wants):
        before, after = seen[3 * index:3 * index + 2], seen[3 * index + 3:3 * index + 5]
        answer = seen[3 * index + 2]
        is_kept = answer[:1] == b"E" or answer == b"-"
        errors += answer[:1] == b"E"
        changes += before != after
        if (answer == b"-") != (wrong != 0) or is_kept and before != after:
            print(f"{payload}: {answer}, {before} {after}")
            return 1
    if not ends_alike(rrs, reader, file):
        return 1
    print(f"{count} random packets: {errors} errors, each with the machine as it was, {changes} changes; "
          f"{BACK} times back from an end")
    return 0


if __name__ == "__main__":
    sys.exit(main())
