"""A run of `routed-tools listen` with a place of figures, and those who read it."""
import os
import socket
import time

from program.serving import PATIENCE
from tools.fronts import Front

from routed.front import status
from routed.net.endpoints import Endpoint

MASKS = "0x0,0x0,0x0"
FREE = ",".join(["1000"] * 8)
PAIR = f"put,1.1.1.1,10.0.12.1,2.2.2.2,10.0.12.2,10,0x1,{FREE}\nput,2.2.2.2,10.0.12.2,1.1.1.1,10.0.12.1,10,0x1,{FREE}\n"
ASKS = {  # a row of each outcome
    "route": f"ask,1,1.1.1.1,2.2.2.2,0,5,{MASKS},\n", "none": f"ask,2,1.1.1.1,2.2.2.2,0,1001,{MASKS},\n",
    "unknown-from": f"ask,3,3.3.3.3,2.2.2.2,0,5,{MASKS},\n", "unknown-to": f"ask,4,1.1.1.1,3.3.3.3,0,5,{MASKS},\n"}


def seen(program, room, *words, **how):
    """A run of routed-tools listen with both places, below a folder."""
    return Front(program, room, "--watch", os.path.join(room, "watch"), "--metrics", os.path.join(room, "metrics"), *words, **how)


def figures_of(room, name="metrics"):
    """The numbers by name and label's value."""
    return status.read(Endpoint(os.path.join(room, name)))


def eventually(checks, name, test, wanted):
    """What is true once the last connection's end has been seen."""
    end = time.monotonic() + PATIENCE
    while (found := test()) != wanted and time.monotonic() < end:
        time.sleep(0.01)
    checks.same(name, found, wanted)


def got(room, path="/metrics", method="GET"):
    """The head and the body of an answer."""
    return exchanged(room, f"{method} {path} HTTP/1.1\r\nHost: routed\r\n\r\n".encode())


def exchanged(room, data):
    return answered(sent(room, data))


def sent(room, data):
    """A connection to the place of figures on which this is sent. It is refused where too many wait to be accepted."""
    made = socket.socket(socket.AF_UNIX)
    made.settimeout(PATIENCE)
    made.connect(os.path.join(room, "metrics"))
    made.sendall(data)
    return made


def answered(made):
    with made:
        said = b""
        while more := made.recv(1 << 16):
            said += more
    head, _, body = said.partition(b"\r\n\r\n")
    return head.decode(), body.decode()
