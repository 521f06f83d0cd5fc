"""A network whose links are refused to a request for every reason, and its page in a window of Chromium."""
import contextlib
import os
import subprocess
import tempfile

from checks import TOOLS
from program.serving import PATIENCE
from tools.browser import each
from tools.paged import paged

# Names like markup, in two scripts, and of 1,000 characters.
NAMES = {1: "Amsterdam", 2: "<b onclick=alert(1)>Berlin</b>", 3: "Cairo القاهرة", 4: "D" * 1000, 5: "<img src=x onerror=alert(1)>",
         6: "Firenze"}
PLACES = "".join(f"192.0.2.{at} {200 * ((at - 1) % 3)} {150 * ((at - 1) // 3)} {name}\n" for at, name in NAMES.items())
# Circuits by their routers: the group, what is unreserved, and for each direction the reason why REQUEST may not use it.
CIRCUITS = {
    (1, 2): ("0x1", 1000, "", ""), (2, 3): ("0x1", 1000, "", ""), (1, 4): ("0x9", 1000, "exclude-any", "exclude-any"),
    (4, 5): ("0x4", 1000, "include-any", "include-any"), (2, 5): ("0x2", 1000, "include-all", "include-all"),
    (5, 6): ("0x1", 100, "bandwidth", "bandwidth"), (6, 3): ("0x1", 1000, "one-way", None), (6, 1): ("0x1", 1000, "marked", "")}
REQUEST = {"exclude": "0x8", "include": "0x3", "all": "0x1", "bandwidth": "4k"}  # 500 bytes per second
MARKED = 6


def key_of(one, other):
    return f"192.0.2.{one} 10.0.{min(one, other)}{max(one, other)}.{one}"


def put(one, other, metric=10):
    group, free, *_ = CIRCUITS.get((one, other)) or CIRCUITS[other, one]
    ends = f"{key_of(one, other)},{key_of(other, one)}".replace(" ", ",")
    return f"put,{ends},{metric},{group},{','.join([str(free)] * 8)}\n"


def drop(one, other):
    return "".join(f"drop,{key_of(*ends).replace(' ', ',')}\n" for ends in ((one, other), (other, one)))


REASONS = {key_of(*(ends if way == 0 else ends[::-1])): reason for ends, (_, _, *both) in CIRCUITS.items()
           for way, reason in enumerate(both) if reason is not None}
NETWORK = "".join(put(*ends) + (put(*ends[::-1]) if back is not None else "") for ends, (_, _, _, back) in CIRCUITS.items())
NETWORK += f"node,192.0.2.{MARKED},0\n"


@contextlib.contextmanager
def opened(window, path, rows=NETWORK, *words, places=PLACES):
    """The page of a network, shown in the window."""
    with tempfile.TemporaryDirectory() as room:
        file = os.path.join(room, "places")
        with open(file, "w", encoding="utf-8") as text:
            text.write(places)
        with paged(path, rows, *(["--places", file] if places else []), *words) as at:
            window.told()
            window.go(at.url)
            if rows:
                window.until("document.querySelector('#frame .names text') || document.querySelector('#frame canvas')")
            yield at
            window.go("about:blank")


def ask(window, head, tail, **fields):
    """Fills the form and sends it, and waits for the answer."""
    window.run("const form = document.getElementById('form'); form.reset(); document.getElementById('more').open = true; "
               "for (const [name, value] of Object.entries(arguments[0])) form.elements[name].value = value; form.requestSubmit()",
               {"head": NAMES[head], "tail": NAMES[tail], **fields})
    return window.until("/ on version /.test(document.getElementById('said').textContent) && document.getElementById('line').textContent")


def keys_of(window, layer):
    return window.value(each(f"#frame .{layer} > *", "it.dataset.key"))


def place_of(window, key):
    """A point of the window that is on a link, some pixels from its router."""
    return window.run("const it = document.querySelector(`#frame .links [data-key='${arguments[0]}']`), place = it.getPointAtLength(30), "
                      "box = it.ownerSVGElement.getBoundingClientRect(); return [box.x + place.x, box.y + place.y]", key)


def said_of(window, key):
    """What the page says where the pointer is on a link."""
    window.point(*place_of(window, key))
    return window.text("#tip")


def by_connect(at, row):
    """What `routed-tools connect` reads for a row."""
    ran = subprocess.run([TOOLS, "connect", at.ask], input=f"{row}\n", capture_output=True, text=True, timeout=PATIENCE)
    return ran.stdout.rstrip("\n")


def pin(window, head, tail):
    """Asks, and pins the ask."""
    ask(window, head, tail)
    window.click("#pin")
    window.until("document.querySelectorAll('#pins > li').length")
