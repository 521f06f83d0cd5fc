"""Pictures that the tools draw, and what is read in them."""
import itertools
import math
import os
import random
import re
import subprocess
import tempfile
import xml.etree.ElementTree as xml

from checks import TOOLS

SVG = "{http://www.w3.org/2000/svg}"
FREE = ",".join(["1000"] * 8)


def link(router, local, neighbor, remote, group="0x1", free=FREE):
    return f"put,{router},{local},{neighbor},{remote},10,{group},{free}\n"


def draw(rows, *words, places=None, replies=None, overbooked=None):
    """Status, picture and standard error of one drawing."""
    with tempfile.TemporaryDirectory() as room:
        given = []
        for option, text in (("rows", rows), ("--places", places), ("--replies", replies), ("--overbooked", overbooked)):
            if text is not None:
                path = os.path.join(room, option.strip("-"))
                with open(path, "w") as file:
                    file.write(text)
                given += [path] if option == "rows" else [option, path]
        ran = subprocess.run([TOOLS, "draw", *given, *words], capture_output=True, text=True)
        return ran.returncode, ran.stdout, ran.stderr


def shapes(picture, kind):
    return [path for path in xml.fromstring(picture).iter(SVG + "path") if path.get("class") == kind]


def classes(picture, *wanted):
    """The kinds of the picture's shapes, in order, those that are wanted."""
    return [it.get("class") for it in xml.fromstring(picture).iter() if it.get("class") in wanted]


def hovers(picture, kind):
    """What is said where the pointer is on shapes of a kind."""
    return [it.find(SVG + "title").text for it in xml.fromstring(picture).iter() if it.get("class") == kind]


def begin_of(path):
    """Where a path begins."""
    return tuple(float(it) for it in re.match("M([0-9.]+) ([0-9.]+)", path.get("d")).groups())


def notes(picture):
    return [text.text for text in xml.fromstring(picture).iter(SVG + "text") if text.get("class") == "note"]


def places_in(picture):
    """The middles of the routers, by what is said of them."""
    return {it.find(SVG + "title").text: (float(it.get("cx")), float(it.get("cy")))
            for it in xml.fromstring(picture).iter(SVG + "circle") if it.get("class") == "router"}


def names(picture):
    return [text for text in xml.fromstring(picture).iter(SVG + "text") if text.get("class") == "name"]


def big_network(routers, circuits, seed=1):
    """Rows of a connected network with drawn circuits, some of which are between the same routers."""
    drawn, rows = random.Random(seed), []
    pairs = [(at, at + 1) for at in range(1, routers)]
    while len(pairs) < circuits:
        pairs.append(tuple(drawn.sample(range(1, routers + 1), 2)))
    for at, (one, other) in enumerate(pairs):
        ends = [(f"172.16.{router >> 8}.{router & 255}", f"10.0.{at >> 7}.{2 * (at & 127) + side}")
                for side, router in enumerate((one, other))]
        rows += [link(*ends[0], *ends[1]), link(*ends[1], *ends[0])]
    return "".join("".join(rows[at:at + 4096]) + f"end,{at // 4096 + 1},{len(rows[at:at + 4096])}\n" for at in range(0, len(rows), 4096))


def least_distance(places):
    return min((math.dist(one, other) for one, other in itertools.combinations(places, 2)), default=1.0)


def draw_failures(lines, places):
    """Status, picture and standard error of one drawing of failures."""
    with tempfile.NamedTemporaryFile("w") as file:
        file.write(places)
        file.flush()
        ran = subprocess.run([TOOLS, "draw-failures", "--places", file.name], input=lines, capture_output=True, text=True)
        return ran.returncode, ran.stdout, ran.stderr
