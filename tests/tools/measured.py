"""Where the texts of a picture are: in chromium where it is there, else by the widths of DejaVu Sans, which are those of its font file."""
import html
import itertools
import json
import os
import re
import shutil
import subprocess
import tempfile
import xml.etree.ElementTree as xml

SVG = "{http://www.w3.org/2000/svg}"
# Thousandths of the font size, from the space to the tilde; no other letter of these pictures is wider than an em.
WIDTHS = [int(it) for it in (
    "318 401 460 838 636 950 780 275 390 390 500 838 318 361 318 337 636 636 636 636 636 636 636 636 636 636 337 337 838 838 838 531 "
    "1000 684 686 698 770 632 575 775 752 295 295 656 557 863 748 787 603 787 695 635 611 732 684 989 685 611 685 390 337 390 838 500 "
    "500 613 635 550 635 615 352 635 634 278 278 579 278 974 634 612 635 635 411 521 392 634 592 818 592 592 525 636 337 636 838").split()]
ACCENTS = str.maketrans("äöüÄÖÜéèø–ł", "aouAOUeeo_l")  # as wide as these


def texts(picture):
    return list(xml.fromstring(picture).iter(SVG + "text"))


def size_of(picture, kind):
    """The font size of a kind of text, by the picture's style."""
    own = re.search(rf"\.{kind}{{font-size:(\d+)px", picture)
    return int(own[1] if own else re.search(r"text{font:(\d+)px", picture)[1])


def by_table(picture):
    """The box of each text: left, top, right, bottom."""
    boxes = []
    for text in texts(picture):
        size, x, y = size_of(picture, text.get("class")), float(text.get("x")), float(text.get("y"))
        wide = sum(WIDTHS[ord(it) - 32] if " " <= it <= "~" else 1000 for it in text.text.translate(ACCENTS)) * size / 1000
        left = x if text.get("class") == "note" else x - wide / 2
        boxes.append((left, y - 0.928 * size, left + wide, y + 0.236 * size))
    return boxes


def by_browser(pictures):
    """The same of each picture, in one run of the browser."""
    with tempfile.TemporaryDirectory() as room:
        page = os.path.join(room, "page.html")
        with open(page, "w") as file:
            file.write("<meta charset='utf-8'><body>" + "".join(pictures) +
                       "<pre id='said'></pre><script>document.fonts.ready.then(() => { document.getElementById('said').textContent = "
                       "JSON.stringify("
                       "[...document.querySelectorAll('svg')].map(svg => [...svg.querySelectorAll('text')].map(text => text.getBBox())"
                       ".map(box => [box.x, box.y, box.x + box.width, box.y + box.height]))) })</script>")
        ran = subprocess.run([shutil.which("chromium"), "--headless", "--no-sandbox", "--disable-gpu", "--virtual-time-budget=10000",
                              "--dump-dom",
                              f"file://{page}"], capture_output=True, text=True, timeout=300)
        return json.loads(html.unescape(re.search(r'<pre id="said">(.*?)</pre>', ran.stdout, re.S)[1]))


def meet(one, other):
    return one[0] < other[2] and other[0] < one[2] and one[1] < other[3] and other[1] < one[3]


def faults(picture, boxes):
    """What is wrong with the texts of a picture: one that covers another, or a router whose number it isn't, or is cut by the edge."""
    shown, found = [(text.get("class"), text.text) for text in texts(picture)], []
    wide, high = (float(it) for it in xml.fromstring(picture).get("viewBox").split()[2:])
    for (one, box), (other, second) in itertools.combinations(zip(shown, boxes), 2):
        if meet(box, second):
            found.append(f"{one[1]} covers {other[1]}")
    routers = [(float(it.get("cx")), float(it.get("cy")), float(it.get("r"))) for it in xml.fromstring(picture).iter(SVG + "circle")
               if it.get("class") == "router"]
    for (kind, text), box in zip(shown, boxes):
        if not (0 <= box[0] and 0 <= box[1] and box[2] <= wide and box[3] <= high):
            found.append(f"{text} is cut")
        if kind in ("name", "counts"):
            found += [f"{text} covers a router" for x, y, radius in routers if meet(box, (x - radius, y - radius, x + radius, y + radius))]
    return found
