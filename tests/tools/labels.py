"""The texts of pictures: none covers another or a router, or is cut, and what has no room is numbered and listed."""
import itertools
import os
import random
import re
import shutil
import subprocess
import tempfile
import xml.etree.ElementTree as xml

from checks import TOP
from tools.drawing import SVG, big_network, draw, draw_failures, least_distance, names, notes, places_in
from tools.measured import by_browser, by_table, faults


def placer(_, checks):
    """Texts that are placed never cover each other, what is drawn or the edge, and none stays out that has room."""
    from routed.pictures.labels import TEXT, Sheet, Wanted, box_of, cut, spots_round, width, wrapped
    drawn = random.Random(2)
    for count in (5, 60, 300):
        sheet, points = Sheet(900, 600), [(drawn.uniform(0, 900), drawn.uniform(0, 600)) for _ in range(count)]
        for at, (x, y) in enumerate(points):
            sheet.block(at, (x - 7, y - 7, x + 7, y + 7))
        words = ["x" * drawn.randint(1, 20) for _ in points]
        sheet.place([Wanted(at, spots_round(*point, 7, word)) for at, (point, word) in enumerate(zip(points, words))])
        sheet.place([Wanted(("second", at), [(box_of(x + 30, y, "1/2/3"), 0)]) for at, (x, y) in enumerate(points)])
        boxes = [box for key in sheet.spots if (box := sheet.box(key))]
        blocks = [(x - 7, y - 7, x + 7, y + 7) for x, y in points]
        bad = sum(meets(one, other) for one, other in itertools.combinations(boxes,
                                                                             2)) + sum(meets(box, it) for box in boxes for it in blocks)
        bad += sum(not (0 <= box[0] and 0 <= box[1] and box[2] <= 900 and box[3] <= 600) for box in boxes)
        checks.same(f"{count} texts and {len(boxes) - count} more", bad, 0)
        out = [key for key in sheet.spots if not sheet.box(key)]
        checks.true("no text is out that has room", all(sheet.first_free(key) is None for key in out), out)
    sheet = Sheet(200, 80)
    sheet.place([Wanted("a", [(box_of(100, 30, "name"), 0), (box_of(100, 50, "name"), 1)])])
    sheet.place([Wanted("b", [(box_of(100, 30, "name"), 0)])])
    checks.true("a text moves so that another has room", sheet.box("a") and sheet.box("b"), sheet.placed)
    sheet = Sheet(200, 200)
    sheet.line([(0, 50), (200, 50)])
    sheet.place([Wanted("a", [(box_of(100, 50, "name"), 0), (box_of(100, 90, "name"), 1)])])
    checks.same("a text isn't on a line where it need not be", sheet.box("a")[1] > 60, True)
    sheet = Sheet(200, 200)
    sheet.block("a", (93, 70, 107, 84))
    sheet.block("b", (93, 25, 107, 39))
    sheet.place([Wanted("a", [(box_of(100, 55, "name"), 0), (box_of(100, 100, "name"), 1)])])
    checks.true("a text isn't near another router where it need not be", sheet.box("a")[1] > 84, sheet.box("a"))
    checks.true("a letter that is rare is wide", width("\u5317") >= TEXT and width("\u00e9") == width("e"), width("\u5317"))
    checks.same("a long text is wrapped", [wrapped("one two three", width("one two") + 1), wrapped("", 100)], [["one two", "three"], []])
    checks.true("a long word is cut", width(cut("x" * 200, 100)) <= 100 and cut("short", 100) == "short", cut("x" * 200, 100))


def meets(one, other):
    return one[0] < other[2] and other[0] < one[2] and one[1] < other[3] and other[1] < one[3]


def apart(program, checks):
    """In none of the pictures does a text cover another or a router, or is cut: by the table, and in a browser where there is one."""
    pictures = crowded(checks) | examples(program, checks)
    for name, picture in pictures.items():
        checks.same(f"{name}: texts", faults(picture, by_table(picture)), [])
    if not shutil.which("chromium"):
        print("skipped: pictures in a browser, since there is no chromium")
        return
    for (name, picture), boxes in zip(pictures.items(), by_browser(pictures.values())):
        checks.same(f"{name}: texts in a browser", faults(picture, boxes), [])


def crowded(checks):
    """Pictures of networks whose names have hardly any room; those that have none are numbered and listed, and more than 60
    are counted."""
    found = {}
    for sites in (14, 28, 50, 200):
        places = "".join(f"172.16.0.{at} {at * at % 7} {at * at % 11} Rechenzentrum {at} <Nord> & Süd\n" for at in range(1, sites + 1))
        rows = big_network(sites, 2 * sites)
        status, picture, said = draw(rows, places=places)
        numbers = [text.text for text in xml.fromstring(picture).iter(SVG + "text") if text.get("class") == "number"]
        listed = re.findall(r"(?:^|, |: )(\d+) Rechenzentrum", " ".join(notes(picture)))
        counted = [int(count) for count in re.findall(r"(\d+) names have no room", " ".join(notes(picture)))]
        checks.true(f"{sites} crowded sites: each has a name, a number that is listed, or is counted",
                    status == 0 and len(names(picture)) + len(numbers) + sum(counted) == sites
                    and sorted(numbers, key=int) == listed == [str(at) for at in range(1, len(numbers) + 1)]
                    and len(numbers) <= 60 and all(count > 60 for count in counted), (said, numbers, listed, counted))
        at = list(places_in(picture).values())
        checks.true(f"{sites} crowded sites: no router covers another", len(at) == sites and least_distance(at) > 2 * 9, least_distance(at))
        found[f"{sites} crowded sites"] = picture
        circuits = list(dict.fromkeys(re.findall(r"(?m)^put,([^,]*,[^,]*,[^,]*,[^,]*),", rows)))[::2]
        lines = "".join(f"scenario {at} out circuit {' '.join(it.split(','))}\nscenario {at} lost={at % 3} longer={at} most=1 "
                        "overbooked=0\n"
                        for at, it in enumerate(circuits, 1))
        status, picture, said = draw_failures(f"{lines}scenarios={len(circuits)} lost=1 longer=1 overbooked=0\n", places)
        counts = [text.text for text in xml.fromstring(picture).iter(SVG + "text") if text.get("class") == "counts"]
        text = " ".join(note.removeprefix("Counts without room: ") for note in notes(picture))
        wanted = {f"{at % 3}/{at}/0" for at in range(1, len(circuits) + 1)}
        listed = set(re.findall(r"Rechenzentrum \d+ <Nord> & Süd (\d+/\d+/0)", text))
        checks.true(f"{sites} crowded sites: each count is on its circuit or is listed", status == 0 and not listed & set(counts)
                    and set(counts) | listed == wanted and len(counts) + len(listed) == len(wanted), (said, wanted - set(counts) - listed))
        found[f"failures of {sites} crowded sites"] = picture
        found[f"{sites} sites laid out"] = draw(rows)[1]
    wide, areas = [], []
    for sites in (14, 28, 50, 200):
        size = re.search('viewBox="0 0 (.*?) (.*?)"', found[f"{sites} sites laid out"]).groups()
        wide.append(int(size[0]))
        areas.append(wide[-1] * int(size[1]))
    checks.true("a picture grows with its network, until it is as wide as a screen",
                1.3 * areas[0] < areas[1] and 1.3 * areas[1] < areas[2] < areas[3] and wide[3] == 1200 == max(wide), (areas, wide))
    return found


def examples(program, checks):
    """The pictures of the examples' page are those that its commands draw."""
    page, found = open(os.path.join(TOP, "examples/README.md")).read(), {}
    commands = list(re.finditer(r"^    (.*tools/routed-tools draw(?:-\w+)? .*) > (examples/\S+\.svg)$", page, re.M))
    checks.true("the page draws pictures", len(commands) > 2, f"{len(commands)} commands")
    for command, path in ((after_others(page[:it.start()], it[1]), it[2]) for it in commands):
        command = command.replace("crates/routed/out/routed",
                                  f'"{program.path}"').replace("routed-tools sweep ", f'routed-tools sweep --program "{program.path}" ')
        with tempfile.TemporaryDirectory() as room:
            drawn = subprocess.run(["timeout", "120", "sh", "-c", command], cwd=TOP, capture_output=True, text=True,
                                   env={**os.environ, "TMPDIR": room}).stdout
        checks.same(path, drawn, open(os.path.join(TOP, path)).read())
        found[path] = drawn
    return found


def after_others(page, command):
    """A command. Where it reads files of a folder, the last commands of the page that make one are run before it."""
    if "$dir/" not in command:
        return command
    blocks = [block for block in re.findall(r"(?:^    .*\n)+", page, re.M) if block.startswith("    dir=")]
    return f"{{\n{re.sub('(?m)^    ', '', blocks[-1])}}} > /dev/null\n{command}"
