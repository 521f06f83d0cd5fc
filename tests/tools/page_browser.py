"""`routed-tools page` in Chromium: what is drawn, asked, pinned and supposed there."""
import math
import re
import time

from program.serving import PATIENCE
from tools.browser import browser, count_of, each, has_browser, text_of
from tools.drawing import big_network, link
from tools.page_faded import drawn_asks
from tools.page_origin import others
from tools.page_picture import page_picture
from tools.page_seen import MARKED, NAMES, NETWORK, REASONS, REQUEST
from tools.page_seen import ask, by_connect, drop, key_of, keys_of, opened, pin, place_of, put, said_of
from tools.reading import eventually, figures_of

from routed.model.units import rate_of

SECONDS_APART = 2  # behind which nothing more is expected to come
NARROW = 400  # pixels


def page_browser(program, checks):
    page_picture(checks)
    if not has_browser():
        print("page: skipped the browser: there is no chromium with chromedriver (Debian's packages chromium and chromium-driver)")
        return
    start = time.monotonic()
    with browser() as window:
        checks.parts((drawn, pushed, by_clicks, by_keys, reached, faded, drawn_asks, without_route, pinned, compared, supposed, gone,
                      narrow, large, others), window, program.path, checks)
    print(f"page: in a browser, {time.monotonic() - start:.0f} s")


# ---- the picture


def drawn(window, path, checks):
    """Each link, router and name is an element with its key. Names are text."""
    with opened(window, path, NETWORK) as at:
        checks.same("a link each", sorted(keys_of(window, "links")), sorted(REASONS))
        checks.same("an arrow on the link of one way", keys_of(window, "arrows"), [key_of(6, 3)])
        checks.same("a router each", keys_of(window, "routers"), [f"192.0.2.{at}" for at in NAMES])
        squares = each("[data-state=marked]", "[it.dataset.key, /h.*v.*h/.test(it.getAttribute('d'))]")
        checks.same("the marked one, a square", window.value(squares), [[f"192.0.2.{MARKED}", True]])
        names = dict(window.value(each("#frame .names text", "[it.dataset.key, it.textContent]")))
        checks.same("names as they are, and the long one cut", {at: name for at, name in names.items() if at != "192.0.2.4"},
                    {f"192.0.2.{at}": name for at, name in NAMES.items() if at != 4})
        checks.true("the long name", re.fullmatch("D{5,40}…", names.get("192.0.2.4", "")), names)
        checks.same("no name is markup", window.value(count_of("main b, main img, [onclick], [onerror]")), 0)
        checks.same("the head", [window.text("#version"), window.text("#counts").partition(": ")[2], window.text("#state")],
                    ["1", "6 routers, 15 links, 1 without transit", "live"])
        places = dict(window.value(each("#frame .routers path", "[it.dataset.key, it.getBBox().x]")))
        checks.true("routers are where the file has them", places["192.0.2.1"] < places["192.0.2.2"] < places["192.0.2.3"]
                    and abs(places["192.0.2.1"] - places["192.0.2.4"]) < 1, places)
        checks.true("the groups are in the legend", {"groups 0", "groups 1", "groups 2", "groups 0, 3"} <= {
            *window.value(each("#legend li", "it.textContent"))}, window.text("#legend"))
        styles = window.value(each("#legend path", "[it.getAttribute('stroke'), it.getAttribute('stroke-dasharray')]"))[:4]
        checks.same("groups differ by color, and without it", [len({style[part] for style in styles}) for part in (0, 1)], [4, 4])
        window.click("#table summary")
        rows = window.until(each("#links tr", "[...it.children].map(cell => cell.textContent)"))
        checks.same("the table has the links", sorted([row[1], row[5]] for row in rows),
                    sorted([key.split()[1], "0.8k" if reason == "bandwidth" else "8k"] for key, reason in REASONS.items()))
        checks.same("lines in the console", window.told(), [])
        rates = [0, 1, 12, 125, 999, 8000, 12500, 193000, 125000000, 312500000, 12500000000, 10**15 + 1, 2**64 - 1]
        found = [rate_of(text) for text in window.value("arguments[0].map(it => rate(it))", [str(it) for it in rates])]
        checks.same("bandwidths read back", found, rates)
        checks.same("nothing from elsewhere", window.value(
            "performance.getEntriesByType('resource').filter(it => !it.name.startsWith(arguments[0])).map(it => it.name)", at.url), [])


def pushed(window, path, checks):
    """A version changes the picture in place, and an older one can be looked at."""
    with opened(window, path) as at:
        window.run("window.kept = document.querySelector(`#frame .links [data-key='${arguments[0]}']`); "
                   "window.before = kept.getAttribute('stroke-width')", key_of(1, 2))
        at.publish(drop(2, 3) + put(1, 2).replace("1000,1000\n", "1000,0\n") + f"node,192.0.2.{MARKED},1\nnode,192.0.2.2,0\n")
        checks.same("a version", window.until(text_of("#version"), lambda text: text == "2"), "2")
        wanted = sorted(set(REASONS) - {key_of(2, 3), key_of(3, 2)})
        window.until(count_of("#frame .links path"), lambda count: count == len(wanted))
        checks.same("a circuit goes", sorted(keys_of(window, "links")), wanted)
        checks.same("widths and dashes change in place", window.value(
            "[kept.isConnected, Number(kept.getAttribute('stroke-width')) < Number(before), kept.getAttribute('stroke-dasharray')]"),
                    [True, True, "1 5"])
        checks.same("a mark comes, another goes", window.value(each("[data-state=marked]", "it.dataset.key")),
                    ["192.0.2.2"])
        words = window.value(each("#changes > li:first-child li", "it.textContent"))
        checks.true("it is said in words", all(any(word in it for it in words) for word in ("circuit down", "without transit")), words)
        window.click("#changes > li:last-child button")
        window.until(text_of("#then"))
        checks.same("the picture of an older version", (window.until(count_of("#frame .links path"),
                                                                     lambda count: count == len(REASONS)), window.text("#version")),
                    (len(REASONS), "1"))
        window.click("#newest")
        checks.same("back to the newest", window.until(text_of("#version"), lambda text: text == "2"), "2")
        at.publish(put(2, 3) + put(3, 2))
        checks.same("a circuit comes back", window.until(count_of("#frame .links path"),
                                                         lambda count: count == len(REASONS)), len(REASONS))
        at.publish("".join(put(*ends).replace("192.0.2.3", "192.0.2.7").replace("10.0.23", "10.0.27") for ends in ((2, 3), (3, 2))))
        checks.true("a new router is laid out", window.until("!!document.querySelector(\"#frame .routers [data-key='192.0.2.7']\")"))
        checks.same("lines in the console", window.told(), [])


def large(window, path, checks):
    """More than 200 routers are drawn on a canvas; what is at the pointer is said there, too."""
    with opened(window, path, big_network(201, 300), places="") as at:
        checks.same("a canvas, no SVG", window.value("[...document.getElementById('frame').children].map(it => it.localName)"),
                    ["canvas", "p", "div"])
        script = "const [x, y] = onFrame(picture.routers['172.16.0.1']), box = frame.getBoundingClientRect(); return [box.x + x, box.y + y]"
        window.point(*window.run(script))
        checks.same("the router at the pointer", window.text("#tip"), "\u2068172.16.0.1\u2069\n172.16.0.1")
        inked = "[...root.getContext('2d').getImageData(0, 0, root.width, root.height).data].filter((it, at) => at % 4 === 3 && it).length"
        before = window.until(inked)
        checks.true("it is drawn", before > 1000, before)
        window.run("document.getElementById('frame').focus()")
        scale = window.value("view.scale")
        window.press("+", "ArrowRight")
        checks.true("it is made larger by a key", window.value("view.scale") > 1.3 * scale)
        ends = ("172.16.0.1", "10.9.9.1"), ("172.16.0.3", "10.9.9.3")
        at.publish(link(*ends[0], *ends[1]) + link(*ends[1], *ends[0]) + "node,172.16.0.1,0\n")
        window.until("'172.16.0.1 10.9.9.1 172.16.0.3 10.9.9.3' in picture.circuits")
        window.click("#table summary")
        checks.true("it stays so with a new circuit, and where the table is opened", window.value("view.scale") > 1.3 * scale)
        window.run("document.getElementById('frame').focus()")
        window.press("0")
        checks.same("and whole again", round(window.value("view.scale"), 6), round(scale, 6))
        window.point(5, 5)
        window.point(*window.run(script))
        checks.true("a version changes it", "no transit" in window.until(text_of("#tip")), window.text("#tip"))
        checks.same("lines in the console", window.told(), [])


# ---- asks


def by_clicks(window, path, checks):
    """Two routers are clicked; the reply is the one that `connect` reads for the row."""
    with opened(window, path) as at:
        for router in (1, 3):
            window.click(f"#frame .routers [data-key='192.0.2.{router}']")
        line = window.until(text_of("#line"))
        row = window.text("#row")
        checks.same("the row", re.sub(r"^ask,\d+,", "", row), "192.0.2.1,192.0.2.3,7,0,0x00000000,0x00000000,0x00000000,")
        checks.same("the reply line", line, by_connect(at, row))
        checks.same("the route's cost and links", re.findall("v1 route cost=20 hops=2 ", line), ["v1 route cost=20 hops=2 "])
        checks.same("its table", window.until(each("#route tr", "it.children[1].textContent")),
                    [key_of(1, 2).split()[1], key_of(2, 3).split()[1]])
        checks.same("it is drawn, with its ends", (window.until(count_of("#frame .routes path")), keys_of(window, "ends")),
                    (2, ["head 0", "tail 0"]))
        window.click("#copy")
        window.click("#part")
        eventually(checks, "copied", lambda: window.paste() or window.value("document.getElementById('part').value"), line)
        at.publish(drop(1, 2))
        again = window.until(text_of("#line"), lambda text: " v2 " in text)
        checks.true("a newer version is asked again", " v2 route cost=40 " in again, again)
        checks.same("and its reply line", again, by_connect(at, window.text("#row")))
        checks.same("lines in the console", window.told(), [])


def by_keys(window, path, checks):
    """The form by the keyboard alone: no click, and no focus that a script gives."""
    with opened(window, path) as at:
        focus_on(window, "head")
        window.press(NAMES[1], "Tab", "192.0.2.3", "Tab", "Tab")
        window.press("3")
        window.press("Tab", "Enter")  # opens what has the affinities
        window.press("Tab", "3", "Enter")
        line = window.until(text_of("#line"))
        row = window.text("#row")
        checks.same("the row", re.sub(r"^ask,\d+,", "", row), "192.0.2.1,192.0.2.3,3,0,0x00000008,0x00000000,0x00000000,")
        checks.same("the reply line", line, by_connect(at, row))
        focus_on(window, "pin")
        window.press("Enter")
        checks.same("pinned by a key", window.until(count_of("#pins > li")), 1)
        checks.same("lines in the console", window.told(), [])


def focused(window):
    return window.value("document.activeElement.id || document.activeElement.name || document.activeElement.textContent")


def focus_on(window, name, most=80):
    """Presses Tab until this element has the focus. The elements on the way."""
    passed = []
    while focused(window) != name and len(passed) < most:
        window.press("Tab")
        passed.append(focused(window))
    return passed


def reached(window, path, checks):
    """Tab leads to each control, in the order of the page."""
    with opened(window, path):
        ask(window, 1, 3, **REQUEST)
        window.click("#pin")
        window.until(count_of("#pins > li"))
        window.run("document.getElementById('part').value = '192.0.2.2'; document.getElementById('without').requestSubmit()")
        window.until(count_of("#effects > li"))
        focus_on(window, "Skip to the form")
        passed = [name for name in focus_on(window, "nothing", 40) if len(name) < 30]  # others are tables that can be scrolled
        wanted = ["larger", "smaller", "whole", "Keys", "frame", "Links as a table", "head", "tail", "bandwidth", "setup",
                  "Affinities and hops", "exclude", "include", "all", "hops", "Ask", "pin", "clear", "copy", "explain", "Show", "Remove",
                  "History (1)", "part", "Take out", "clicks", "Put back", "Show"]
        checks.same("the order of Tab", passed[:len(wanted)], wanted)
        focus_on(window, "copy")
        checks.same("the focus is seen", window.value("getComputedStyle(document.activeElement).outlineWidth"), "3px")
        checks.same("lines in the console", window.told(), [])


def faded(window, path, checks):
    """Links that the request may not use are faded, each with its reason: in the picture, at the pointer and in the table."""
    with opened(window, path) as at:
        line = ask(window, 1, 3, **REQUEST)
        checks.true("there is a route", " route cost=20 hops=2 " in line, line)
        states = "Object.fromEntries([...document.querySelectorAll('#frame .links path')].map(it => [it.dataset.key, it.dataset.state]))"
        checks.same("the faded links and their reasons", window.until(states, lambda found: any(found.values())), REASONS)
        for key, reason in REASONS.items():
            found = re.findall(rf"^{key.split()[1]} to .*(?:\nmay not be used: (.*))?$", said_of(window, key), re.M)
            checks.same(f"at the pointer on {key}", found, [reason])
        thin = window.value("[...document.querySelectorAll('#frame .links path')].filter(it => it.getAttribute('d').includes('l8 8'))"
                            ".map(it => [it.dataset.key, Number(it.getAttribute('stroke-width')) <= 1])")
        checks.same("they are thin and crossed", sorted(thin), sorted([key, True] for key, reason in REASONS.items() if reason))
        window.click("#table summary")
        table = window.until(each("#links tr", "[it.children[1].textContent, it.children[6].textContent]"))
        checks.same("in the table", dict(table), {key.split()[1]: reason or "may be used" for key, reason in REASONS.items()})
        checks.same("counted", sorted(window.text("#barred").split(", ")), ["bandwidth: 2 links", "exclude-any: 2 links",
                    "include-all: 2 links", "include-any: 2 links", "marked: 1 link", "one-way: 1 link"])
        at.publish(put(5, 6).replace(",100", ",900") + put(6, 5).replace(",100", ",900"))
        wanted = {**REASONS, key_of(5, 6): "", key_of(6, 5): "marked"}
        checks.same("at the next version", window.until(states, lambda found: found == wanted), wanted)
        window.click("#clear")
        checks.same("none once it is cleared", set(window.until(states, lambda found: not any(found.values())).values()), {""})
        checks.same("lines in the console", window.told(), [])


def without_route(window, path, checks):
    """Without a route the page says what has to be given up, as `routed-tools ask` does; a refused form says why."""
    with opened(window, path):
        checks.true("none", ask(window, 1, 3, bandwidth="1M").endswith(" v1 none"), window.text("#line"))
        why = window.until(text_of("#why"))
        checks.true("why", "why: there is a route once this is given up:" in why and "bandwidth 1M (at most 8k)" in why, why)
        checks.same("no route is drawn", keys_of(window, "routes"), [])
        window.run("const form = document.getElementById('form'); form.elements.bandwidth.value = 'much'; form.requestSubmit()")
        said = window.until("document.getElementById('said').className === 'bad' && document.getElementById('said').textContent")
        checks.true("a refusal", "'much' is no bandwidth" in said, said)
    window.told()  # Chromium writes a line for each answer of a status above 399


# ---- pinned asks, and what if


def costs(window):
    return window.value(each("#pins ol > li", "Number(/cost (\\d+)/.exec(it.textContent)?.[1])"))


def pinned(window, path, checks):
    """A pinned ask through a failure and back, its history, and both routes over each other."""
    with opened(window, path) as at:
        pin(window, 1, 3)
        checks.same("what it says", window.text("#pins p"), "cost 20, 2 links, since version 1")
        at.publish(drop(1, 2))
        found = window.until(text_of("#pins p"), lambda text: "version 2" in text)
        checks.same("through a failure", found, "cost 40, 4 links, since version 2")
        at.publish(put(1, 2) + put(2, 1))
        found = window.until(text_of("#pins p"), lambda text: "version 3" in text)
        checks.same("and back", found, "cost 20, 2 links, since version 3")
        at.publish(f"node,192.0.2.{MARKED},1")
        window.until(text_of("#line"), lambda text: " v4 " in text)
        checks.same("its history, the newest first", costs(window), [20, 40, 20])
        window.run("follow()")  # as where the page connects again
        window.until("[...pins.values()].length && page.page")
        time.sleep(SECONDS_APART)
        checks.same("its history after it has connected again", costs(window), [20, 40, 20])
        window.click("#pins summary")
        passed = window.value(each("#pins ol > li", "it.firstChild.textContent"))
        on_the_way = ", ".join(f"\u2068{NAMES[at]}\u2069" for at in (1, 4, 5, 2, 3))
        checks.true("the routers on the way", passed[1].endswith(f". {on_the_way} "), passed[1])
        window.click("#pins ol > li:first-child button")
        window.until(count_of("#frame .routes [data-key^=route]"), lambda count: count == 2)
        ways = window.value(each("#frame .routes [data-key^=route]",
                                 "[it.getAttribute('d').split('Q').length - 1, it.getAttribute('stroke-dasharray')]"))
        checks.same("two routes, the one before with dashes", ways, [[2, "none"], [4, "11 4"]])
        checks.true("both in the legend", all(it in window.text("#legend") for it in ("now: cost 20, 2 links", "before: cost 40, 4 links")))
        window.click("#pins > li > button:nth-of-type(2)")
        checks.same("removed", window.until(count_of("#pins > li"), lambda count: not count), 0)
        checks.same("lines in the console", window.told(), [])


def routers_passed(window):
    """The last numbers of the routers on each drawn route, by the places where the route's links begin and end."""
    places = window.value("Object.entries(picture.routers).map(([router, it]) => [router, onFrame(it)])")
    found = []
    for drawn_path in window.value(each("#frame .routes [data-key^=route]", "it.getAttribute('d')")):
        numbers = [float(it) for it in re.findall(r"-?[\d.]+", drawn_path)]  # of each link: its start, its control point and its end
        ends = [numbers[:2], *(numbers[at:at + 2] for at in range(4, len(numbers), 6))]
        found.append([int(min(places, key=lambda it: math.dist(it[1], end))[0].rpartition(".")[2]) for end in ends])
    return found


def compared(window, path, checks):
    """Compare on an entry of a history draws the route of this entry and the route before it, also where the entry isn't the newest."""
    with opened(window, path) as at:
        pin(window, 1, 3)
        at.publish(put(1, 2, 50))
        window.until(count_of("#pins ol > li"), lambda count: count == 2)
        at.publish(put(3, 6) + put(1, 6, 15) + f"node,192.0.2.{MARKED},1\n")
        window.until(count_of("#pins ol > li"), lambda count: count == 3)
        checks.same("three routes, the newest first", costs(window), [25, 40, 20])
        window.click("#pins summary")
        first, second, third = [1, 2, 3], [1, 4, 5, 2, 3], [1, 6, 3]
        for entry, now, ways in ((2, "cost 40, 4 links", [second, first]), (1, "cost 25, 2 links", [third, second]),
                                 (3, "cost 20, 2 links", [first])):
            window.click(f"#pins ol > li:nth-child({entry}) button")
            legend = window.until(text_of("#legend"), lambda text: f"now: {now}" in text, SECONDS_APART)
            checks.true(f"entry {entry} is in the legend", f"now: {now}" in legend, legend)
            checks.same(f"the routes that are drawn for entry {entry}", routers_passed(window), ways)
        checks.same("lines in the console", window.told(), [])


def supposed(window, path, checks):
    """What if: the pinned asks without a circuit and without a router. Nothing reaches the server."""
    with opened(window, path) as at:
        pin(window, 1, 3)

        def kept():
            with open(at.journal, encoding="ascii") as file:
                return file.read(), {name: number for name, number in figures_of(at.room).items() if name[1] != "metrics" and (
                    name[0] == "routed_version" or name[0].startswith("routed_") and name[0].endswith("_total"))}

        before = kept()
        window.click("#clicks")
        window.run("scrollTo(0, 0)")
        window.point(*place_of(window, key_of(1, 2)), True)
        found = window.until(text_of("#effects"), lambda text: "longer" in text)
        checks.true("a circuit is out by a click", found.startswith("longer") and "cost 20, 2 links; then cost 40, 4 links" in found, found)
        out = each("#frame [data-state=out]", "it.dataset.key).sort(")
        checks.same("it is drawn as what is out", window.until(out), sorted([key_of(1, 2), key_of(2, 1)]))
        checks.same("before and then are drawn", window.until(count_of("#frame .routes [data-key^=route]"), lambda count: count == 2), 2)
        window.run("document.getElementById('part').value = arguments[0]; document.getElementById('without').requestSubmit()", NAMES[2])
        found = window.until(text_of("#effects"), lambda text: "lost" in text)
        checks.true("a router by its name", found.startswith("lost") and "cost 20, 2 links; then none" in found, found)
        checks.same("what is out then", window.value(f"{out}.length"), 6)
        for _ in range(2):
            window.click("#out button")
            time.sleep(0.2)
        checks.same("put back", (window.until(out, lambda keys: not keys), window.text("#out")), ([], ""))
        checks.same("the server's journal and figures", kept(), before)
        checks.same("lines in the console", window.told(), [])


# ---- connections


def gone(window, path, checks):
    """The page says since when its server is gone; once it is back, pinned asks are there again with what they were."""
    with opened(window, path) as at:
        pin(window, 1, 3)
        at.publish(drop(1, 2))
        window.until(count_of("#pins ol > li"), lambda count: count == 2)
        checks.same("lines in the console", window.told(), [])
        at.child.terminate()
        at.child.wait(PATIENCE)
        state = window.until(text_of("#state"), lambda text: text.startswith("no"))
        checks.true("no connection", re.fullmatch(r"no connection since \d{4}-\d\d-\d\d \d\d:\d\d:\d\d", state), state)
        checks.same("what was drawn stays", len(keys_of(window, "links")), len(REASONS) - 2)
        time.sleep(SECONDS_APART)
        checks.same("since when", window.text("#state"), state)
        at.words[at.words.index("--at") + 1] = str(at.address[1])
        at.begin_page()
        checks.same("it is back", window.until(text_of("#state"), lambda text: text == "live"), "live")
        at.publish(put(1, 2) + put(2, 1))
        window.until(count_of("#pins ol > li"), lambda count: count > 2)
        checks.same("the history goes on", [costs(window)[0], costs(window)[-2:]], [20, [40, 20]])
        at.end_server()
        words = window.until("document.getElementById('server').className === 'bad' && document.getElementById('server').textContent")
        checks.true("the server of routes is gone", words, words)
        window.told()  # with the lines of requests that failed


def narrow(window, path, checks):
    """At 400 pixels nothing is wider than the page, with a reply, a pinned ask, a what-if and the table."""
    with opened(window, path):
        ask(window, 4, 3, **{**REQUEST, "exclude": "", "include": "", "all": ""})
        window.click("#pin")
        window.until(count_of("#pins > li"))
        window.run("document.getElementById('part').value = '192.0.2.2'; document.getElementById('without').requestSubmit(); "
                   "for (const it of document.querySelectorAll('details')) it.open = true")
        window.until(count_of("#effects > li"))
        window.resize(NARROW, 900)
        try:
            wide = window.until("document.documentElement.clientWidth", lambda wide: wide <= NARROW)
            checks.true("the page's width", wide <= NARROW, wide)
            checks.same("sideways", window.until("document.documentElement.scrollWidth <= document.documentElement.clientWidth"), True)
            wider = ("[...document.querySelectorAll('body *')].filter(it => !it.closest('svg, .wide, .skip, #tip') && "
                     "it.getBoundingClientRect().right > document.documentElement.clientWidth + 1).map(it => it.outerHTML.slice(0, 80))")
            checks.same("what is wider", window.until(wider, lambda found: not found), [])
            texts = window.until("[...document.querySelectorAll('#frame .names text')].map(it => it.getBoundingClientRect()).map(it => "
                                 "[it.left, it.right, Number(it.height) >= 11])")
            inside = window.value("(box => [box.left, box.right])(document.getElementById('frame').getBoundingClientRect())")
            checks.true("names are inside and can be read", texts and all(inside[0] <= left and right <= inside[1] + 1 and is_large
                                                                          for left, right, is_large in texts), (inside, texts))
        finally:
            window.call("POST", "/goog/cdp/execute", {"cmd": "Emulation.clearDeviceMetricsOverride", "params": {}})
        checks.same("lines in the console", window.told(), [])
