"""Rows `except`, from the formats' own words (docs/run/FORMATS.md): the links that a request excludes are left out before the search.

Small and slow on purpose; nothing in it is taken from the program.
"""
import re

from reference.formats import ADDRESS, DECIMAL, Network, Refused, address_number, ask, covers, outcome_text

MOST_PARTS = 64


def excluded(field):
    """The parts of the field, each an address, the length of its prefix, and a letter: i for interfaces, r for routers."""
    texts = field.split(" ")
    if len(texts) > MOST_PARTS:
        raise Refused("except count")
    return [part(text, place) for place, text in enumerate(texts, 1)]


def part(text, place):
    found = re.fullmatch(rf"({ADDRESS})/({DECIMAL})([ir])", text)
    if not found or len(found[2]) > 2 or int(found[2]) > 32:
        raise Refused(f"except {place}")
    return address_number(found[1]), int(found[2]), found[3]


def question(fields):
    """The request of an `except` row, and its parts."""
    if len(fields) != 11:
        raise Refused("fields")
    return ask(fields[:10]), excluded(fields[10])


def without(network, parts):
    """The network without the links that the parts name."""
    routers = set()
    for prefix, bits, letter in parts:
        if letter == "r":
            routers |= network.owners(prefix, bits)

    def stays(link):
        if link["from"] in routers or link["to"] in routers:
            return False
        return not any(letter == "i" and (covers(prefix, bits, link["local"]) or covers(prefix, bits, link["remote"]))
                       for prefix, bits, letter in parts)

    return Network({key: link for key, link in network.links.items() if stays(link)}, network.marks)


def outcome(network, request, parts):
    """The links of the least route that avoids the parts, or the word that says why there is none. The ends are looked up in the whole
    network."""
    routers = network.routers()
    if request["from"] not in routers:
        return "unknown-from"
    if request["to"] not in routers:
        return "unknown-to"
    walk = without(network, parts).least(request)
    return "none" if walk is None else walk


def answer(network, version, asked):
    """The line of an `except` row, without its line feed."""
    request, parts = asked
    return f"except {request['id']} v{version} {outcome_text(request, outcome(network, request, parts))}"
