"""Wrong books: what is said of links that are over and of lost placements, versions and limits, with one rule turned."""
from reference.turning import forgiven


def says_over_where_it_is_just_enough(it):
    right = it.over
    it.over = lambda changes, placements: right(
        [(kind, {**change, "free": [free - 1 if free else 0 for free in change["free"]]} if kind == "put" else change)
         for kind, change in changes], placements)


def says_over_at_the_first_priority_alone(it):
    right = it.over
    it.over = lambda changes, placements: [line for one in changes for line in list(right([one], placements))[:1]]


def says_over_at_priority_7_alone(it):
    right = it.over
    it.over = lambda changes, placements: [line for line in right(changes, placements) if line.endswith(" 7")]


def says_over_by_the_effective_figures(it):
    right = it.over

    def least(link):
        return {**link, "free": [min(link["free"][:priority + 1]) for priority in it.PRIORITIES]}
    it.over = lambda changes, placements: right([(kind, least(change) if kind == "put" else change) for kind, change in changes],
                                                placements)


def says_over_by_priority_and_then_by_link(it):
    right = it.over
    it.over = lambda changes, placements: sorted(right(changes, placements), key=lambda line: line.split()[-1])


def says_over_in_the_order_of_keys(it):
    right = it.over
    it.over = lambda changes, placements: right(sorted(changes, key=lambda one: it.key_of(one[1]) if one[0] == "put" else (0, 0)),
                                                placements)


def says_nothing_of_what_was_over_before(it):
    right = it.Book.end

    def end(book, changes, content):
        said = set(it.over([("put", link) for link in book.base.links.values()], book.placements))
        return [line for line in right(book, changes, content) if line not in said]
    it.Book.end = end


def says_over_of_each_link(it):
    right = it.Book.end

    def end(book, changes, content):
        lines = right(book, changes, content)
        found = list(it.over([("put", link) for _, link in sorted(book.base.links.items())], book.placements))
        return [*found, *(line for line in lines if not line.startswith("over "))]
    it.Book.end = end


def forgets_what_is_counted_on_a_link_that_is_put(it):
    right = it.Book.end

    def end(book, changes, content):
        lines = right(book, changes, content)
        put = {it.key_of(change) for kind, change in changes if kind == "put"}
        book.placements = [it.Placement(request, tuple(link for link in route if it.key_of(link) not in put))
                           for request, route in book.placements]
        return lines
    it.Book.end = end


def forgets_what_is_counted_on_a_link_that_is_dropped(it):
    right = it.Book.end

    def end(book, changes, content):
        lines = right(book, changes, content)
        dropped = {it.key_of(change) for kind, change in changes if kind == "drop"}
        book.placements = [it.Placement(request, tuple(link for link in route if it.key_of(link) not in dropped))
                           for request, route in book.placements]
        return lines
    it.Book.end = end


def releases_what_is_lost(it):
    right = it.Book.end

    def end(book, changes, content):
        lines = right(book, changes, content)
        gone = {line.split()[1] for line in lines if line.startswith("lost ")}
        book.placements = [placed for placed in book.placements if str(placed.request["id"]) not in gone]
        return lines
    it.Book.end = end


def names_the_most_important_first(it):
    right = it.lost
    it.lost = lambda before, after, placements: reversed(list(right(before, after, placements)))


def names_lost_ones_by_id_alone(it):
    right = it.lost
    it.lost = lambda before, after, placements: sorted(right(before, after, placements), key=lambda line: int(line.split()[1]))


def names_lost_ones_by_id_as_text(it):
    right = it.lost

    def lost(before, after, placements):
        holds = {str(placed.request["id"]): placed.request["hold"] for placed in placements}
        return sorted(right(before, after, placements), key=lambda line: (-holds[line.split()[1]], line))
    it.lost = lost


def names_lost_ones_in_the_order_of_placing(it):
    right = it.lost

    def lost(before, after, placements):
        found = set(right(before, after, placements))
        return [line for placed in placements if (line := f"lost {placed.request['id']}") in found]
    it.lost = lost


def names_those_that_were_lost_before(it):
    it.lost = lambda before, after, placements: [
        f"lost {placed.request['id']}" for placed in sorted(placements, key=lambda it: (-it.request["hold"], it.request["id"]))
        if not it.admits(after, placed)]


def looks_for_lost_ones_in_the_effective_database(it):
    right = it.admits
    it.admits = lambda base, placement: right(base, placement) and all(
        base.links[it.key_of(link)]["free"][7] >= placement.request["bandwidth"] for link in placement.route)


def loses_none_by_a_mark(it):
    right = it.admits
    it.admits = lambda base, placement: right(it.Network(base.links), placement)


def loses_those_whose_end_is_marked(it):
    right = it.admits

    def admits(base, placement):
        ends = {placement.request["from"], placement.request["to"]}
        return right(base, placement) and not ends & base.marks
    it.admits = admits


def passes_a_marked_head_end_again(it):
    right = it.admits
    it.admits = lambda base, placement: right(it.Network(base.links, base.marks - {placement.request["from"]}), placement)


def loses_none_by_a_reverse(it):
    right = it.admits

    def admits(base, placement):
        kept, it.formats.has_reverse = it.formats.has_reverse, lambda network, link: True
        try:
            return right(base, placement)
        finally:
            it.formats.has_reverse = kept
    it.admits = admits


def loses_none_by_an_affinity(it):
    right = it.admits
    it.admits = lambda base, placement: right(
        base, it.Placement({**placement.request, "exclude_any": 0, "include_any": 0, "include_all": 0}, placement.route))


def loses_none_whose_link_leads_elsewhere(it):
    right = it.admits

    def admits(base, placement):
        now = tuple(base.links.get(it.key_of(link), link) for link in placement.route)
        return right(base, it.Placement(placement.request, now))
    it.admits = admits


def loses_those_whose_link_is_renumbered(it):
    right = it.admits
    it.admits = lambda base, placement: right(base, placement) and all(
        base.links[it.key_of(link)]["remote"] == link["remote"] for link in placement.route if "remote" in link)


def looks_at_the_first_link_of_a_route_alone(it):
    right = it.admits
    it.admits = lambda base, placement: right(base, it.Placement(placement.request, placement.route[:1]))


def names_lost_ones_before_over(it):
    right = it.Book.end
    it.Book.end = lambda book, changes, content: sorted(right(book, changes, content),
                                                        key=lambda line: ["lost", "over", "base"].index(line.split()[0]))


def says_the_base_before_what_it_does(it):
    right = it.Book.end

    def end(book, changes, content):
        lines = right(book, changes, content)
        return [*lines[-1:], *lines[:-1]]
    it.Book.end = end


def numbers_base_batches_by_versions(it):
    right = it.Book.end

    def end(book, changes, content):
        book.batches = book.version
        return right(book, changes, content)
    it.Book.end = end


def raises_no_version_by_a_release(it):
    right = it.Book.release

    def release(book, name):
        line = right(book, name)
        book.version -= 1
        return line.rpartition("v")[0] + f"v{book.version}"
    it.Book.release = release


def raises_no_version_where_one_is_moved(it):
    right = it.Book.place

    def place(book, request):
        is_moved = len(book.others(request["id"])) < len(book.placements)
        line = right(book, request)
        if is_moved and " route " in line:
            book.version -= 1
            line = line.replace(f" v{book.version + 1} ", f" v{book.version} ")
        return line
    it.Book.place = place


def raises_the_version_without_a_route(it):
    right = it.Book.place

    def place(book, request):
        line = right(book, request)
        if " route " not in line:
            book.version += 1
            line = line.replace(f" v{book.version - 1} ", f" v{book.version} ")
        return line
    it.Book.place = place


def says_the_version_before_a_place(it):
    right = it.Book.place

    def place(book, request):
        line = right(book, request)
        return line.replace(f" v{book.version} ", f" v{book.version - 1} ") if " route " in line else line
    it.Book.place = place


def releases_where_there_is_nothing(it):
    right = it.Book.release

    def release(book, name):
        try:
            return right(book, name)
        except it.Refused:
            book.version += 1
            return f"released {name} v{book.version}"
    it.Book.release = release


def is_full_for_an_id_that_is_there(it):
    right = it.Book.place

    def place(book, request):
        if len(book.placements) == it.MOST_PLACEMENTS:
            raise it.Refused("full")
        return right(book, request)
    it.Book.place = place


def is_full_only_for_a_route(it):
    right = it.Book.place

    def place(book, request):
        outcome = it.effective(book.base, book.others(request["id"])).outcome(request)
        return f"place {request['id']} v{book.version} {outcome}" if isinstance(outcome, str) else right(book, request)
    it.Book.place = place


def counts_the_links_of_the_route_that_is_moved(it):
    right = it.Book.place

    def place(book, request):
        own = sum(len(placed.route) for placed in book.placements if placed.request["id"] == request["id"])
        most, it.MOST_ROUTES_LINKS = it.MOST_ROUTES_LINKS, it.MOST_ROUTES_LINKS - own
        try:
            return right(book, request)
        finally:
            it.MOST_ROUTES_LINKS = most
    it.Book.place = place


def takes_one_link_of_routes_too_few(it):
    right = it.Book.place

    def place(book, request):
        it.MOST_ROUTES_LINKS -= 1
        try:
            return right(book, request)
        finally:
            it.MOST_ROUTES_LINKS += 1
    it.Book.place = place


def takes_a_route_one_link_too_long(it):
    right = it.Book.place

    def place(book, request):
        it.MOST_PLACED_LINKS += 1
        try:
            return right(book, request)
        finally:
            it.MOST_PLACED_LINKS -= 1
    it.Book.place = place


def looks_at_the_length_of_a_route_last(it):
    right = it.Book.place

    def place(book, request):
        most, it.MOST_PLACED_LINKS = it.MOST_PLACED_LINKS, 2 ** 64
        kept = book.placements, book.version
        try:
            line = right(book, request)
        finally:
            it.MOST_PLACED_LINKS = most
        if book.version > kept[1] and len(book.placements[-1].route) > most:
            book.placements, book.version = kept
            raise it.Refused("long")
        return line
    it.Book.place = place


def ends_well_after_refused_places(it):
    right = it.book
    it.book = lambda rows: forgiven(right(rows), ("place ", "release "))


def ends_badly_where_there_is_no_route(it):
    right = it.book

    def book(rows):
        status, lines = right(rows)
        return 2 if any(line.endswith(" none") for line in lines) else status, lines
    it.book = book
