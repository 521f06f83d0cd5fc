"""Wrong books: how rows held, offer, show and left are read, and what a held row does, with one rule turned."""
from reference.turning import rebound

ROUTE = "(?:[0-9A-Fa-f]{16})+"


# ---- rows


def reads_half_a_link_of_a_route(it):
    right = it.route
    it.route = lambda field, head, tail: right(field[:len(field) // 16 * 16], head, tail)


def reads_no_route_in_upper_case(it):
    it.route = rebound(it.route, ROUTE, "(?:[0-9a-f]{16})+")


def reads_no_route_in_lower_case(it):
    it.route = rebound(it.route, ROUTE, "(?:[0-9A-F]{16})+")


def reads_a_route_up_to_a_line_feed(it):
    it.route = rebound(it.route, 're.fullmatch("(?:[0-9A-Fa-f]{16})+", field)', 're.match("(?:[0-9A-Fa-f]{16})+$", field)')


def reads_a_route_without_links(it):
    right = it.route
    it.route = lambda field, head, tail: right(field, head, tail) if field else ()


def reads_a_route_to_any_router(it):
    it.route = rebound(it.route, "if router != tail:", "if False:")


def reads_a_route_that_passes_the_tail_end(it):
    it.route = rebound(it.route, "if router != tail:", 'if all(link["to"] != tail for link in links):')


def reads_the_router_of_a_link_first(it):
    it.route = rebound(it.route, "for local, to in", "for to, local in")


def reads_the_bytes_of_an_address_backwards(it):
    right = it.route

    def route(field, head, tail):
        return tuple({**link, "local": int.from_bytes(link["local"].to_bytes(4, "big"), "little")} for link in right(field, head, tail))
    it.route = route


def begins_each_link_of_a_route_at_the_head_end(it):
    right = it.route
    it.route = lambda field, head, tail: tuple({**link, "from": head} for link in right(field, head, tail))


def looks_at_a_route_before_the_other_fields(it):
    right = it.held

    def held(fields):
        if not it.re.fullmatch(ROUTE, fields[10]):
            raise it.Refused("route")
        return right(fields)
    it.held = held


def looks_at_a_route_before_the_ends(it):
    right = it.held

    def held(fields):
        try:
            return right(fields)
        except it.Refused as words:
            if str(words) == "same-ends":
                it.route(fields[10], it.formats.address(fields, 3), it.formats.address(fields, 4))
            raise
    it.held = held


def reads_a_held_row_without_a_route(it):
    right = it.row
    it.row = lambda fields: right([*fields, ""] if fields[0] == "held" and len(fields) == 10 else fields)


def takes_more_fields_of_a_held_row(it):
    right = it.row
    it.row = lambda fields: right(fields[:11] if fields[0] == "held" else fields)


def takes_more_fields_of_an_offer(it):
    right = it.row
    it.row = lambda fields: right(fields[:10] if fields[0] == "offer" else fields)


def takes_more_fields_of_a_show(it):
    right = it.row
    it.row = lambda fields: right(fields[:2] if fields[0] == "show" else fields)


def takes_more_fields_of_a_left(it):
    right = it.row
    it.row = lambda fields: right(fields[:3] if fields[0] == "left" else fields)


# ---- held rows


def looks_for_the_id_before_the_version(it):
    right = it.Book.restore

    def restore(book, request, links):
        if len(book.others(request["id"])) < len(book.placements):
            raise it.Refused("same-id")
        return right(book, request, links)
    it.Book.restore = restore


def looks_for_room_before_the_id(it):
    right = it.Book.restore

    def restore(book, request, links):
        if book.version < it.MOST_PLACING_VERSIONS and len(book.placements) == it.MOST_PLACEMENTS:
            raise it.Refused("full")
        return right(book, request, links)
    it.Book.restore = restore


def looks_at_the_length_of_a_held_route_first(it):
    right = it.Book.restore

    def restore(book, request, links):
        if len(links) > it.MOST_PLACED_LINKS:
            raise it.Refused("long")
        return right(book, request, links)
    it.Book.restore = restore


def looks_at_the_length_of_a_held_route_before_room(it):
    right = it.Book.restore

    def restore(book, request, links):
        try:
            return right(book, request, links)
        except it.Refused as words:
            raise it.Refused("long" if str(words) == "full" and len(links) > it.MOST_PLACED_LINKS else words)
    it.Book.restore = restore


def looks_for_links_that_are_used_twice_before_the_length(it):
    right = it.Book.restore

    def restore(book, request, links):
        try:
            return right(book, request, links)
        except it.Refused as words:
            is_twice = len({it.key_of(link) for link in links}) < len(links)
            raise it.Refused("twice" if str(words) == "long" and is_twice else words)
    it.Book.restore = restore


def counts_all_links_before_it_looks_for_twice(it):
    right = it.Book.restore

    def restore(book, request, links):
        try:
            return right(book, request, links)
        except it.Refused as words:
            count = sum(len(placed.route) for placed in book.placements) + len(links)
            raise it.Refused("links" if str(words) == "twice" and count > it.MOST_ROUTES_LINKS else words)
    it.Book.restore = restore


def restores_at_the_last_version(it):
    it.Book.restore = rebound(it.Book.restore, ">= MOST_PLACING_VERSIONS", "> MOST_PLACING_VERSIONS")


def restores_one_placement_too_many(it):
    it.Book.restore = rebound(it.Book.restore, "== MOST_PLACEMENTS", "== MOST_PLACEMENTS + 1")


def restores_a_route_one_link_too_long(it):
    it.Book.restore = rebound(it.Book.restore, "> MOST_PLACED_LINKS", "> MOST_PLACED_LINKS + 1")


def restores_no_route_at_the_limit(it):
    it.Book.restore = rebound(it.Book.restore, "> MOST_PLACED_LINKS", ">= MOST_PLACED_LINKS")


def restores_one_link_too_many(it):
    it.Book.restore = rebound(it.Book.restore, "> MOST_ROUTES_LINKS", "> MOST_ROUTES_LINKS + 1")


def restores_one_link_too_few(it):
    it.Book.restore = rebound(it.Book.restore, "> MOST_ROUTES_LINKS", ">= MOST_ROUTES_LINKS")


def moves_a_placement_by_a_held_row(it):
    right = it.Book.restore

    def restore(book, request, links):
        kept, book.placements = book.placements, book.others(request["id"])
        try:
            return right(book, request, links)
        except it.Refused:
            book.placements = kept
            raise
    it.Book.restore = restore


def restores_a_route_that_uses_a_link_twice(it):
    it.Book.restore = rebound(it.Book.restore, "{key_of(link) for link in links}", "list(links)")


def takes_a_link_that_leads_elsewhere_for_another_one(it):
    it.Book.restore = rebound(it.Book.restore, "{key_of(link) for link in links}", '{(key_of(link), link["to"]) for link in links}')


def takes_links_of_one_router_for_one(it):
    it.Book.restore = rebound(it.Book.restore, "{key_of(link) for link in links}", '{link["from"] for link in links}')


def takes_links_with_one_local_address_for_one(it):
    it.Book.restore = rebound(it.Book.restore, "{key_of(link) for link in links}", '{link["local"] for link in links}')


def restores_the_links_of_the_base_alone(it):
    right = it.Book.restore
    it.Book.restore = lambda book, request, links: right(
        book, request, tuple(link for link in links if it.key_of(link) in book.base.links))


def restores_no_route_that_the_base_lacks(it):
    right = it.Book.restore

    def restore(book, request, links):
        if any(it.key_of(link) not in book.base.links for link in links):
            raise it.Refused("absent")
        return right(book, request, links)
    it.Book.restore = restore


def restores_no_route_that_the_base_does_not_admit(it):
    right = it.Book.restore

    def restore(book, request, links):
        known = [link for link in links if it.key_of(link) in book.base.links]
        if not all(it.formats.accepts(book.base.links[it.key_of(link)], {**request, "bandwidth": 0}) for link in known):
            raise it.Refused("none")
        return right(book, request, links)
    it.Book.restore = restore


def restores_no_route_without_room(it):
    right = it.Book.restore

    def restore(book, request, links):
        if list(it.made_over(book.base, book.placements, it.Placement(request, links))):
            raise it.Refused("over")
        return right(book, request, links)
    it.Book.restore = restore


def restores_the_least_route(it):
    right = it.Book.restore

    def restore(book, request, links):
        found = book.base.outcome({**request, "bandwidth": 0})
        return right(book, request, links if isinstance(found, str) else found)
    it.Book.restore = restore


def finds_a_held_route_only_where_it_was_there_at_first(it):
    right, admits = it.Book.restore, it.admits

    def restore(book, request, links):
        is_there = admits(book.base, it.Placement(request, links))
        return right(book, {**request, "is_there": is_there}, links)
    it.Book.restore = restore
    it.admits = lambda base, placement: admits(base, placement) and placement.request.get("is_there", True)


def raises_no_version_by_a_held_row(it):
    it.Book.restore = rebound(it.Book.restore, "self.version + 1", "self.version")


def says_the_version_before_a_held_row(it):
    it.Book.restore = rebound(it.Book.restore, " v{self.version}", " v{self.version - 1}")


def says_over_behind_a_held_row(it):
    right = it.Book.restore

    def restore(book, request, links):
        lines = right(book, request, links)
        return [*lines[-1:], *lines[:-1]]
    it.Book.restore = restore


def says_no_over_of_a_held_row(it):
    it.made_over = lambda base, placements, more: []


def says_over_of_a_held_row_where_it_was_over_before(it):
    it.made_over = rebound(it.made_over, "before[priority] <= ", "")


def says_no_over_where_the_others_count_all_that_there_is(it):
    it.made_over = rebound(it.made_over, "[priority] <= base", "[priority] < base")


def says_over_of_a_held_row_where_it_is_just_enough(it):
    it.made_over = rebound(it.made_over, " < after", " <= after")


def says_over_of_a_held_row_by_the_effective_figures(it):
    it.made_over = rebound(it.made_over, 'base.links[key]["free"][priority]', 'min(base.links[key]["free"][:priority + 1])')


def says_over_of_a_held_row_at_the_first_priority_alone(it):
    right = it.made_over

    def made_over(base, placements, more):
        said = set()
        for line in right(base, placements, more):
            if line.split()[1] not in said:
                said.add(line.split()[1])
                yield line
    it.made_over = made_over


def says_over_of_a_held_row_at_priority_7_alone(it):
    right = it.made_over
    it.made_over = lambda base, placements, more: [line for line in right(base, placements, more) if line.endswith(" 7")]


def says_over_of_a_held_row_by_priority_and_then_by_link(it):
    right = it.made_over
    it.made_over = lambda base, placements, more: sorted(right(base, placements, more), key=lambda line: line.split()[-1])


def says_over_of_a_held_row_in_the_order_of_keys(it):
    right = it.made_over
    it.made_over = lambda base, placements, more: right(base, placements, it.Placement(more.request, sorted(more.route, key=it.key_of)))


def says_over_of_links_that_the_base_lacks(it):
    right = it.made_over

    def made_over(base, placements, more):
        lacking = {it.key_of(link): {"free": it.NOTHING} for link in more.route}
        return right(it.Network({**lacking, **base.links}), placements, more)
    it.made_over = made_over


def says_no_over_of_a_link_that_leads_elsewhere(it):
    it.made_over = rebound(it.made_over, "if key in base.links:", 'if key in base.links and base.links[key]["to"] == link["to"]:')
