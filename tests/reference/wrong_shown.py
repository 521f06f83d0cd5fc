"""Wrong books: offers, what is shown, what is kept of the rows, and the status, with one rule turned."""
from reference.turning import forgiven, rebound


# ---- offers


def places_what_it_offers(it):
    it.Book.offer = lambda book, request: book.place(request).replace("place", "offer", 1)


def says_the_version_that_a_place_would_make(it):
    it.Book.offer = lambda book, request: it.copy.copy(book).place(request).replace("place", "offer", 1)


def offers_beside_the_placement_of_its_id(it):
    right = it.Book.offer

    def offer(book, request):
        known = {placed.request["id"] for placed in book.placements}
        other = next(name for name in range(2 ** 64) if name not in known)
        return right(book, {**request, "id": other}).replace(f" {other} ", f" {request['id']} ", 1)
    it.Book.offer = offer


def offers_what_the_base_has(it):
    def offer(book, request):
        empty = it.copy.copy(book)
        empty.placements = []
        return f"offer {request['id']} v{book.version} {empty.place(request).split(' ', 3)[3]}"
    it.Book.offer = offer


def offers_at_the_holding_priority(it):
    right = it.Book.offer
    it.Book.offer = lambda book, request: right(book, {**request, "setup": request["hold"]})


def offers_what_it_would_not_place(it):
    right = it.Book.offer

    def offer(book, request):
        try:
            return right(book, request)
        except it.Refused:
            outcome = it.effective(book.base, book.others(request["id"])).outcome(request)
            return f"offer {request['id']} v{book.version} {it.formats.outcome_text(request, outcome)}"
    it.Book.offer = offer


# ---- show and left


def shows_what_the_links_lead_to(it):
    it.far_text = lambda link: it.address_text(link["to"])
    it.Book.show = rebound(it.Book.show, "map(key_text, links)", "map(far_text, links)")


def shows_the_setup_priority(it):
    it.Book.show = rebound(it.Book.show, "request['hold']", "request['setup']")


def shows_a_placement_that_is_not_there(it):
    right = it.Book.show

    def show(book, name):
        try:
            return right(book, name)
        except it.Refused:
            return f"show {name} v{book.version}"
    it.Book.show = show


def leaves_a_space_behind_the_links(it):
    right = it.Book.show
    it.Book.show = lambda book, name: right(book, name) + " "


def says_the_effective_figures_of_the_base(it):
    it.Book.left = rebound(it.Book.left, 'self.base.links[key]["free"]', 'effective(self.base, []).links[key]["free"]')


def says_what_a_link_has_left_at_each_priority_alone(it):
    right = it.Book.left

    def left(book, asked):
        kept, it.figures = it.figures, lambda free, held: [max(0, has - less) for has, less in zip(free, held)]
        try:
            return right(book, asked)
        finally:
            it.figures = kept
    it.Book.left = left


def says_at_most_what_a_link_has_of_what_is_counted(it):
    it.Book.left = rebound(it.Book.left, "counted(self.placements).get(key, NOTHING)",
                           '[min(pair) for pair in zip(counted(self.placements).get(key, NOTHING), self.base.links[key]["free"])]')


def knows_a_link_that_only_a_placement_has(it):
    right = it.Book.left

    def left(book, asked):
        key, kept = it.key_of(asked), book.base
        if key not in kept.links and key in it.counted(book.placements):
            book.base = it.Network({**kept.links, key: {**asked, "free": it.NOTHING}})
        try:
            return right(book, asked)
        finally:
            book.base = kept
    it.Book.left = left


def knows_a_link_by_its_far_end(it):
    right = it.Book.left

    def left(book, asked):
        links = [link for link in book.base.links.values() if link["remote"] == asked["local"] and link["to"] == asked["from"]]
        return right(book, links[0]) if it.key_of(asked) not in book.base.links and links else right(book, asked)
    it.Book.left = left


# ---- what is kept


def restores_after_a_fault(it):
    it.STOPPED = [kind for kind in it.STOPPED if kind != "held"]


def offers_after_a_fault(it):
    it.STOPPED = [kind for kind in it.STOPPED if kind != "offer"]


def shows_nothing_after_a_fault(it):
    it.STOPPED = [*it.STOPPED, "show"]


def says_nothing_of_links_after_a_fault(it):
    it.STOPPED = [*it.STOPPED, "left"]


def keeps_offers(it):
    accepted = "if book.version > before.version:"
    it.walked = rebound(it.walked, accepted, f'if kind == "offer":\n                kept, room = text, room - len(text)\n'
                                             f"            {accepted}")


def keeps_no_held_rows(it):
    it.walked = rebound(it.walked, "if book.version > before.version:", 'if book.version > before.version and kind != "held":')


def says_over_of_a_held_row_that_is_not_kept(it):
    it.walked = rebound(it.walked, 'lines, is_refused = [f"{subject} refused: {words}"], True',
                        'lines, is_refused = [*lines[:-1], f"{subject} refused: {words}"], True')


# ---- the status


def ends_well_after_refused_held_rows(it):
    right = it.book
    it.book = lambda rows: forgiven(right(rows), "held ")


def ends_well_after_refused_offers(it):
    right = it.book
    it.book = lambda rows: forgiven(right(rows), "offer ")


def ends_well_where_no_placement_is_shown(it):
    right = it.book
    it.book = lambda rows: forgiven(right(rows), "show ")


def ends_well_where_no_link_has_anything_left(it):
    right = it.book
    it.book = lambda rows: forgiven(right(rows), "left ")
