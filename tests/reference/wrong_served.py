"""Wrong servers of a book: tests/reference/served_books.py with one rule turned."""
from reference.turning import rebound

CHANGES = "[*gone, *come]"


# ---- what a batch changes


def publishes_what_the_base_has(it):
    it.changes_of = rebound(it.changes_of, "books.effective(after.base, after.placements).links", "after.base.links")


def publishes_a_base_batch_as_it_came(it):
    it.changes_of = rebound(it.changes_of, 'left[key_of(change)] if kind == "put" else change', "change")


def publishes_a_base_batch_in_the_order_of_its_keys(it):
    it.changes_of = rebound(it.changes_of, "for kind, change in changes]", "for kind, change in sorted(changes, key=str)]")


def leaves_out_the_old_route(it):
    it.changes_of = rebound(it.changes_of, CHANGES, "(come or gone)")


def leaves_out_the_old_route_of_a_release_alone(it):
    it.changes_of = rebound(it.changes_of, CHANGES, "come and [*gone, *come]")


def leaves_out_the_new_route(it):
    it.changes_of = rebound(it.changes_of, CHANGES, "(gone or come)")


def puts_the_new_route_before_the_old_one(it):
    it.changes_of = rebound(it.changes_of, CHANGES, "[*come, *gone]")


def puts_keys_in_their_order(it):
    it.changes_of = rebound(it.changes_of, "for key in keys if", "for key in sorted(keys) if")


def puts_a_key_of_both_routes_twice(it):
    it.changes_of = rebound(it.changes_of, "dict.fromkeys(", "list(")


def puts_only_what_changes(it):
    it.changes_of = rebound(it.changes_of, "if key in left]", "if key in left and left[key] != books.effective("
                            "before.base, before.placements).links[key]]")


def leaves_out_a_key_that_leads_elsewhere(it):
    it.changes_of = rebound(it.changes_of, "for link in placement.route)", "for link in placement.route "
                            'if left.get(key_of(link), link)["to"] == link["to"])')


def publishes_no_batch_without_changes(it):
    right = it.changes_of

    def publish(self, before, after, changes):
        if right(before, after, changes):
            method(self, before, after, changes)
        else:
            after.version -= 1
    method, it.Server.publish = it.Server.publish, publish


# ---- numbers and beginnings


def numbers_batches_of_the_journal_as_those_of_the_base(it):
    it.Server.publish = rebound(it.Server.publish, "after.version", "after.batches")


def counts_the_versions_of_a_beginning(it):
    it.Server.__init__ = rebound(it.Server.__init__, "self.first = self.book.version = len(self.networks) - 1",
                                 "self.first = len(self.networks) - 1")


def begins_at_no_version(it):
    it.Server.__init__ = rebound(it.Server.__init__, "self.first = self.book.version = len(self.networks) - 1",
                                 "self.first = self.book.version = 0")


def numbers_the_base_anew_behind_a_beginning(it):
    it.Server.__init__ = rebound(it.Server.__init__, "self.first = self.book.version", "self.book.batches = self.first = self.book.version")


def begins_with_what_the_base_has(it):
    it.Server.__init__ = rebound(it.Server.__init__, "runs.snapshot_of(effective)", "runs.snapshot_of(self.book.base)")


def begins_without_a_snapshot(it):
    it.Server.run = rebound(it.Server.run, '"", self.snapshot)', '"", "")')


def keeps_a_snapshot_of_a_beginning(it):
    it.Server.run = rebound(it.Server.run, '"", self.snapshot)', "self.snapshot, self.snapshot)")


def says_nothing_over_of_a_beginning(it):
    it.Server.run = rebound(it.Server.run, "[Served(self.begun,", "[Served(self.begun * self.status,")


def says_over_in_the_order_of_placements(it):
    it.Server.__init__ = rebound(it.Server.__init__, "sorted(self.book.base.links.items())]", "sorted(self.book.base.links.items(), "
                                 "key=lambda one: -one[0][0])]")


def says_over_of_what_is_left(it):
    it.Server.__init__ = rebound(it.Server.__init__, "sorted(self.book.base.links.items())]", "sorted(effective.links.items())]")


def reads_on_behind_a_refused_beginning(it):
    right = it.Server.run

    def run(self, rows):
        if not self.status:
            return right(self, rows)
        return self.status, [it.Served(self.begun, "", ""), *right(it.Server(), rows)[1]]
    it.Server.run = run


# ---- faults


def keeps_no_row_whose_batch_is_torn(it):
    right = it.Server.walked

    def walked(self, rows, found):
        for step in right(self, rows, found):
            if step.is_refused:
                found[-1] = found[-1]._replace(kept="")
            yield step
    it.Server.walked = walked


def counts_a_fault_of_the_journal_from_its_start(it):
    it.Server.publish = rebound(it.Server.publish, 'f"journal {len(self.written)}"', 'f"journal {after.version * 100}"')


def goes_on_behind_a_fault_of_the_journal(it):
    it.Server.publish = rebound(it.Server.publish, "raise Fault", "raise books.Refused")


def makes_a_version_of_a_row_that_is_not_in_the_journal(it):
    it.Server.publish = rebound(it.Server.publish, 'raise Fault(f"journal {len(self.written)}")', "pass")
