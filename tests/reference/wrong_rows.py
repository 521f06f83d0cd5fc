"""Wrong programs: how rows and hops are read, with one rule turned."""
import re


def reads_leading_zeros(it):
    it.DECIMAL = "[0-9]+"


def reads_addresses_with_leading_zeros(it):
    it.ADDRESS = it.ADDRESS.replace("[1-9]?[0-9]", "0{0,2}[0-9]{1,2}")


def reads_quotes_as_bytes(it):
    it.FIELD = re.compile("()([^,\r\n]*)")


def drops_what_stands_behind_quotes(it):
    right = it.field_from

    def field_from(stream, at):
        field, end = right(stream, at)
        quoted = re.compile(it.QUOTED).match(stream, at)
        return (quoted[1].replace('""', '"') if quoted else field), end
    it.field_from = field_from


def ends_quotes_at_the_first(it):
    it.FIELD = re.compile('(?:"([^"]*)(?:"|\\Z))?([^,\r\n]*)')


def keeps_a_byte_order_mark(it):
    it.BYTE_ORDER_MARK = "\udcff"


def drops_each_byte_order_mark(it):
    right = it.row
    it.row = lambda fields: right([re.sub("^\xef\xbb\xbf", "", fields[0]), *fields[1:]])


def ends_rows_at_line_feeds_alone(it):
    right = it.records
    it.FIELD = re.compile(it.FIELD.pattern.replace("\r", ""))
    it.records = lambda stream: right(stream.replace("\r", "\f")) if "\r" in stream else right(stream)


def leaves_comments_out(it):
    right = it.records
    it.records = lambda stream: (fields for fields in right(stream) if not fields[0].startswith("#"))


def trims_fields(it):
    right = it.row
    it.row = lambda fields: right([field.strip(" ") for field in fields])


def reads_no_last_row_without_a_line_feed(it):
    right = it.records
    it.records = lambda stream: right(stream[:stream.rfind("\n") + 1])


def counts_fields_after_reading_them(it):
    right = it.row

    def row(fields):
        kinds = {"put": 15, "drop": 3, "node": 3, "end": 3, "ask": 10}
        if fields[0] in kinds and len(fields) > kinds[fields[0]]:
            right(fields[:kinds[fields[0]]])
        return right(fields)
    it.row = row


def looks_at_equal_ends_first(it):
    right = it.ask

    def ask(fields):
        if it.address(fields, 3) == it.address(fields, 4):
            raise it.Refused("same-ends")
        return right(fields)
    it.ask = ask


def names_a_priority_as_a_number(it):
    def priority(fields, field):
        if it.number(fields, field, 32) > 7:
            raise it.Refused(f"number {field}")
        return it.number(fields, field, 32)
    it.priority = priority


def reads_numbers_of_33_bits(it):
    right = it.number
    it.number = lambda fields, field, bits: right(fields, field, 33 if bits == 32 else bits)


def reads_numbers_of_65_bits(it):
    right = it.number
    it.number = lambda fields, field, bits: right(fields, field, 65 if bits == 64 else bits)


def reads_masks_of_any_length(it):
    right = it.mask
    it.mask = lambda fields, field: right([*fields[:field - 1], re.sub("^0x0+(?=[0-9a-fA-F])", "0x", fields[field - 1])], field)


def reads_upper_case_masks(it):
    right = it.mask
    it.mask = lambda fields, field: right([*fields[:field - 1], fields[field - 1].replace("0X", "0x")], field)


def joins_spaces_between_hops(it):
    right = it.hop_list
    it.hop_list = lambda text: right(re.sub(" +", " ", text))


def names_a_bad_hop_before_too_many(it):
    right = it.hop_list

    def hop_list(text):
        for place, part in enumerate(text.split(" "), 1):
            it.hop(part, place)
        return right(text)
    it.hop_list = hop_list


def reads_eight_hops(it):
    it.MOST_HOPS = 8


def looks_at_sublengths_before_types(it):
    right = it.hop_of_subobject

    def hop_of_subobject(data):
        if len(data) < 8 or data[1] != 8:
            raise it.Refused("hops ero sublength")
        return right(data)
    it.hop_of_subobject = hop_of_subobject


def refuses_padding(it):
    right = it.hop_of_subobject

    def hop_of_subobject(data):
        found = right(data)
        if data[7] != 0:
            raise it.Refused("hops ero sublength")
        return found
    it.hop_of_subobject = hop_of_subobject


def looks_at_the_class_before_the_length(it):
    right = it.hops_of_object

    def hops_of_object(data):
        if len(data) >= 4 and (data[2], data[3]) != (20, 1):
            raise it.Refused("hops ero class")
        return right(data)
    it.hops_of_object = hops_of_object
