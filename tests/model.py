"""A model of document 01, written from its sentences: the image check, types, rows, row bytes, and the session; and of what
document 02 adds, the first unequal row of two ranges, text that is UTF-8 (RFC 3629), the comparison at fewer digits, Map
names at every depth, and the image that is built of written rows.

It is the second opinion that the proved program is held to, so it shares nothing with it: numbers are Python's, rows are
tuples, and speed is no aim.
"""

NULL, BOOLEAN = 0, 1
DECIMAL32, DECIMAL64 = 15, 16
UTF8, BINARY, LARGE_UTF8, LARGE_BINARY, FIXED_SIZE_BINARY, UTF8_VIEW, BINARY_VIEW = 26, 27, 28, 29, 30, 31, 32
LIST, LARGE_LIST, LIST_VIEW, LARGE_LIST_VIEW, FIXED_SIZE_LIST, STRUCT = 33, 34, 35, 36, 37, 38
DENSE_UNION, SPARSE_UNION, DICTIONARY, MAP, RUN_END_ENCODED = 39, 40, 41, 42, 43

LAST_CODE = RUN_END_ENCODED

# The sizes of the header, of a node's record and of a buffer's entry. These, the fields and the limits below are read from
# document 01 once more: what lays images out (tests/image.py) has its own, and neither takes anything from the other.
HEADER, RECORD, ENTRY = 4, 44, 8

# The fields of a record: place and width.
FIELDS = {
    "code": (0, 1),
    "flags": (1, 1),
    "id": (2, 1),
    "name_length": (3, 1),
    "p1": (4, 4),
    "p2": (8, 4),
    "length": (12, 4),
    "offset": (16, 4),
    "name_place": (20, 4),
    "bitmap_place": (24, 4),
    "bitmap_length": (28, 4),
    "first_bit": (32, 4),
    "first_child": (36, 2),
    "child_count": (38, 2),
    "first_buffer": (40, 2),
    "buffer_count": (42, 2),
}
SIGNED = {"p1", "p2"}

NULLABLE, HAS_BITMAP = 1, 2

LONGEST_IMAGE = 16_777_216
MOST_NODES, MOST_BUFFERS, MOST_ELEMENTS = 256, 1_024, 1_073_741_824
DEEPEST, LONGEST_NAME, LAST_ID = 16, 64, 127
# the width of a FixedSizeBinary, the rows of a FixedSizeList
WIDEST = 16_777_216

# a view, and the longest text that stands in it
VIEW, INLINE = 16, 12

# how many digits may be dropped
MOST_DIGITS = 9

# the widths of the codes 2 to 25
WIDTHS = {2: 1, 3: 2, 4: 4, 5: 8, 6: 1, 7: 2, 8: 4, 9: 8, 10: 2, 11: 4, 12: 8, 13: 4, 14: 8}
WIDTHS |= {15: 4, 16: 8, 17: 16, 18: 32, 19: 4, 20: 8, 21: 8, 22: 8, 23: 4, 24: 8, 25: 16}

# (lowest, highest) p1 of the codes that use it
P1 = {15: (1, 9), 16: (1, 18), 17: (1, 38), 18: (1, 76), 19: (0, 1), 20: (2, 3), 21: (0, 3), 22: (0, 3)}
P1 |= {30: (0, WIDEST), 37: (0, WIDEST), 41: (2, 9), 42: (0, 1)}

OFFSET_WIDTH = {UTF8: 4, BINARY: 4, LARGE_UTF8: 8, LARGE_BINARY: 8, LIST: 4, LARGE_LIST: 8, LIST_VIEW: 4, LARGE_LIST_VIEW: 8, MAP: 4}

TEXTS = {UTF8, BINARY, LARGE_UTF8, LARGE_BINARY}
VIEWS = {UTF8_VIEW, BINARY_VIEW}
# the texts that are UTF-8
UTF8S = {UTF8, LARGE_UTF8, UTF8_VIEW}
LISTS = {LIST, LARGE_LIST, MAP}
LIST_VIEWS = {LIST_VIEW, LARGE_LIST_VIEW}
UNIONS = {DENSE_UNION, SPARSE_UNION}

# the codes whose rows may be read back, and the texts among them that are to be UTF-8
READABLE = {*range(FIXED_SIZE_BINARY + 1), LIST, LARGE_LIST, STRUCT}
READ_AS_UTF8 = {UTF8, LARGE_UTF8}


# RFC 3629, section 4: the letters (UTF8-char), for each alternative the range of each byte.
TAIL = (0x80, 0xBF)
LETTERS = [
    # UTF8-1
    [(0x00, 0x7F)],
    # UTF8-2
    [(0xC2, 0xDF), TAIL],
    # UTF8-3
    [(0xE0, 0xE0), (0xA0, 0xBF), TAIL],
    [(0xE1, 0xEC), TAIL, TAIL],
    [(0xED, 0xED), (0x80, 0x9F), TAIL],
    [(0xEE, 0xEF), TAIL, TAIL],
    # UTF8-4
    [(0xF0, 0xF0), (0x90, 0xBF), TAIL, TAIL],
    [(0xF1, 0xF3), TAIL, TAIL, TAIL],
    [(0xF4, 0xF4), (0x80, 0x8F), TAIL, TAIL],
]


def letter_at(text, at):
    """How many bytes the letter has that begins at a place of a text; 0 where none does."""
    for letter in LETTERS:
        part = text[at : at + len(letter)]
        if len(part) == len(letter) and all(low <= byte <= high for byte, (low, high) in zip(part, letter)):
            return len(letter)
    return 0


def well_formed(text):
    """Whether a text is letters, one after the other (UTF8-octets)."""
    at = 0
    while at < len(text):
        size = letter_at(text, at)
        if size == 0:
            return False
        at += size
    return True


def unsigned(data, at, width):
    return int.from_bytes(data[at : at + width], "little")


def signed(data, at, width):
    return int.from_bytes(data[at : at + width], "little", signed=True)


class Fault(Exception):
    """A refusal: its number, and the node of 10 to 19."""

    def __init__(self, number, node=0):
        super().__init__(number, node)
        self.number, self.node = number, node


class Record:
    """What a node's record says, under the names of FIELDS."""

    def __init__(self, data, node):
        at = HEADER + RECORD * node
        for field, (place, width) in FIELDS.items():
            setattr(self, field, (signed if field in SIGNED else unsigned)(data, at + place, width))
        self.elements = self.length + self.offset
        self.has_bitmap = self.flags & HAS_BITMAP != 0
        self.nullable = self.flags & NULLABLE != 0


class Image:
    """An image whose header and tables are whole."""

    def __init__(self, data):
        self.data = data
        if len(data) < HEADER or len(data) > LONGEST_IMAGE:
            raise Fault(10)
        n, m = unsigned(data, 0, 2), unsigned(data, 2, 2)
        entries = HEADER + RECORD * n
        if not 1 <= n <= MOST_NODES or m > MOST_BUFFERS or len(data) < entries + ENTRY * m:
            raise Fault(10)
        self.nodes = [Record(data, node) for node in range(n)]
        self.entries = [(unsigned(data, at, 4), unsigned(data, at + 4, 4)) for at in range(entries, entries + ENTRY * m, ENTRY)]

    def children(self, node):
        record = self.nodes[node]
        return range(record.first_child, record.first_child + record.child_count)

    def name(self, node):
        record = self.nodes[node]
        return self.data[record.name_place :][: record.name_length]

    def buffer(self, node, k):
        """The place and the length of buffer k of a node."""
        return self.entries[self.nodes[node].first_buffer + k]

    def number(self, node, k, width, j):
        """Element j of buffer k as an unsigned number."""
        return unsigned(self.data, self.buffer(node, k)[0] + j * width, width)

    def valid(self, node, i):
        record = self.nodes[node]
        if not record.has_bitmap:
            return True
        bit = record.first_bit + i
        return self.data[record.bitmap_place + bit // 8] >> (bit % 8) & 1 == 1

    # The faults, in the order of their numbers. Each gives the nodes that have it.

    def fault_11(self, node):
        r = self.nodes[node]
        if r.code > LAST_CODE or r.flags > NULLABLE + HAS_BITMAP:
            return True
        low, high = P1.get(r.code, (0, 0))
        if not low <= r.p1 <= high:
            return True
        if not (-128 <= r.p2 <= 127 if 15 <= r.code <= 18 else r.p2 == 0):
            return True
        return r.has_bitmap and r.code in (NULL, DENSE_UNION, SPARSE_UNION, RUN_END_ENCODED)

    def fault_12(self, node):
        r, nodes = self.nodes[node], self.nodes
        total = 1 + sum(x.child_count for x in nodes)
        if node == 0 and total != len(nodes):
            return True
        if r.code in (LIST, LARGE_LIST, LIST_VIEW, LARGE_LIST_VIEW, FIXED_SIZE_LIST, DICTIONARY, MAP):
            wrong = r.child_count != 1
        elif r.code == RUN_END_ENCODED:
            wrong = r.child_count != 2
        elif r.code in (STRUCT, DENSE_UNION, SPARSE_UNION):
            wrong = False
        else:
            wrong = r.child_count != 0
        if wrong:
            return True
        start = 1 + sum(x.child_count for x in nodes[:node])
        if r.first_child != start or not r.first_child > node or start + r.child_count > len(nodes):
            return True
        parent = self.parent(node)
        if self.depth(node) > DEEPEST:
            return True
        if r.id != 0 and (parent is None or nodes[parent].code not in UNIONS):
            return True
        if r.code in UNIONS:
            ids = [nodes[c].id for c in self.children(node)]
            if any(x > LAST_ID for x in ids) or any(x >= y for x, y in zip(ids, ids[1:])):
                return True
        if r.code == MAP:
            entries = nodes[r.first_child]
            if entries.code != STRUCT or entries.child_count != 2:
                return True
        if r.code == RUN_END_ENCODED:
            ends = nodes[r.first_child]
            if ends.code not in (3, 4, 5) or ends.has_bitmap:
                return True
        return False

    def parent(self, node):
        """The node that a node is a child of, by the formula for the numbering; none for the root or where none has it."""
        start = 1
        for k, x in enumerate(self.nodes):
            if start <= node < start + x.child_count:
                return k
            start += x.child_count
        return None

    def depth(self, node):
        depth, seen = 1, 0
        while node != 0 and seen <= len(self.nodes):
            above = self.parent(node)
            if above is None or above >= node:
                return DEEPEST + 1
            node, depth, seen = above, depth + 1, seen + 1
        return depth

    def fault_13(self, node):
        r = self.nodes[node]
        return r.name_length > LONGEST_NAME or (r.name_length > 0 and r.name_place + r.name_length > len(self.data))

    def fault_14(self, node):
        r = self.nodes[node]
        if node == 0 and sum(x.buffer_count for x in self.nodes) != len(self.entries):
            return True
        if r.code in (NULL, FIXED_SIZE_LIST, STRUCT, RUN_END_ENCODED):
            wrong = r.buffer_count != 0
        elif r.code in TEXTS or r.code in LIST_VIEWS or r.code == DENSE_UNION:
            wrong = r.buffer_count != 2
        elif r.code in VIEWS:
            wrong = r.buffer_count < 1
        else:
            wrong = r.buffer_count != 1
        start = sum(x.buffer_count for x in self.nodes[:node])
        if wrong or r.first_buffer != start or start + r.buffer_count > len(self.entries):
            return True
        size = len(self.data)
        if any(place + length > size for place, length in (self.buffer(node, k) for k in range(r.buffer_count))):
            return True
        if r.has_bitmap and r.bitmap_place + r.bitmap_length > size:
            return True
        if r.elements > MOST_ELEMENTS:
            return True
        whole = []
        if r.code in OFFSET_WIDTH:
            whole.append((0, OFFSET_WIDTH[r.code]))
        if r.code in LIST_VIEWS:
            whole.append((1, OFFSET_WIDTH[r.code]))
        if r.code == DENSE_UNION:
            whole.append((1, 4))
        if r.code == DICTIONARY:
            whole.append((0, WIDTHS[r.p1]))
        if r.code in VIEWS:
            whole.append((0, VIEW))
        return any(self.buffer(node, k)[1] % width for k, width in whole)

    def fault_15(self, node):
        r, e = self.nodes[node], self.nodes[node].elements
        if r.has_bitmap and r.first_bit + r.length > 8 * r.bitmap_length:
            return True
        lengths = [self.buffer(node, k)[1] for k in range(r.buffer_count)]
        if r.code == BOOLEAN:
            return 8 * lengths[0] < e
        if r.code in TEXTS or r.code in LISTS:
            return lengths[0] < (e + 1) * OFFSET_WIDTH[r.code]
        if r.code in LIST_VIEWS:
            return min(lengths) < e * OFFSET_WIDTH[r.code]
        if r.code in VIEWS:
            return lengths[0] < VIEW * e
        if r.code == DENSE_UNION:
            return lengths[0] < e or lengths[1] < 4 * e
        if r.code == SPARSE_UNION:
            return lengths[0] < e
        if r.code == DICTIONARY:
            return lengths[0] < e * WIDTHS[r.p1]
        if r.code == FIXED_SIZE_BINARY:
            return lengths[0] < e * r.p1
        return r.code in WIDTHS and lengths[0] < e * WIDTHS[r.code]

    def fault_16(self, node):
        r = self.nodes[node]
        lengths = [self.nodes[c].length for c in self.children(node)]
        if r.code in (STRUCT, SPARSE_UNION):
            return any(length < r.elements for length in lengths)
        if r.code == FIXED_SIZE_LIST:
            return lengths[0] < r.elements * r.p1
        return r.code == RUN_END_ENCODED and lengths[0] != lengths[1]

    def fault_17(self, node):
        r = self.nodes[node]
        width = OFFSET_WIDTH.get(r.code)
        if r.code in TEXTS or r.code in LISTS:
            end = self.buffer(node, 1)[1] if r.code in TEXTS else self.nodes[r.first_child].length
            place = self.buffer(node, 0)[0]
            offsets = [signed(self.data, place + j * width, width) for j in range(r.elements + 1)]
            return any(not 0 <= x <= end for x in offsets) or any(x > y for x, y in zip(offsets, offsets[1:]))
        if r.code in LIST_VIEWS:
            end = self.nodes[r.first_child].length
            places = [self.buffer(node, k)[0] for k in (0, 1)]
            for j in range(r.elements):
                offset, size = (signed(self.data, place + j * width, width) for place in places)
                if offset < 0 or size < 0 or offset + size > end:
                    return True
        return False

    def fault_18(self, node):
        r = self.nodes[node]
        if r.code in UNIONS:
            by_id = {self.nodes[c].id: c for c in self.children(node)}
            for j in range(r.offset, r.elements):
                child = by_id.get(self.number(node, 0, 1, j))
                if child is None:
                    return True
                if r.code == DENSE_UNION:
                    if not 0 <= signed(self.data, self.buffer(node, 1)[0] + 4 * j, 4) < self.nodes[child].length:
                        return True
        elif r.code == DICTIONARY:
            read = signed if r.p1 <= 5 else unsigned
            width, place = WIDTHS[r.p1], self.buffer(node, 0)[0]
            end = self.nodes[r.first_child].length
            for i in range(r.length):
                if self.valid(node, i) and not 0 <= read(self.data, place + (r.offset + i) * width, width) < end:
                    return True
        elif r.code in VIEWS:
            return any(self.valid(node, i) and self.bad_view(node, r.offset + i) for i in range(r.length))
        elif r.code == RUN_END_ENCODED:
            ends = self.run_ends(node)
            if any(x <= 0 for x in ends) or any(x >= y for x, y in zip(ends, ends[1:])):
                return True
            return ends[-1] < r.elements if ends else r.elements != 0
        return False

    def bad_view(self, node, j):
        data, at = self.data, self.buffer(node, 0)[0] + VIEW * j
        length = unsigned(data, at, 4)
        if length <= INLINE:
            return any(data[at + 4 + length : at + VIEW])
        buffer, offset = unsigned(data, at + 8, 4), unsigned(data, at + 12, 4)
        if 1 + buffer >= self.nodes[node].buffer_count:
            return True
        place, size = self.buffer(node, 1 + buffer)
        return offset + length > size or data[at + 4 : at + 8] != data[place + offset : place + offset + 4]

    def fault_19(self, node):
        r = self.nodes[node]
        return r.code in UTF8S and any(not well_formed(row[1]) for row in self.rows(node, 0, r.length) if row is not None)

    def run_ends(self, node):
        child = self.nodes[node].first_child
        r = self.nodes[child]
        width, place = WIDTHS[r.code], self.buffer(child, 0)[0]
        return [signed(self.data, place + (r.offset + k) * width, width) for k in range(r.length)]

    def check(self):
        for number in range(11, 20):
            for node in range(len(self.nodes)):
                if getattr(self, f"fault_{number}")(node):
                    raise Fault(number, node)

    # Rows. None is a null row; ("bytes", ..), ("text", ..), ("rows", ..), ("list", ..) and ("union", id, row) the others.

    def row(self, node, i):
        if not self.valid(node, i):
            return None
        r = self.nodes[node]
        j = r.offset + i
        data, first = self.data, r.first_child
        if r.code == NULL:
            return ("bytes", b"")
        if r.code == BOOLEAN:
            return ("bytes", bytes([data[self.buffer(node, 0)[0] + j // 8] >> (j % 8) & 1]))
        if r.code in WIDTHS or r.code == FIXED_SIZE_BINARY:
            width = WIDTHS.get(r.code, r.p1)
            place = self.buffer(node, 0)[0] + j * width
            return ("bytes", bytes(data[place : place + width]))
        if r.code in TEXTS:
            width, place = OFFSET_WIDTH[r.code], self.buffer(node, 1)[0]
            return ("text", bytes(data[place + self.number(node, 0, width, j) : place + self.number(node, 0, width, j + 1)]))
        if r.code in VIEWS:
            at = self.buffer(node, 0)[0] + VIEW * j
            length = unsigned(data, at, 4)
            place = at + 4 if length <= INLINE else self.buffer(node, 1 + unsigned(data, at + 8, 4))[0] + unsigned(data, at + 12, 4)
            return ("text", bytes(data[place : place + length]))
        if r.code in LISTS:
            width = OFFSET_WIDTH[r.code]
            return ("list", self.rows(first, self.number(node, 0, width, j), self.number(node, 0, width, j + 1)))
        if r.code in LIST_VIEWS:
            width = OFFSET_WIDTH[r.code]
            start = self.number(node, 0, width, j)
            return ("list", self.rows(first, start, start + self.number(node, 1, width, j)))
        if r.code == FIXED_SIZE_LIST:
            return ("rows", self.rows(first, j * r.p1, (j + 1) * r.p1))
        if r.code == STRUCT:
            return ("rows", tuple(self.row(c, j) for c in self.children(node)))
        if r.code in UNIONS:
            id = self.number(node, 0, 1, j)
            child = next(c for c in self.children(node) if self.nodes[c].id == id)
            return ("union", id, self.row(child, self.number(node, 1, 4, j) if r.code == DENSE_UNION else j))
        if r.code == DICTIONARY:
            return ("rows", (self.row(first, self.number(node, 0, WIDTHS[r.p1], j)),))
        run = next(k for k, end in enumerate(self.run_ends(node)) if end > j)
        return ("rows", (self.row(first + 1, run),))

    def rows(self, node, start, end):
        return tuple(self.row(node, i) for i in range(start, end))

    # Row bytes, a part at a time, so that a reader may stop.

    def written(self, node, i):
        if not self.valid(node, i):
            yield b"\x00"
            return
        yield b"\x01"
        r = self.nodes[node]
        j = r.offset + i
        first, width = r.first_child, OFFSET_WIDTH.get(r.code)
        ranges = []
        if r.code in TEXTS or r.code in VIEWS:
            text = self.row(node, i)[1]
            yield len(text).to_bytes(4, "little") + text
        elif r.code in LISTS or r.code in LIST_VIEWS:
            start = self.number(node, 0, width, j)
            count = self.number(node, 0, width, j + 1) - start if r.code in LISTS else self.number(node, 1, width, j)
            yield count.to_bytes(4, "little")
            ranges = [(first, start, count)]
        elif r.code == FIXED_SIZE_LIST:
            ranges = [(first, j * r.p1, r.p1)]
        elif r.code == STRUCT:
            ranges = [(child, j, 1) for child in self.children(node)]
        elif r.code in UNIONS:
            id = self.number(node, 0, 1, j)
            yield bytes([id])
            child = next(c for c in self.children(node) if self.nodes[c].id == id)
            ranges = [(child, self.number(node, 1, 4, j) if r.code == DENSE_UNION else j, 1)]
        elif r.code == DICTIONARY:
            ranges = [(first, self.number(node, 0, WIDTHS[r.p1], j), 1)]
        elif r.code == RUN_END_ENCODED:
            ranges = [(first + 1, next(k for k, end in enumerate(self.run_ends(node)) if end > j), 1)]
        else:
            yield self.row(node, i)[1]
        for child, start, count in ranges:
            for k in range(start, start + count):
                yield from self.written(child, k)


def types_agree(a, b, x=0, y=0, entries=False):
    """The types of node x of one image and of node y of the other; `entries` says that they are the entries of a Map, of whose
    children the names do not count."""
    r, s = a.nodes[x], b.nodes[y]
    if (r.code, r.p1, r.p2, r.child_count) != (s.code, s.p1, s.p2, s.child_count):
        return False
    flag = r.code not in (DICTIONARY, MAP)
    name = flag and not entries
    for c, d in zip(a.children(x), b.children(y)):
        u, v = a.nodes[c], b.nodes[d]
        if name and a.name(c) != b.name(d):
            return False
        if flag and u.nullable != v.nullable:
            return False
        if r.code in UNIONS and u.id != v.id:
            return False
        if not types_agree(a, b, c, d, r.code == MAP):
            return False
    return True


# The calls. An answer is (number, side, node, value).


def checked(data):
    image = Image(data)
    image.check()
    return image


def both(left, right):
    images = []
    for side, data in enumerate((left, right)):
        try:
            images.append(checked(data))
        except Fault as fault:
            return None, (fault.number, side, fault.node, 0)
    return images, None


def check(data):
    try:
        checked(data)
    except Fault as fault:
        return (fault.number, 0, fault.node, 0)
    return (0, 0, 0, 0)


def compare(left, right):
    images, refused = both(left, right)
    if refused:
        return refused
    a, b = images
    n = a.nodes[0].length
    same = types_agree(a, b) and n == b.nodes[0].length and a.rows(0, 0, n) == b.rows(0, 0, n)
    return (0, 0, 0, int(same))


def typed(left, right):
    """Both images, where their types agree."""
    images, refused = both(left, right)
    if not refused and not types_agree(*images):
        return None, (20, 0, 0, 0)
    return images, refused


def too_long(images, i, j, n):
    """How n rows of the one from row i on, and of the other from row j on, are refused; none where both have them."""
    for side, (image, start) in enumerate(zip(images, (i, j))):
        if start + n > image.nodes[0].length:
            return (21, side, 0, 0)
    return None


def ranges(left, right, i, j, n):
    """Both images, where n rows of the one from row i on may be compared with n rows of the other from row j on."""
    images, refused = typed(left, right)
    refused = refused or too_long(images, i, j, n)
    return (None, refused) if refused else (images, None)


def compare_range(left, right, i, j, n):
    images, refused = ranges(left, right, i, j, n)
    if refused:
        return refused
    a, b = images
    return (0, 0, 0, int(a.rows(0, i, i + n) == b.rows(0, j, j + n)))


def first_difference(left, right, i, j, n):
    """The value is 0 where no row differs, else one more than the first that does, counted from 0 at the start of the range."""
    images, refused = ranges(left, right, i, j, n)
    if refused:
        return refused
    a, b = images
    for k in range(n):
        if a.row(0, i + k) != b.row(0, j + k):
            return (0, 0, 0, k + 1)
    return (0, 0, 0, 0)


def of_half(below, above):
    """Which of the two whole numbers beside a half is kept of it: the one away from zero."""
    return max(below, above, key=abs)


def kept(stored, digits):
    """A whole number divided by 10 to the digits, to the nearest whole number."""
    power = 10**digits
    below, rest = divmod(stored, power)
    if 2 * rest == power:
        return of_half(below, below + 1)
    return below if 2 * rest < power else below + 1


def kept_rows(image, start, count, digits):
    """What is kept of the root's rows, decimals of 4 or 8 bytes, in two's complement; None of a null."""
    rows = image.rows(0, start, start + count)
    return [None if row is None else kept(signed(row[1], 0, len(row[1])), digits) for row in rows]


def compare_digits(left, right, i, j, n, digits):
    """The value is 1 where the rows agree once so many digits are dropped, else 0."""
    images, refused = typed(left, right)
    if refused:
        return refused
    a, b = images
    if a.nodes[0].code not in (DECIMAL32, DECIMAL64) or digits > MOST_DIGITS:
        return (22, 0, 0, 0)
    refused = too_long(images, i, j, n)
    if refused:
        return refused
    return (0, 0, 0, int(kept_rows(a, i, n, digits) == kept_rows(b, j, n, digits)))


def map_names(data):
    """The value is 1 where every Map's entries are named `entries` and its fields `key` and `value`, else 0."""
    try:
        image = checked(data)
    except Fault as fault:
        return (fault.number, 0, fault.node, 0)
    for node, record in enumerate(image.nodes):
        if record.code == MAP:
            (entries,) = image.children(node)
            if [image.name(k) for k in (entries, *image.children(entries))] != [b"entries", b"key", b"value"]:
                return (0, 0, 0, 0)
    return (0, 0, 0, 1)


def write(data, i, n, room):
    """The answer, and the bytes that are written."""
    try:
        image = checked(data)
    except Fault as fault:
        return (fault.number, 0, fault.node, 0), b""
    if i + n > image.nodes[0].length:
        return (21, 0, 0, 0), b""
    written = b""
    for k in range(i, i + n):
        for part in image.written(0, k):
            written += part
            if len(written) > room:
                return (43, 0, 0, 0), b""
    return (0, 0, 0, len(written)), written


class Reader:
    """Rows that are taken from the front of a string; 24 where it does not have them. They are rows as Image gives them."""

    def __init__(self, image, string):
        self.image, self.string, self.at = image, string, 0

    def take(self, size):
        if size > len(self.string) - self.at:
            raise Fault(24)
        self.at += size
        return self.string[self.at - size : self.at]

    def number(self):
        return unsigned(self.take(4), 0, 4)

    def one_of(self, low, high):
        """The next byte, which is one of two."""
        (byte,) = self.take(1)
        if byte not in (low, high):
            raise Fault(24)
        return byte

    def row(self, node):
        record = self.image.nodes[node]
        if self.one_of(0, 1) == 0:
            # no table writes a null of code 0
            if record.code == NULL:
                raise Fault(24)
            return None
        if record.code == BOOLEAN:
            return ("bytes", bytes([self.one_of(0, 1)]))
        if record.code in TEXTS:
            text = self.take(self.number())
            if record.code in READ_AS_UTF8 and not well_formed(text):
                raise Fault(24)
            return ("text", text)
        if record.code in LISTS:
            return ("list", tuple(self.row(record.first_child) for _ in range(self.number())))
        if record.code == STRUCT:
            return ("rows", tuple(self.row(child) for child in self.image.children(node)))
        return ("bytes", self.take(fixed_width(record)))

    def rows(self, count):
        """So many rows of the root, and nothing behind them."""
        made = [self.row(0) for _ in range(count)]
        if self.at != len(self.string):
            raise Fault(24)
        return made


def fixed_width(record):
    return 0 if record.code == NULL else WIDTHS.get(record.code, record.p1)


def under_null(record):
    """What stands under a null: a null where there can be one."""
    return ("bytes", b"") if record.code == NULL else None


def child_rows(image, node, rows):
    """For each child of a node its rows: those of lists one after the other, of Structs side by side."""
    if image.nodes[node].code == STRUCT:
        for k, child in enumerate(image.children(node)):
            yield child, [under_null(image.nodes[child]) if row is None else row[1][k] for row in rows]
    else:
        for child in image.children(node):
            yield child, [below for row in rows if row is not None for below in row[1]]


def bits(values):
    made = bytearray((len(values) + 7) // 8)
    for k, value in enumerate(values):
        made[k // 8] |= value << k % 8
    return bytes(made)


def offsets(width, rows):
    """The offsets of lists or texts, from 0 on; those that are null are empty."""
    ends = [0]
    for row in rows:
        ends.append(ends[-1] + (0 if row is None else len(row[1])))
    return b"".join(end.to_bytes(width, "little") for end in ends)


def part_sizes(record, rows):
    """How long the parts of a node are, its bitmap and its buffers, the shortest that 15 and 17 allow."""
    masks, count = (len(rows) + 7) // 8, len(rows)
    if record.code == NULL:
        return []
    if record.code == STRUCT:
        return [masks]
    if record.code == BOOLEAN:
        return [masks, masks]
    if record.code in LISTS:
        return [masks, (count + 1) * OFFSET_WIDTH[record.code]]
    if record.code in TEXTS:
        return [masks, (count + 1) * OFFSET_WIDTH[record.code], sum(len(row[1]) for row in rows if row is not None)]
    return [masks, count * fixed_width(record)]


def node_parts(record, rows):
    """The bytes of these parts, in the same order."""
    if record.code == NULL:
        return []
    made = [bits([row is not None for row in rows])]
    if record.code == BOOLEAN:
        made.append(bits([0 if row is None else row[1][0] for row in rows]))
    elif record.code in LISTS or record.code in TEXTS:
        made.append(offsets(OFFSET_WIDTH[record.code], rows))
        if record.code in TEXTS:
            made.append(b"".join(row[1] for row in rows if row is not None))
    elif record.code != STRUCT:
        made.append(b"".join(bytes(fixed_width(record)) if row is None else row[1] for row in rows))
    return made


class Built:
    """The image of rows at the root, of the type of a given image: the rows of each node, and how long its parts are."""

    def __init__(self, given, rows):
        self.given, self.columns = given, {0: rows}
        for node in range(len(given.nodes)):
            self.columns |= dict(child_rows(given, node, self.columns[node]))
        self.sizes = [part_sizes(record, self.columns[node]) for node, record in enumerate(given.nodes)]
        self.front = HEADER + RECORD * len(given.nodes) + ENTRY * len(given.entries)
        self.size = self.front + sum(record.name_length + sum(sizes) for record, sizes in zip(given.nodes, self.sizes))

    def too_large(self, room):
        most = max(len(rows) for rows in self.columns.values())
        return self.size > min(room, LONGEST_IMAGE) or most > MOST_ELEMENTS

    def bytes(self):
        given, data = self.given, bytearray(self.front)

        def put(at, width, value):
            data[at : at + width] = value.to_bytes(width, "little", signed=value < 0)

        def place(part):
            data.extend(part)
            return len(data) - len(part)

        put(0, 2, len(given.nodes))
        put(2, 2, len(given.entries))
        # a name has a place where it has a length
        names = [place(given.name(node)) if record.name_length else 0 for node, record in enumerate(given.nodes)]
        child, entry = 1, 0
        for node, record in enumerate(given.nodes):
            rows, masked = self.columns[node], record.code != NULL
            parts = node_parts(record, rows)
            assert [len(part) for part in parts] == self.sizes[node]
            places = [(place(part), len(part)) for part in parts]
            fields = dict(code=record.code, flags=int(record.nullable) + HAS_BITMAP * masked, p1=record.p1, p2=record.p2)
            fields |= dict(name_length=record.name_length, name_place=names[node], length=len(rows))
            if masked:
                fields["bitmap_place"], fields["bitmap_length"] = places.pop(0)
            fields |= dict(first_child=child, child_count=record.child_count, first_buffer=entry, buffer_count=len(places))
            for field, value in fields.items():
                at, width = FIELDS[field]
                put(HEADER + RECORD * node + at, width, value)
            for at, length in places:
                put(HEADER + RECORD * len(given.nodes) + ENTRY * entry, 4, at)
                put(HEADER + RECORD * len(given.nodes) + ENTRY * entry + 4, 4, length)
                entry += 1
            child += record.child_count
        assert len(data) == self.size and entry == len(given.entries)
        return bytes(data)


def build(data, count, string, room):
    """The answer, and the image that is built of so many rows that a string holds, of the type of a given image."""
    try:
        given = checked(data)
    except Fault as fault:
        return (fault.number, 0, fault.node, 0), b""
    if any(record.code not in READABLE for record in given.nodes):
        return (23, 0, 0, 0), b""
    try:
        made = Built(given, Reader(given, string).rows(count))
    except Fault as fault:
        return (fault.number, 0, 0, 0), b""
    if made.too_large(room):
        return (43, 0, 0, 0), b""
    return (0, 0, 0, made.size), made.bytes()


class Session:
    # the bytes of a side's store, of a piece and of a write's output
    STORE, PIECE, OUTPUT = 24576, 64, 64

    def __init__(self):
        self.stores, self.closed = [b"", b""], [False, False]

    def reply(self, line):
        """The reply to a line, without its line feed."""
        try:
            return self.obey(frame_of(line)).hex()
        except Fault as fault:
            number, node = fault.number, fault.node
            tail = node.to_bytes(2, "little") if 10 <= number <= 19 else bytes([node]) if number == 21 else b""
            return (bytes([number]) + tail).hex()

    def obey(self, frame):
        kind, body = frame[0], frame[1:]
        if kind in (1, 2):
            side = kind - 1
            if self.closed[side]:
                raise Fault(41)
            if len(self.stores[side]) + len(body) > self.STORE:
                raise Fault(40)
            self.stores[side] += body
        elif kind == 3:
            side = body[0]
            if self.closed[side]:
                raise Fault(41)
            try:
                checked(self.stores[side])
            except Fault:
                self.stores[side] = b""
                raise
            self.closed[side] = True
        elif kind == 7:
            self.stores[body[0]], self.closed[body[0]] = b"", False
        elif kind in (4, 5):
            if not all(self.closed):
                raise Fault(42)
            numbers = [unsigned(body, k, 4) for k in range(0, len(body), 4)]
            answer = compare(*self.stores) if kind == 4 else compare_range(*self.stores, *numbers)
            number, side, node, value = answer
            if number:
                raise Fault(number, side if number == 21 else node)
            return bytes([0, value])
        else:
            side = body[0]
            if not self.closed[side]:
                raise Fault(42)
            (number, _, node, _), written = write(self.stores[side], unsigned(body, 1, 4), unsigned(body, 5, 4), self.OUTPUT)
            if number:
                raise Fault(number, side if number == 21 else node)
            return b"\x00" + written
        return b"\x00"


def frame_of(line):
    """The bytes of a line that is 1 to 65 bytes of lower-case hexadecimal, one space allowed between bytes, and a frame."""
    frame, at = bytearray(), 0
    while True:
        pair = line[at : at + 2]
        if len(pair) < 2 or any(c not in b"0123456789abcdef" for c in pair):
            raise Fault(1)
        frame.append(int(pair, 16))
        at += 2
        if at == len(line):
            break
        if line[at] == 0x20:
            at += 1
    if len(frame) > 1 + Session.PIECE:
        raise Fault(1)
    kind, length = frame[0], len(frame)
    if not 1 <= kind <= 7:
        raise Fault(2)
    lengths = {3: 2, 4: 1, 5: 13, 6: 10, 7: 2}
    if length < 2 if kind in (1, 2) else length != lengths[kind]:
        raise Fault(3)
    if kind in (3, 6, 7) and frame[1] > 1:
        raise Fault(3)
    return bytes(frame)


def replies(data):
    """What the program prints for an input."""
    session = Session()
    lines = data.split(b"\n")
    if lines[-1] == b"":
        lines.pop()
    return "".join(session.reply(line) + "\n" for line in lines).encode()
