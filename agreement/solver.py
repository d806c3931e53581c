"""A second solver of tie files, written from the definitions alone and by another method.

It keeps the ties, not the solutions: the raised ties are rows over whole numbers modulo q**E, and every accepted tie is
brought into a triangular set of rows that generates all their combinations (Howell's form). A tie contradicts the others
when some combination has no factor left and a right side. The solutions are counted by the index of the rows, and a
counter's digits are settled up to L when its unit row times q**(E - L) is a combination of the rows.
"""


class Refused(Exception):
    """A refusal, with its number."""

    def __init__(self, number):
        super().__init__(number)
        self.number = number


def number_at(data, at, size):
    return int.from_bytes(data[at : at + size], "little")


def read_bodies(data):
    """The bodies of a file's entries, after the checks on its form."""
    if not data or len(data) > 16384 or not 1 <= data[0] <= 65 or len(data) < 1 + 5 * data[0]:
        raise Refused(1)
    spans = []
    end = 1 + 5 * data[0]
    for entry in range(data[0]):
        at = 1 + 5 * entry
        start, size = number_at(data, at + 1, 2), number_at(data, at + 3, 2)
        if data[at] != (2 if entry else 1) or start != end:
            raise Refused(2)
        end += size
        spans.append((start, end))
    if end != len(data):
        raise Refused(2)
    bodies = [data[start:end] for start, end in spans]
    layout, ties = bodies[0], bodies[1:]
    if len(layout) < 5 or len(layout) != 5 + layout[4]:
        raise Refused(3)
    for tie in ties:
        if len(tie) not in range(5, 5 + 6 * 32 + 1, 6):
            raise Refused(3)
    return layout, ties


LONGEST = {(1, 2): 31, (2, 3): 19, (2, 5): 13, (2, 7): 11, (3, 2): 31}


def position(code):
    """The position that a reflected code stands for."""
    place = 0
    while code:
        place ^= code
        code >>= 1
    return place


class System:
    """Accepted ties, as rows in Howell's form: at most one row begins at each place."""

    def __init__(self, data):
        layout, self.bodies = read_bodies(data)
        self.kind, self.base, self.length = layout[:3]
        if not 1 <= self.length <= LONGEST.get((self.kind, self.base), 0):
            raise Refused(4)
        self.heads, self.counters = layout[3], layout[4]
        if not 1 <= self.heads <= 8 or not 1 <= self.counters <= 4:
            raise Refused(5)
        self.widths = layout[5:]
        if any(not 1 <= width <= self.length for width in self.widths):
            raise Refused(6)
        self.size = self.base**self.length
        self.places = self.heads * self.counters
        self.rows = {}

    def value(self, code):
        return position(code) if self.kind == 3 else code

    def level(self, value):
        value %= self.size
        if value == 0:
            return self.length
        level = 0
        while value % self.base == 0:
            value //= self.base
            level += 1
        return level

    def raised_row(self, body):
        """The tie as a row of factors and its right side, after the checks on ties."""
        target, right = body[0], number_at(body, 1, 4)
        if target >= self.counters:
            raise Refused(9)
        terms = [(body[at], body[at + 1], number_at(body, at + 2, 4)) for at in range(5, len(body), 6)]
        if any(head >= self.heads or counter >= self.counters for head, counter, _ in terms):
            raise Refused(10)
        if any(a[:2] >= b[:2] for a, b in zip(terms, terms[1:])):
            raise Refused(11)
        if right >= self.size or any(factor >= self.size for _, _, factor in terms):
            raise Refused(12)
        width = self.widths[target]
        if any(self.level(self.value(factor)) + self.widths[counter] < width for _, counter, factor in terms):
            raise Refused(13)
        lift = self.base ** (self.length - width)
        row = [0] * (self.places + 1)
        for head, counter, factor in terms:
            row[head * self.counters + counter] = lift * self.value(factor) % self.size
        row[self.places] = lift * self.value(right) % self.size
        return row

    def begins(self, row):
        return next((place for place in range(self.places) if row[place]), None)

    def times(self, row, factor):
        return [code * factor % self.size for code in row]

    def less(self, row, other, factor):
        return [(a - b * factor) % self.size for a, b in zip(row, other)]

    def normal(self, row, place):
        """The row times a unit, so that it begins with a power of the base."""
        unit = row[place] // self.base ** self.level(row[place])
        return self.times(row, pow(unit, -1, self.size))

    def with_row(self, row):
        """All rows with one more, or nothing where it contradicts them."""
        rows = dict(self.rows)
        waiting = [row]
        while waiting:
            row = waiting.pop()
            place = self.begins(row)
            if place is None:
                if row[self.places]:
                    return None
                continue
            old = rows.get(place)
            if old is not None and self.level(old[place]) <= self.level(row[place]):
                waiting.append(self.less(row, old, row[place] // old[place]))
                continue
            row = self.normal(row, place)
            rows[place] = row
            waiting.append(self.times(row, self.size // row[place]))
            if old is not None:
                waiting.append(self.less(old, row, old[place] // row[place]))
        return rows

    def accept(self, body):
        rows = self.with_row(self.raised_row(body))
        if rows is None:
            raise Refused(15)
        self.rows = rows

    def free(self):
        fixed = sum(self.length - self.level(row[place]) for place, row in self.rows.items())
        return self.heads * sum(self.widths) - fixed

    def combines(self, row):
        """Whether the row's factors are those of a combination of the rows."""
        while (place := self.begins(row)) is not None:
            old = self.rows.get(place)
            if old is None or self.level(row[place]) < self.level(old[place]):
                return False
            row = self.less(row, old, row[place] // old[place])
        return True

    def solves(self, point):
        """Whether whole numbers, one for each counter, meet all accepted ties."""
        return all(
            (sum(factor * code for factor, code in zip(row, point)) - row[self.places]) % self.size == 0
            for row in self.rows.values()
        )

    def vanishes(self, generator):
        """Whether a generator changes the value of no accepted tie."""
        return all(sum(factor * code for factor, code in zip(row, generator)) % self.size == 0 for row in self.rows.values())

    def spans(self, generators):
        """How many digits the combinations of generators have: there are base ** digits of them."""
        span = System.__new__(System)
        span.base, span.length, span.size, span.places, span.rows = self.base, self.length, self.size, self.places, {}
        for generator in generators:
            span.rows = span.with_row([*generator, 0])
        return sum(self.length - self.level(row[place]) for place, row in span.rows.items())

    def settled(self, place):
        most = self.widths[place % self.counters]
        for digits in range(most, 0, -1):
            row = [0] * (self.places + 1)
            row[place] = self.base ** (self.length - digits) % self.size
            if self.combines(row):
                return digits
        return 0


def solve(data):
    """The system of a file's ties up to the first that is refused, how many these are, and that tie's refusal."""
    system = System(data)
    for standing, body in enumerate(system.bodies):
        try:
            system.accept(body)
        except Refused as refused:
            return system, standing, refused.number
    return system, len(system.bodies), None


def shows(system, ties, multipliers):
    """Whether multipliers of the first so many ties add up to 0 at every counter, and not on the right."""
    total = [0] * (system.places + 1)
    for body, multiplier in zip(system.bodies[:ties], multipliers):
        for place, number in enumerate(system.raised_row(body)):
            total[place] = (total[place] + system.value(multiplier) * number) % system.size
    return not any(total[:-1]) and total[-1] != 0


def report(data):
    """The lines of the report on a file."""
    try:
        system, standing, stopped = solve(data)
    except Refused as refused:
        return [f"refused {refused.number}"]
    lines = [f"standing {standing} free {system.free()}"]
    if stopped is not None:
        lines.append(f"stopped {standing} {stopped}")
    for place in range(system.places):
        lines.append(f"{place // system.counters} {place % system.counters} {system.settled(place)}")
    return lines
