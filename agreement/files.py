"""Random tie files: most are right or nearly so, and a part is damaged."""

LONGEST = [(1, 2, 31), (2, 3, 19), (2, 5, 13), (2, 7, 11), (3, 2, 31)]


def little(number, size):
    return number.to_bytes(size, "little")


def file_of(layout, ties):
    """The file of a layout's body and ties' bodies."""
    bodies = [layout, *ties]
    end = 1 + 5 * len(bodies)
    table = bytes([len(bodies)])
    for entry, body in enumerate(bodies):
        table += bytes([2 if entry else 1]) + little(end, 2) + little(len(body), 2)
        end += len(body)
    return table + b"".join(bodies)


class Maker:
    def __init__(self, random):
        self.random = random

    def scale(self):
        self.kind, self.base, longest = self.random.choice(LONGEST)
        self.length = self.random.choice([1, 2, 3, self.random.randint(1, longest), longest])
        self.size = self.base**self.length

    def layout(self):
        heads = self.random.choice([1, 1, 2, 2, 3, self.random.randint(1, 8)])
        counters = self.random.choice([1, 1, 2, 2, 3, 4])
        plain = self.random.random() < 0.4
        self.widths = [self.length if plain else self.random.randint(1, self.length) for _ in range(counters)]
        self.places = [(head, counter) for head in range(heads) for counter in range(counters)]
        self.start = {place: self.random.randrange(self.size) for place in self.places}
        return bytes([self.kind, self.base, self.length, heads, counters, *self.widths])

    def code(self, value):
        value %= self.size
        return value ^ (value >> 1) if self.kind == 3 else value

    def tie(self):
        chance = self.random.random
        target = self.random.randrange(len(self.widths))
        width = self.widths[target]
        share = self.random.choice([0.3, 0.7, 1.0])
        total = 0
        terms = []
        for head, counter in self.places:
            if chance() > share:
                continue
            least = max(0, width - self.widths[counter])
            level = self.random.choice([least, least, self.random.randint(least, self.length)])
            if chance() < 0.01:
                level = 0
            factor = self.random.randrange(self.size) * self.base**level
            total += factor * self.start[head, counter]
            terms.append((head, counter, self.code(factor)))
        if chance() < 0.25:
            total += self.random.randrange(self.size) * self.base ** self.random.randint(0, self.length)
        right = self.code(total)
        if chance() < 0.01:
            right = self.random.getrandbits(32)
        if terms and chance() < 0.02:
            spot = self.random.randrange(len(terms))
            terms[spot] = self.random.choice(
                [terms[0], (terms[spot][0] + 1, *terms[spot][1:]), (*terms[spot][:2], self.random.getrandbits(32))]
            )
        if chance() < 0.01:
            target += 1
        body = bytes([target]) + little(right, 4)
        return body + b"".join(bytes([head, counter]) + little(factor, 4) for head, counter, factor in terms)

    def damaged(self, data):
        data = bytearray(data)
        for _ in range(self.random.choice([1, 1, 2, 5])):
            spot = self.random.randrange(len(data)) if data else 0
            if self.random.random() < 0.5:
                spot = min(spot, self.random.randrange(24))
            act = self.random.randrange(5)
            if act == 0 and data:
                data[spot] = self.random.randrange(256)
            elif act == 1 and data:
                data[spot] ^= 1 << self.random.randrange(8)
            elif act == 2:
                del data[spot : spot + self.random.randint(1, 6)]
            elif act == 3:
                data[spot:spot] = bytes(self.random.randrange(256) for _ in range(self.random.randint(1, 6)))
            else:
                del data[spot:]
        return bytes(data)

    def awry(self, body):
        """The body with one byte changed, or some more at its end, in a table that knows of it."""
        if self.random.random() < 0.3:
            return body + bytes(self.random.randint(1, 6))
        spot = self.random.randrange(len(body))
        return body[:spot] + bytes([self.random.randrange(12)]) + body[spot + 1 :]

    def file(self):
        self.scale()
        layout = self.layout()
        count = self.random.choice([0, 1, 2, 3, 5, 8, self.random.randint(0, 64)])
        ties = [self.tie() for _ in range(count)]
        if self.random.random() < 0.08:
            layout = self.awry(layout)
        if ties and self.random.random() < 0.03:
            spot = self.random.randrange(count)
            ties[spot] = self.awry(ties[spot])
        data = file_of(layout, ties)
        if self.random.random() < 0.25:
            data = self.damaged(data)
        if self.random.random() < 0.002:
            data = data + bytes(16384)
        return data
