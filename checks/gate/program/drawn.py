"""Profile texts drawn at random, and mistakes in them: for one seed the same in every run."""
MOST = 2**64 - 1
NAMES = [
    b"a", b"b", b"ab", b"aa", b"main", b"_Z3fooi", b"_Z3fooil", b"foo.llvm.123", b"x\xff", b"~", b"[a]", b"a#1!", b"a" * 300, b"a" * 299 + b"b",
]


class Text:
    """A text drawn at random: lines of a tree, in any order, with remarks between them."""

    def __init__(self, draw):
        self.draw, self.lines = draw, []
        for name in draw.sample(NAMES, draw.randrange(1, 6)):
            self.lines.append((0, b"%b:%b:%b" % (name, self.total(), self.number())))
            self.fill(1, draw.choice([0, 1, 3, 3, 250]) if draw.random() < 0.05 else draw.randrange(4))

    def number(self):
        draw = self.draw
        drawn = draw.choice([0, 0, 1, 1, draw.randrange(10), draw.randrange(1000), draw.randrange(2**30), draw.randrange(2**48)])
        if draw.random() < 0.01:
            drawn = draw.choice([2**63, 2**64 - 1, draw.randrange(2**64)])
        return (b"0" * draw.randrange(3) if draw.random() < 0.1 else b"") + b"%d" % drawn

    def total(self):
        return b"%d" % self.draw.choice([0, 7, MOST, self.draw.randrange(2**20)])

    def place(self):
        draw = self.draw
        offset = draw.choice([draw.randrange(9), draw.randrange(65536), 65535])
        disc = draw.choice([0, 0, 0, draw.randrange(4), 2**32 - 1])
        return offset, disc

    def located(self, place):
        return b"%d" % place[0] + (b".%d" % place[1] if place[1] or self.draw.random() < 0.2 else b"")

    def fill(self, depth, levels):
        """Draws the lines of an open function or call."""
        draw, made = self.draw, []
        for place in dict.fromkeys(self.place() for _ in range(draw.randrange(5))):
            targets = b"".join(b" %b:%b" % (name, self.number()) for name in draw.sample(NAMES, draw.choice([0, 0, 1, 3])))
            made.append((False, b"%b: %b%b" % (self.located(place), self.number(), targets)))
        calls = dict.fromkeys((self.place(), draw.choice(NAMES)) for _ in range(draw.randrange(1, 3) if levels < 9 else 1)) if levels else ()
        made += [(True, b"%b: %b:%b" % (self.located(place), name, self.total())) for place, name in calls]
        draw.shuffle(made)
        for opens, line in made:
            self.lines.append((depth, line))
            if opens:
                self.fill(depth + 1, levels - 1 if levels > 9 else draw.randrange(levels))

    def spelled(self):
        draw, made = self.draw, []
        for depth, line in self.lines:
            if draw.random() < 0.05:
                made.append(draw.choice([b"", b"  ", b"\t", b"# a remark", b"    # another", b"#"]))
            made.append(b" " * depth + line)
        return b"\n".join(made) + draw.choice([b"", b"\n", b"\n\n"])


def damaged(draw, text):
    """The text with a mistake, or with what only looks like one."""
    lines = text.split(b"\n")
    at = draw.randrange(len(lines))
    line = lines[at]
    choice = draw.randrange(9)
    if choice == 0:
        lines[at] = draw.choice([b"\t" + line, *(line + end for end in (b" ", b"\r", b"\t", b":1", b" a:1", b" a:x", b" 1a:1"))])
    elif choice == 1:
        lines[at] = draw.choice([line[1:], line.lstrip(b" "), *(b" " * more + line for more in (1, 2, 255, 256, 257, 257))])
    elif choice == 2:
        lines.insert(draw.choice([at + 1, draw.randrange(len(lines) + 1)]), line)
    elif choice == 3:
        lines[at] = line.replace(b": ", draw.choice([b":  ", b":", b" : ", b".0: ", b".4294967295: ", b".4294967296: ", b".: "]))
    elif choice == 4:
        numbers = [b"65535", b"65536", b"%d" % MOST, b"%d" % (MOST + 1), b"01", b"-1", b"a"]
        lines[at] = line.replace(b"1", draw.choice(numbers), 1)
    elif choice == 5:
        lines[at] = line + draw.choice([b" a:1", b" b:0", b" a:18446744073709551615", b" a:1 a:2", b" #a:1"])
    elif choice == 6:
        draw.shuffle(lines)
    elif choice == 7:
        return text[: draw.randrange(len(text) + 1)]
    else:
        cut = draw.randrange(len(text) + 1)
        return text[:cut] + bytes([draw.randrange(256)]) + text[cut + draw.randrange(2) :]
    return b"\n".join(lines)
