"""Compares the program `digest`, whose path is the argument, with a model written from docs/SPEC.md alone.

`rt run` in crates/digest leaves the program at crates/digest/out/digest.
"""
import os, random, re, subprocess, sys, time
from collections import Counter

TEXT_LIMIT, SIZE, WEIGHTS, CAPS = 65536, 2, [i + 1 for i in range(64)], [1] * 64
# Key, bytes of the longest value, highest number; in the order of the lines.
LINES = [("frame", 10, 2**32 - 1), ("marks", 16, 2**64 - 1), ("look", 3, 255), ("lane", 2, 63),
         ("tail", 3, 255), ("head", 3, 255), ("side", 1, 1)]
MARKS, LANE = 1, 3
WRONG_KEY, BAD_FORM, OVER, CUT, LONG_TEXT = 5, 6, 7, 8, 9
STORED_INPUT = os.path.join(os.path.dirname(os.path.abspath(__file__)), "..", "crates", "digest", "stdin")
ran, outcomes, faults = Counter(), Counter(), Counter()  # cases by group, and what the model met


class Fault(Exception):
    """Holds refusal, record, line and byte."""


def read_record(text, start, record):
    """Reads seven lines from the byte `start`; gives the numbers and the byte after them."""
    numbers, at = [], start
    for index, (key, longest, highest) in enumerate(LINES):
        for due in key.encode() + b"=":
            if at == len(text):
                raise Fault(CUT, record, index + 1, start)
            if text[at] != due:
                raise Fault(WRONG_KEY, record, index + 1, at)
            at += 1
        reach = text[at:at + longest + 1]
        digits, line_feed, _ = reach.partition(b"\n")
        if not line_feed and len(reach) <= longest:
            raise Fault(CUT, record, index + 1, start)
        form, base = (b"[0-9a-f]{16}", 16) if index == MARKS else (b"0|[1-9][0-9]*", 10)
        if not line_feed or not re.fullmatch(form, digits):
            raise Fault(BAD_FORM, record, index + 1, at)
        if int(digits, base) > highest:
            raise Fault(OVER, record, index + 1, at)
        numbers.append(int(digits, base))
        at += len(digits) + 1
    return numbers, at


def independent(frames):
    lanes = Counter(frame[LANE] for frame in frames)
    return all(lanes[lane] <= CAPS[lane] for lane in lanes)


class Picker:
    def __init__(self):
        self.kept = []  # pairs of frame and gain
        self.shown = 0  # classes shown by any accepted frame
        self.took = self.seen = self.told = 0

    def offer(self, frame):
        """Takes in a frame and names the outcome."""
        self.seen += 1
        gain = sum(WEIGHTS[i] for i in range(64) if frame[MARKS] & ~self.shown & 1 << i)
        frames = [kept for kept, _ in self.kept]
        if gain == 0:
            return "empty"
        if len(frames) < SIZE and independent(frames + [frame]):
            place, outcome = len(frames), "kept"
        else:
            counting = [p for p in range(len(frames)) if independent(frames[:p] + frames[p + 1:] + [frame])]
            if not counting:
                return "barred"
            place, outcome = min(counting, key=lambda p: (self.kept[p][1], p)), "swapped"
            if gain < 2 * self.kept[place][1]:
                return "light"
        self.kept[place:place + 1] = [(frame, gain)]
        self.shown |= frame[MARKS]
        self.took += 1
        self.told += gain
        return outcome

    def digest(self):
        gains = sum(gain for _, gain in self.kept)
        out = lines(size=SIZE, kept=len(self.kept), took=self.took, seen=self.seen, gain=gains, told=self.told)
        for place, (frame, gain) in enumerate(self.kept):
            out += lines(place=place, worth=gain) + record_text(frame)
        return out


def lines(**numbers):
    return "".join("%s=%d\n" % pair for pair in numbers.items()).encode()


def record_text(frame):
    return b"frame=%d\nmarks=%016x\nlook=%d\nlane=%d\ntail=%d\nhead=%d\nside=%d\n" % tuple(frame)


def model(text):
    """The bytes that the program is to print for this text."""
    picker, front, at, record = Picker(), b"", 0, 0
    try:
        if len(text) > TEXT_LIMIT:
            raise Fault(LONG_TEXT, 0, 0, 0)
        while at < len(text):
            record += 1
            frame, at = read_record(text, at, record)
            outcomes[picker.offer(frame)] += 1
    except Fault as fault:
        kind, record, line, byte = fault.args
        faults[kind, line] += 1
        front = lines(fault=kind, record=record, line=line, byte=byte)
    return front + picker.digest()


def random_text(rng, count):
    """Valid records; few lanes make frames meet, and classes that grow heavier keep the swaps going."""
    lanes = rng.sample(range(64), rng.choice([1, 2, 3, 5, 64]))
    start, step, out = rng.randint(1, 8), rng.choice([0, 1, 3]), b""
    for n in range(count):
        frame = [rng.choice([0, highest, rng.randint(0, highest)]) for _, _, highest in LINES]
        classes = [rng.randrange(min(64, start + step * n)) for _ in range(rng.choice([0, 1, 1, 1, 2, 3]))]
        frame[LANE], frame[MARKS] = rng.choice(lanes), sum(1 << i for i in set(classes))
        out += record_text(frame)
    return out


def text_of_length(length):
    """Valid records of exactly this many bytes: the shortest ones, the first of them longer by what is over."""
    count, over = divmod(length, len(record_text([0] * 7)))
    text = b""
    for n in range(count):
        text += record_text([10**min(9, over), 1 << n % 64, 0, n % 10, 0, 0, n % 2])
        over -= min(9, over)
    assert len(text) == length
    return text


def edge_values(index):
    """Values for one line, most of them bad, the others at the edge of what is allowed."""
    _, longest, highest = LINES[index]
    odd = [b"", b"a", b"A", b"-1", b"+1", b" ", b"\r", b"0x1", b"\0", b"/", b":", b"\xff", b"=", b"\n", b"1\n"]
    odd += [b"1" * n for n in range(1, longest + 4)] + [b"9" * longest, b"0" * longest, b"f" * 400]
    if index == MARKS:
        hexes = b"0123456789abcdef"
        odd += [hexes.upper(), b"f" * 16, b"F" * 16, b"0x" + hexes[2:], hexes + b"0", hexes[1:]]
        return odd + [hexes[:p] + b"%c" % wrong + hexes[p + 1:] for p in range(16) for wrong in b"g`AF@/:"]
    odd += [b"%d" % n for n in (0, highest - 1, highest, highest + 1, highest + 2, highest * 10)]
    return odd + [b"00", b"01", b"007", b"1a", b"a1", b"1 ", b" 1", b"1\r", b"0%d" % highest]


def cases(rng):
    """Gives pairs of group and text."""
    yield "empty", b""
    with open(STORED_INPUT, "rb") as stored:
        yield "stored run", stored.read()
    for i in range(64):
        yield "each lane and class", b"".join(record_text([n, 1 << (i + n) % 64, 0, i, 0, 0, 0]) for n in range(3))
    full = record_text([2**32 - 1, 0xfedcba9876543210, 255, 63, 254, 200, 1])
    other = [record_text([7, 5, 0, 3, 0, 0, 0]), record_text([20, 0xf0, 9, 4, 10, 99, 1])]
    for before in range(3):
        for end in range(len(full)):
            yield "cut", b"".join(other[:before]) + full[:end]
    parts = full.splitlines(keepends=True)
    for front in (b"", other[0] + other[1]):
        for index, (key, _, _) in enumerate(LINES):
            head, line, rest = front + b"".join(parts[:index]), parts[index], b"".join(parts[index + 1:]) + other[0]
            for p in range(len(key) + 1):
                for wrong in (line[p] ^ 32, line[p] ^ 1, 0, 10, 255):
                    yield "wrong key", head + line[:p] + b"%c" % wrong + line[p + 1:] + rest
                yield "wrong key", head + line[:p] + b"?"
                yield "wrong key", head + line[:p] + line[p + 1:] + rest
            for value in edge_values(index):
                until = head + key.encode() + b"=" + value
                yield "value", until + b"\n" + rest
                yield "value, no line feed", until
                yield "value, no line feed", until + rest
    # Every second case comes in two parts; there are 15 of these, and they come twice, so each comes both ways.
    for length in (TEXT_LIMIT - 1, TEXT_LIMIT, TEXT_LIMIT + 1, TEXT_LIMIT + 2, 3 * TEXT_LIMIT) * 2:
        yield "long, whole records", text_of_length(length)
        yield "long, cut record", text_of_length(length - 20) + full[:20]
        yield "long, random records", random_text(rng, length // 66 + 1)[:length]
    for _ in range(300):
        yield "random bytes", rng.randbytes(rng.randint(1, 300))
        yield "random letters", bytes(rng.choices(b"frame=019\n", k=rng.randint(1, 60)))
    for _ in range(900):
        yield "random records", random_text(rng, rng.choice([1, 2, 3, 5, 8, 20, 60]))
    for _ in range(500):
        text = random_text(rng, rng.randint(1, 6))
        p, changed = rng.randrange(len(text)), rng.choice([rng.randrange(256), rng.choice(b"0123456789abcdef=\n")])
        yield "damage, changed", text[:p] + b"%c" % changed + text[p + 1:]
        yield "damage, dropped", text[:p] + text[p + 1:]
        yield "damage, doubled", text[:p + 1] + text[p:]


def run(program, text, first):
    """Gives status and printed bytes; so many bytes come first, and the others a moment later."""
    process = subprocess.Popen([program], stdin=subprocess.PIPE, stdout=subprocess.PIPE)
    try:
        os.write(process.stdin.fileno(), text[:first])
        time.sleep(0.002 if first else 0)
        printed, _ = process.communicate(text[first:], timeout=20)
        return process.returncode, printed
    except (subprocess.TimeoutExpired, BrokenPipeError) as error:
        process.kill()
        return repr(error), b""


def main():
    for number, (group, text) in enumerate(cases(random.Random(20))):
        ran[group] += 1
        first = number % 2 * min(len(text), TEXT_LIMIT) // 2
        due, got = (0, model(text)), run(sys.argv[1], text, first)
        if got != due:
            print("first difference: case %d, %s, %d bytes, %d of them first" % (number, group, len(text), first))
            print("input   %r\nmodel   %r\nprogram %r" % (text, due, got))
            break
    for group, count in sorted(ran.items()) + [("all", sum(ran.values()))]:
        print("%-22s %5d" % (group, count))
    # With every cap 1 a frame can always take the place of the one on its lane, so none is ever barred.
    print("outcomes:", ", ".join("%s %d" % (k, outcomes[k]) for k in ("kept", "swapped", "light", "empty", "barred")))
    for kind in (WRONG_KEY, BAD_FORM, OVER, CUT, LONG_TEXT):
        met = ["line %d %d" % (line, faults[kind, line]) for line in range(8) if faults[kind, line]]
        print("fault %d: %s" % (kind, ", ".join(met)))
    print("no difference" if got == due else "a difference")
    sys.exit(0 if got == due else 1)


main()
