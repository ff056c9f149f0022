"""The frame reader and the converter beside the models of tests/models/model_frames.py: random frames with bytes dropped, doubled and changed, random packets
of both widths, and document 02's limits."""
import collections
import itertools
import random
import unittest

from helpers import refusals
from helpers.counting import seldom
from helpers.programs import printed
from models import model_frames
from repository import read
from wrong_models import frames_mutants

LIMIT = 65536
SEEDS = (1, 2, 3)
FRAMES = 3000
PACKETS = 3000
LEAST = 10
REFUSED = [f"refused 12: {words}" for words in ("no such kind", "too few bytes for kind 3", "too few bytes for kind 4", "an end above 15", "equal ends")]
TOLD = ["accepted", "accepted, empty", "accepted, 512 packets", "bad at the start", "bad after packets", *REFUSED, "refused 12: more than 512 packets"]
CONVERTED = ["widened kind 1", "widened kind 2", "narrowed kind 3", "narrowed kind 4", "widened kind 1, number 65,535", "widened kind 2, number 65,535",
             "narrowed kind 3, number 65,535", "narrowed kind 4, number 65,535", *REFUSED, "refused 12: too few bytes for kind 1",
             "refused 12: too few bytes for kind 2", "refused 12: a byte after the packet", "refused 18: a number above 65,535"]


def number(rng, size):
    """A number of so many bytes, often one at which the answers change."""
    return rng.choice((0, 1, 65534, 65535, 65536, 256 ** size - 1, rng.randrange(256 ** size), rng.randrange(65536))) % 256 ** size


def packet(rng, width=model_frames.NEW):
    sender, receiver = rng.sample(range(16), 2)
    message, acknowledgement, size = width
    head = bytes([sender, receiver]) + number(rng, size).to_bytes(size, "big")
    return bytes([message]) + head + rng.randbytes(8) if rng.random() < 0.5 else bytes([acknowledgement]) + head


def run_of_bytes(rng, frame):
    """Where a run of bytes begins and ends, as many as a packet has or fewer."""
    at = rng.randrange(len(frame))
    return at, min(len(frame), at + rng.choice((1, 2, 7, 8, 15)))


def dropped(rng, frame):
    start, end = run_of_bytes(rng, frame)
    return frame[:start] + frame[end:]


def doubled(rng, frame):
    start, end = run_of_bytes(rng, frame)
    return frame[:end] + frame[start:]


def changed(rng, frame):
    at = rng.randrange(len(frame))
    return frame[:at] + bytes([rng.choice((0, 1, 2, 3, 4, 5, 15, 16, rng.randrange(256)))]) + frame[at + 1:]


def cut(rng, frame):
    return frame[:rng.randrange(len(frame))]


def whole(rng, frame):
    return frame


DAMAGES = [whole, dropped, doubled, changed, cut]
ASKED = TOLD + [f"{damage.__name__}, {answer}" for damage in DAMAGES for answer in ("count", "refused")]


def random_frame(rng):
    """A frame of a few packets, or of about 512, a few of them with one of the old kinds among them; and what was done to it."""
    count = rng.randrange(12) if rng.random() < 0.9 else rng.choice((510, 511, 512, 512, 513, 514))
    found = [packet(rng) for _ in range(count)]
    if rng.random() < 0.1:
        found.insert(rng.randrange(len(found) + 1), packet(rng, model_frames.OLD))
    frame = b"".join(found)
    damage = rng.choice(DAMAGES) if frame else whole
    return damage.__name__, damage(rng, frame)


def ends_changed(rng, data):
    at = rng.choice((1, 2))
    return data[:at] + bytes([rng.choice((data[3 - at], 16, 15, 255))]) + data[at + 1:]


def lengthened(rng, data):
    return data + rng.randbytes(rng.choice((1, 1, 2, 8)))


def random_packet(rng):
    """One packet of either width, or what was made of it."""
    whole_packet = packet(rng, rng.choice((model_frames.OLD, model_frames.NEW)))
    return rng.choice((whole, whole, whole, lengthened, cut, changed, ends_changed))(rng, whole_packet)


def answers(frames):
    """The two lines that the program prints for each frame, what it reads as and what it is converted into, after what it prints for none; as many of
    them at a time as it reads."""
    edges = printed("frames_test").decode().splitlines()
    lines, batch = [], b""
    for frame in frames + [None]:
        if frame is None or len(batch) + 2 + len(frame) > LIMIT:
            said = printed("frames_test", batch).decode().splitlines()
            if said[:len(edges)] != edges:
                raise AssertionError("what frames_test prints for no frame comes first, whatever it is given")
            lines += said[len(edges):]
            batch = b""
        if frame is not None:
            batch += len(frame).to_bytes(2, "big") + frame
    refusals.count("frames_test", "\n".join(lines))
    return lines[::2], lines[1::2]


class Frames(unittest.TestCase):
    def test_random_frames_are_read_as_the_model_reads_them(self):
        for seed in SEEDS:
            rng = random.Random(seed)
            made = [random_frame(rng) for _ in range(FRAMES)]
            met = collections.Counter()
            reader = model_frames.Reader(tell=lambda words: met.update([words]))
            lines, _ = answers([frame for _, frame in made])
            self.assertEqual(len(lines), FRAMES)
            for (damage, frame), line in zip(made, lines):
                self.assertEqual(line, reader.line(frame), frame.hex())
                met[f"{damage}, {line.split('=')[0]}"] += 1
            self.assertEqual(seldom(met, ASKED, LEAST), {}, f"seed {seed}")
            for name, wrong in frames_mutants.WRONG.items():
                self.assertTrue(any(wrong.line(frame) != line for (_, frame), line in zip(made, lines)), f"seed {seed}: {name}")

    def test_random_packets_of_both_widths_are_converted_as_the_model_does(self):
        for seed in SEEDS:
            rng = random.Random(seed)
            made = [random_packet(rng) for _ in range(PACKETS)]
            met = collections.Counter()
            model = model_frames.Converter(tell=lambda words: met.update([words]))
            _, lines = answers(made)
            self.assertEqual(lines, [model.line(data) for data in made])
            self.assertEqual(seldom(met, CONVERTED, LEAST), {}, f"seed {seed}")
            for name, wrong in frames_mutants.WRONG_CONVERTERS.items():
                self.assertTrue(any(wrong.line(data) != line for data, line in zip(made, lines)), f"seed {seed}: {name}")

    def test_what_is_converted_is_converted_back(self):
        """'What the converter widens, it narrows to the same bytes', and the other way round where it is not refused."""
        rng = random.Random(4)
        made = [random_packet(rng) for _ in range(PACKETS)]
        accepted = [(data, line.split()) for data, line in zip(made, answers(made)[1]) if line.startswith("converted=")]
        self.assertGreater(len(accepted), PACKETS // 4)
        back = answers([bytes.fromhex(digits)[:int(size[len("converted="):])] for _, (size, digits) in accepted])[1]
        self.assertEqual(back, [f"converted={len(data)} {data.ljust(15, bytes(1)).hex()}" for data, _ in accepted])

    def test_every_kind_length_end_and_telling_number_is_converted_as_the_model_does(self):
        made, ends = [], (b"\0\1", b"\17\0", b"\1\1", b"\20\0", b"\0\20")
        for kind, size, pair, told in itertools.product(range(7), (2, 4), ends, (0, 255, 256, 65535, 65536, 65537, 4294967295)):
            data = bytes([kind]) + pair + (told % 256 ** size).to_bytes(size, "big") + bytes(range(1, 14))
            made += [data[:length] for length in range(18)]
        self.assertEqual(len(made), 8820)
        self.assertEqual(answers(made)[1], [model_frames.Converter().line(data) for data in made])

    def test_every_short_frame_of_few_values(self):
        """Frames of up to five bytes 0, 2, 4 and 16, and acknowledgements of these with two and three bytes more."""
        values = (0, 2, 4, 16)
        frames = [b""]
        for length in range(1, 6):
            frames += [bytes(values[n // 4 ** k % 4] for k in range(length)) for n in range(4 ** length)]
        frames += [frame + more for frame in frames if len(frame) == 5 and frame[0] == 4 for more in (b"\0\1", b"\0\1\4")]
        self.assertEqual(answers(frames), ([model_frames.Reader().line(frame) for frame in frames], [model_frames.Converter().line(frame) for frame in frames]))

    def test_the_limits_are_in_the_stored_output(self):
        stored = dict(line.split(": ") for line in read("crates", "frames_test", "stdout").splitlines() if ": " in line)
        for name in ("no packet", "a message", "an acknowledgement", "512 messages", "512 acknowledgements"):
            self.assertTrue(stored[name].startswith("count="), name)
        for name, answer in stored.items():
            if answer.startswith("refused"):
                self.assertEqual(answer, "refused=12 filled=0", name)
        for name in ("513 messages", "513 acknowledgements", "512 messages and a byte", "512 messages, the last of 14 bytes",
                     "three messages, the second of kind 5", "a message of kind 1", "an acknowledgement of kind 2",
                     "three messages, the second of kind 1", "three acknowledgements, the last of kind 2"):
            self.assertEqual(stored[name], "refused=12 filled=0", name)
