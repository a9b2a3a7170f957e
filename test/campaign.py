#!/usr/bin/env python3
"""campaign.py [--minutes M] [--jobs N] [--seed S] [--changed C] [--keep FOLDER] [--show K] [--main-ip] PROGRAM [FILE..]: judges small streams
by PROGRAM (h264v, or h264v-quick) and by other decoders.

Streams are made by test/streams, legal by construction and with every tool of the profile, and some by x264 where it is installed; FILE adds more. Of
each C changed ones are made: an element with another value, the code words after it whole; bits flipped; a byte inserted; the end cut off; units lost,
doubled and exchanged.

Of each stream: `check --strict`, `frames` and `decode` have to give one answer, with a status and a label that docs/ name; the bytes of `decode` have to be
those frames; a stream that is legal by construction has to be a yes, and to break no further rule. Of each yes the counts of the frames have to be those of
streams/order.py, which reads the standard anew, and the frames those of ffmpeg's decoder; where these are not, OpenH264's are looked at too. A stream for
which this does not hold is kept in FOLDER, by its seed, with a line in FOLDER/differs.txt. FOLDER/seeds.txt tells which seeds were gone through, and what
they covered. Known ways in which ffmpeg does not follow the standard are counted apart (docs/RELIABILITY.md). With --show K the first K streams of each way
are kept too, by each job, with a line in FOLDER/explained.txt, so that somebody can look at them. With --main-ip pictures have explicit weights, and PROGRAM
judges with --target main-ip.

Needs a C compiler and libavcodec; OpenH264 where it is installed. On Debian: apt-get install gcc libavcodec-dev libopenh264-dev ffmpeg x264"""
import argparse
import collections
import hashlib
import multiprocessing
import os
import pathlib
import random
import re
import subprocess
import sys
import tempfile
import time

from streams import encoded, legal
from streams.order import counts_written

HERE = pathlib.Path(__file__).resolve().parent
CHANGED_OF_EACH = 6
# How many streams one process goes through.
BATCH = 64
OTHERS = ["ffmpeg", "openh264"]
CHECK = ["check", "--strict"]
VERDICTS = {0: "yes", 1: "no", 2: "outside"}
LAST_LINE = re.compile(r"yes: units \d+ pictures \d+ frames \d+|no: bit \d+: (\w+) \(clause [A-E\d.]+\)|outside: bit \d+: (\w+)")
LABELS = set(re.findall(r"^### (\w+)$", (HERE.parent / "docs" / "RULES.md").read_text().partition("\n## Further rules")[0], re.M))
# further rules that test/streams does not heed
UNHEEDED = {"VectorCount", "ScheduleLimits", "PictureBytes"}
# Elements of which each value is a tool.
TOLD_BY_VALUE = {"mb_type", "sub_mb_type", "memory_management_control_operation", "modification_of_pic_nums_idc"}
TOLD_BY_VALUE |= {"pic_order_cnt_type", "disable_deblocking_filter_idc"}
# What ffmpeg says of a stream that it does not take as the standard has it.
LACKS_SET = ("non-existing PPS", "sps_id", "pps_id", "SPS", "PPS", "VUI", "crop", "cpb_count", "invalid SAR")


def compiled(folder):
    """The decoders of judges.c, and which of them there are."""
    program = f"{folder}/judges"
    words = ["cc", "-O2", str(HERE / "judges.c"), "-o", program]
    if subprocess.run([*words, "-DWITH_OPENH264", "-lavcodec", "-lavutil", "-lopenh264"], capture_output=True).returncode == 0:
        return program, OTHERS
    subprocess.run([*words, "-lavcodec", "-lavutil"], check=True)
    return program, OTHERS[:1]


class Other:
    """Another decoder, in a process that goes on from stream to stream."""

    def __init__(self, program, name):
        self.words, self.process = [program, name], None

    def judged(self, path):
        """The frames and the complaints; None for the frames where it crashed."""
        if self.process is None:
            self.process = subprocess.Popen(self.words, stdin=subprocess.PIPE, stdout=subprocess.PIPE, text=True, errors="replace")
        self.process.stdin.write(f"{path}\n")
        self.process.stdin.flush()
        frames, complaints = [], []
        for line in self.process.stdout:
            kind, _, rest = line.rstrip("\n").partition(" ")
            if kind == "frame":
                frames.append(rest.replace(" md5", ""))
            elif kind == "error":
                complaints.append(rest)
            elif kind == "end":
                return frames, complaints
        self.process = None
        return None, complaints


class Judge:
    """What PROGRAM says of streams. One process of `check` and of `frames` goes through many of them."""

    def __init__(self, program, main_ip):
        self.program, self.more = program, ["--target", "main-ip"] if main_ip else []

    def ran(self, command, paths):
        return subprocess.run([self.program, *command, *self.more, *paths], capture_output=True)

    def judged(self, paths):
        """Of each stream the status and the last line; each frame's size and digest, and its count; the further rules that it breaks; and what is wrong
        with the answers."""
        check, frames = self.ran(CHECK, paths), self.ran(["frames"], paths)
        lines, found = [by_file(it.stdout) for it in (check, frames)], []
        for path in paths:
            decode = self.ran(["decode"], [path])
            ends = [it[path][-1:] for it in lines] + [decode.stderr.decode().splitlines()[-1:]]
            told = [it.split() for it in lines[1][path] if it.startswith("frame ")]
            last = ends[1][0] if ends[1] else ""
            digests, counts = [f"{it[4]} {it[6]}" for it in told], [int(it[3]) for it in told]
            wrong = self.wrong(last, [ends[0], ends[2]]) or unlike(decode.stdout, digests)
            if not last.startswith(VERDICTS.get(decode.returncode, "no verdict")):
                wrong = wrong or f"decode: status {decode.returncode}, and {last!r}"
            found.append((decode.returncode, last, digests, counts, broken_in(lines[0][path]), wrong))
        worst = max(it[0] for it in found)
        strict = max(worst, 1) if any(it[4] for it in found) else worst
        if [check.returncode, frames.returncode] == [strict, worst] and not any(it[5] for it in found):
            return found
        return [self.judged_alone(it) for it in paths]

    def judged_alone(self, path):
        """What `judged` gives, of one stream, each command with its own status."""
        check, frames, decode = (self.ran(it, [path]) for it in (CHECK, ["frames"], ["decode"]))
        lines = [it.decode().splitlines() for it in (check.stdout, frames.stdout, decode.stderr)]
        ends = [[it for it in some if not it.endswith("nothing is proved")][-1:] for some in lines]
        told = [it.split() for it in lines[1] if it.startswith("frame ")]
        last = ends[1][0] if ends[1] else ""
        digests, counts = [f"{it[4]} {it[6]}" for it in told], [int(it[3]) for it in told]
        statuses, broken = [it.returncode for it in (check, frames, decode)], broken_in(lines[0])
        wrong = self.wrong(last, [ends[0], ends[2]]) or unlike(decode.stdout, digests)
        status = next((status for status, word in VERDICTS.items() if last.startswith(word)), None)
        if statuses != [max(status or 0, 1) if broken else status, status, status]:
            wrong = wrong or f"statuses {statuses}, and {last!r}"
        return frames.returncode, last, digests, counts, broken, wrong

    def wrong(self, last, others):
        """What is wrong with the forms of the answers, if anything: the last line of `frames`, and those of `check` and `decode`."""
        found = LAST_LINE.fullmatch(last)
        if not found:
            return f"frames says {last!r}"
        if {found[1], found[2]} - {None} - LABELS:
            return f"a label that docs/RULES.md does not name: {last}"
        for name, other in zip(("check", "decode"), others):
            if other != [last]:
                return f"{name} says {other}, and frames {last!r}"
        return ""

    def leaps_after_no_reference(self, path):
        """Whether a picture that is no reference is followed by another frame_num than its own, but for an IDR picture's 0."""
        units, slices = (self.ran([it], [path]).stdout.decode().split("\n") for it in ("units", "headers"))
        kinds = {words[1]: words for words in map(str.split, units) if words[:1] == ["unit"]}
        told = [words for words in map(str.split, slices) if words[:1] == ["slice"]]
        pairs = [(kinds[a[1]][5], kinds[b[1]][3], a[7], b[7]) for a, b in zip(told, told[1:])]
        return any(reference == "0" and kind == "1" and before != after for reference, kind, before, after in pairs)

    def has_single_fields(self, path, frames, theirs):
        """Whether each frame of another decoder is the same, or has the rows of one field in the place of the other's."""
        if theirs is None or len(theirs) != len(frames):
            return False
        samples, at = self.ran(["decode"], [path]).stdout, 0
        for frame, other in zip(frames, theirs):
            length = bytes_of(frame)
            if other not in (frame, *single_fields(frame, samples[at : at + length])):
                return False
            at += length
        return True


def by_file(output):
    """The lines of each file, of a command that went through several."""
    lines = collections.defaultdict(list)
    for line in output.decode().splitlines():
        path, _, rest = line.partition(": ")
        lines[path].append(rest)
    return lines


def broken_in(lines):
    """The labels of the further rules that are broken, by the lines of `check --strict`."""
    return {it.split()[3] for it in lines if it.startswith("strict: bit ")}


def bytes_of(digest):
    """How many bytes a frame of this size and digest has."""
    width, height = map(int, digest.split()[0].split("x"))
    return width * height * 3 // 2


def single_fields(digest, samples):
    """The digests of a frame whose rows are twice those of its top field, and twice those of its bottom field."""
    size = digest.split()[0]
    width, height = map(int, size.split("x"))
    found = []
    for field in (0, 1):
        rows, at = b"", 0
        for across, down in ((width, height), (width // 2, height // 2), (width // 2, height // 2)):
            for y in range(down):
                from_row = at + min(y - y % 2 + field, down - 1) * across
                rows += samples[from_row : from_row + across]
            at += across * down
        found.append(f"{size} {hashlib.md5(rows).hexdigest()}")
    return found


def unlike(samples, digests):
    """Whether the bytes of `decode` are not those of the frames."""
    at = 0
    for digest in digests:
        length = bytes_of(digest)
        if hashlib.md5(samples[at : at + length]).hexdigest() != digest.split()[1]:
            return "decode writes other frames than frames"
        at += length
    return "" if at == len(samples) else "decode writes more than the frames"


def units_of(stream):
    """What stands before the first start code, and each unit with its own."""
    starts = [it.start() for it in re.finditer(b"\0\0\1", stream)]
    return stream[: starts[0]], [stream[a:b] for a, b in zip(starts, [*starts[1:], len(stream)])]


def has_other_sets(stream):
    """Whether the stream has sequence parameter sets of more than one content."""
    return len({bytes(unit[3:].rstrip(b"\0")) for unit in units_of(stream)[1] if unit[3] & 31 == 7}) > 1


def flipped(stream, chance):
    """The stream with one or two bits flipped, mostly in slices, or a byte inserted, or its end cut off, or a unit lost, doubled or in another's place."""
    front, units = units_of(stream)
    slices = [i for i, unit in enumerate(units) if unit[3] & 31 in (1, 5)]
    way = chance.random()
    i = chance.choice(slices) if way < 0.75 else chance.randrange(len(units))
    at = chance.randrange(3, len(units[i]))
    if way < 0.8:
        for _ in range(chance.choice([1, 1, 1, 2])):
            unit = bytearray(units[i])
            unit[chance.randrange(3, len(unit))] ^= 1 << chance.randrange(8)
            units[i] = bytes(unit)
    elif way < 0.84:
        units[i] = units[i][:at] + bytes([chance.randrange(256)]) + units[i][at:]
    elif way < 0.87:
        units[i:] = [units[i][:at]]
    elif way < 0.91:
        del units[i]
    elif way < 0.94:
        units.insert(chance.randrange(len(units)), units[i])
    else:
        j = chance.randrange(len(units))
        units[i], units[j] = units[j], units[i]
    return front + b"".join(units)


def changed(units, chance):
    """The stream with another value at one element of one unit, mostly of a slice's front, and tags of the change."""
    slices = [i for i, unit in enumerate(units) if unit.header & 31 in (1, 5)]
    at = chance.choice(slices) if chance.random() < 0.8 else chance.randrange(len(units))
    front = chance.choice([None, 20, 60])
    other = units[at].changed(chance, front)
    tags = {"changed"} | ({"long word"} if other.has_long_word() else set())
    return b"".join(unit.bytes() for unit in [*units[:at], other, *units[at + 1 :]]), tags


class Worker:
    """One process of the campaign."""

    def __init__(self, ways, number, folder, report):
        self.ways, self.number, self.report = ways, number, report
        self.paths = [f"{folder}/stream-{number}-{i}.264" for i in range(BATCH)]
        self.judge = Judge(ways.program, ways.main_ip)
        self.others = {name: Other(ways.judges, name) for name in ways.others}
        self.waiting = []
        self.counts = collections.Counter()

    def keep(self, name, why, stream):
        """Keeps a stream that differs, and says why."""
        folder = pathlib.Path(self.ways.keep)
        (folder / f"{name}.264").write_bytes(stream)
        self.report.put(f"{name}.264: {why}")

    def show(self, name, why, stream):
        """Keeps a stream whose difference is explained, and says how."""
        folder = pathlib.Path(self.ways.keep)
        (folder / f"explained-{name}.264").write_bytes(stream)
        with open(folder / "explained.txt", "a") as file:
            file.write(f"explained-{name}.264: {why}\n")

    def compare(self, name, stream, tags, is_legal):
        """Takes a stream into the batch, which is judged once it is full."""
        pathlib.Path(self.paths[len(self.waiting)]).write_bytes(stream)
        self.waiting.append((name, stream, tags, is_legal))
        if len(self.waiting) == BATCH:
            self.judge_batch()

    def judge_batch(self):
        """Judges the streams that wait, and counts what came of each."""
        batch, self.waiting = self.waiting, []
        paths = self.paths[: len(batch)]
        for path, (name, stream, tags, is_legal), answer in zip(paths, batch, self.judge.judged(paths)):
            status, last, frames, order, broken, wrong = answer
            self.counts.update(f"further rule {it}" for it in broken)
            self.counts[VERDICTS.get(status, f"status {status}")] += 1
            if status == 1:
                self.counts[f"rule {last.split()[3]}"] += 1
            if wrong or is_legal and (status != 0 or broken - UNHEEDED):
                self.counts["wrong answers"] += 1
                self.keep(name, wrong or f"legal by construction, and {last}; {' '.join(broken)}", stream)
            elif status == 0:
                self.compare_order(name, stream, order)
                self.compare_frames(path, (name, stream, tags | broken), (frames, order, dropped(last)))

    def compare_order(self, name, stream, order):
        """Compares the counts of a yes with those that C.4 gives, read anew."""
        try:
            anew = counts_written(stream)
        except (IndexError, KeyError, StopIteration, ValueError) as cause:
            anew = repr(cause)
        if anew == order:
            self.counts["order read anew: the same"] += 1
            return
        self.counts["order read anew: another"] += 1
        self.keep(name, f"order read anew: {anew}", stream)

    def compare_frames(self, path, told, mine):
        """Compares the frames of a yes with those of the other decoders, and counts what came of it."""
        (name, stream, tags), frames = told, mine[0]
        theirs, complaints = self.others["ffmpeg"].judged(path)
        second = self.others["openh264"].judged(path)[0] if "openh264" in self.others else None
        if second is not None:
            self.counts[f"OpenH264: {likeness(frames, second)}"] += 1
        if theirs == frames:
            self.counts["ffmpeg: the same frames"] += 1
            return
        tags = tags | ({"other sets"} if has_other_sets(stream) else set())
        excuse = excused(mine, theirs, complaints, tags)
        if not excuse and self.judge.leaps_after_no_reference(path):
            excuse = "a frame_num after a picture that is no reference, which is not its own"
        if not excuse and self.judge.has_single_fields(path, frames, theirs):
            excuse = "a field that it takes for missing"
        if excuse:
            self.counts[f"ffmpeg: {excuse}"] += 1
            if self.counts[f"ffmpeg: {excuse}"] <= self.ways.show:
                self.show(name, f"{excuse}; {likeness(frames, theirs)}; {'; '.join(sorted(tags))}; {' | '.join(complaints)}", stream)
            return
        kind = likeness(frames, theirs) + (", and OpenH264 agrees with h264v" if second is not None and sorted(second) == sorted(frames) else "")
        self.counts[f"ffmpeg, not explained: {kind}"] += 1
        self.keep(name, f"ffmpeg: {kind}; {'; '.join(sorted(tags))}; {' | '.join(complaints)}", stream)

    def go_through(self, seed):
        """The streams of one seed."""
        chance = random.Random(f"changed {seed}")
        if self.ways.streams and seed % 4 == 0:
            stream, tags, units = chance.choice(self.ways.streams), set(), None
        else:
            units, tags = legal.stream(seed, self.ways.main_ip)
            stream = b"".join(it.bytes() for it in units)
            self.counts.update(f"covers {it}" for it in covered(units))
            self.compare(f"legal-{seed}", stream, tags, True)
        for i in range(self.ways.changed):
            if units and chance.random() < 0.6:
                stream_changed, more = changed(units, chance)
                self.compare(f"element-{seed}-{i}", stream_changed, tags | more, False)
            else:
                self.compare(f"flipped-{seed}-{i}", flipped(stream, chance), tags | {"changed"}, False)

    def run(self):
        seed = self.ways.seed + self.number
        while time.time() < self.ways.end:
            self.go_through(seed)
            self.counts["seeds"] += 1
            seed += self.ways.jobs
        if self.waiting:
            self.judge_batch()
        self.report.put((self.number, seed - self.ways.jobs, self.counts))


def likeness(frames, theirs):
    """How the frames of another decoder are like these."""
    if theirs is None:
        return "it crashed"
    if theirs == frames:
        return "the same frames"
    if sorted(theirs) == sorted(frames):
        return "the same frames in another order"
    left = collections.Counter(theirs) - collections.Counter(frames)
    return "other frames" if left else "fewer frames"


def dropped(last):
    """How many pictures of a yes are never written."""
    numbers = re.findall(r"(?:pictures|frames) (\d+)", last)
    return int(numbers[0]) - int(numbers[1])


def falls(counts):
    """How often a count does not rise. An IDR picture's 0 begins anew."""
    return sum(a >= b != 0 for a, b in zip(counts, counts[1:]))


def by_count(frames, order):
    """The frames in the order of their counts."""
    return [frame for _, frame in sorted(zip(order, frames), key=lambda it: it[0])]


def come_late(frames, order, theirs, has_resets):
    """Whether another decoder has these frames but for some, each of which comes here after one of a greater count; or is a picture with operation 5,
    whose count is 0 here, and was another one before, where the stream has such pictures."""
    lost = collections.Counter(frames) - collections.Counter(theirs)
    if not lost or collections.Counter(theirs) - collections.Counter(frames):
        return False
    greatest, late = None, collections.Counter()
    for frame, count in zip(frames, order):
        # An IDR picture's 0 begins anew.
        greatest = count if greatest is None or count == 0 else max(greatest, count)
        late[frame] += count < greatest or has_resets and count == 0
    return not lost - late


def is_far_apart(counts):
    """Whether two counts in a row lie farther apart than 8.2.1 lets them."""
    return any(not -(2**15) <= a - b < 2**15 for a, b in zip(counts, counts[1:]))


def excused(mine, theirs, complaints, tags):
    """The known way of ffmpeg's by which its frames differ, if there is one (docs/RELIABILITY.md).

    `mine` are the frames, their counts, and how many pictures are never written."""
    frames, order, unwritten = mine
    if any(word in it for it in complaints for word in LACKS_SET):
        return "a parameter set that it does not take"
    if "long word" in tags and any("decode_slice_header error" in it for it in complaints):
        return "a word of more than 32 bits"
    if theirs is not None and sorted(theirs) == sorted(frames):
        if any(a == b for a, b in zip(order, order[1:])):
            return "another order, of two frames of one count"
        if falls(order) == 0:
            return "another order, in which counts fall"
        count_of = dict(zip(frames, order))
        if len(count_of) == len(frames) and "operation 5" in tags and falls([count_of[it] for it in theirs]) > falls(order):
            return "another order, in which counts fall more often"
        is_sorted = len(count_of) == len(frames) and falls([count_of[it] for it in theirs]) < falls(order)
        if "changed" in tags and (is_sorted or theirs == by_count(frames, order)):
            return "another order, in which frames are sorted that a full buffer had to write"
        if "IdrCount" in tags:
            return "another order, with an IDR picture's count that is not 0"
        if "count below that of operation 5" in tags or {"operation 5", "changed"} <= tags:
            return "another order, with counts below that of operation 5"
    if theirs is not None and is_far_apart(order) and not collections.Counter(theirs) - collections.Counter(frames):
        return "a count that lies too far from others"
    if theirs is not None and come_late(frames, order, theirs, "operation 5" in tags):
        return "frames that come after one of a greater count, which it drops"
    if theirs is not None and "other sets" in tags and not collections.Counter(theirs) - collections.Counter(frames):
        return "sequence parameter sets of other contents, between which it drops frames"
    if theirs is not None and unwritten:
        more, fewer = collections.Counter(theirs), collections.Counter(frames)
        if not fewer - more and (more - fewer).total() <= unwritten:
            return "frames that no_output_of_prior_pics_flag drops"
    if "gap after no reference" in tags:
        return "a gap after a picture that is no reference"
    if "long-term indices above their number" in tags and theirs is not None and len(theirs) == len(frames):
        return "edges between long-term frames, taken for one frame"
    return ""


def covered(units):
    """The tools that a stream has, by its elements."""
    found = set()
    for unit in units:
        is_p = False
        for name, code, _, value, _ in unit.elements:
            if name == "slice_type":
                is_p = value in (0, 5)
            if name in TOLD_BY_VALUE:
                found.add(f"{name} {value}" + (" in P" if name == "mb_type" and is_p else ""))
            elif code == "u" and name.endswith("flag") and value:
                found.add(name)
    return found


def words():
    """The words of the command line."""
    parser = argparse.ArgumentParser(description=__doc__, formatter_class=argparse.RawDescriptionHelpFormatter)
    parser.add_argument("program")
    parser.add_argument("--minutes", type=float, default=1)
    parser.add_argument("--jobs", type=int, default=os.cpu_count())
    parser.add_argument("--seed", type=int, default=1)
    parser.add_argument("--changed", type=int, default=CHANGED_OF_EACH)
    parser.add_argument("--keep", default="campaign")
    parser.add_argument("--show", type=int, default=0)
    parser.add_argument("--main-ip", action="store_true")
    parser.add_argument("streams", nargs="*", metavar="FILE")
    return parser.parse_intermixed_args()


def told(report, ways):
    """Writes down what the workers report until each has ended: the counts of all."""
    counts, left = collections.Counter(), ways.jobs
    folder = pathlib.Path(ways.keep)
    while left:
        it = report.get()
        if isinstance(it, str):
            print(f"differs: {it}", flush=True)
            with open(folder / "differs.txt", "a") as file:
                file.write(f"{it}\n")
        else:
            number, last, found = it
            counts.update(found)
            left -= 1
            target = ", main-ip" if ways.main_ip else ""
            with open(folder / "seeds.txt", "a") as file:
                file.write(f"seeds {ways.seed + number} to {last} in steps of {ways.jobs}{target}: {dict(sorted(found.items()))}\n")
    return counts


def main():
    ways = words()
    os.makedirs(ways.keep, exist_ok=True)
    report = multiprocessing.Queue()
    with tempfile.TemporaryDirectory() as folder:
        ways.judges, ways.others = compiled(folder)
        ways.streams = [pathlib.Path(it).read_bytes() for it in ways.streams] or list(encoded.streams(folder, ways.main_ip))
        ways.end = time.time() + 60 * ways.minutes
        workers = [multiprocessing.Process(target=Worker(ways, i, folder, report).run) for i in range(ways.jobs)]
        for it in workers:
            it.start()
        counts = told(report, ways)
        for it in workers:
            it.join()
    for name, count in sorted(counts.items()):
        print(f"{name}: {count}")
    differs = counts["wrong answers"] or counts["order read anew: another"] or any("not explained" in it for it in counts)
    return 1 if differs else 0


if __name__ == "__main__":
    sys.exit(main())
