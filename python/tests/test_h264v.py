"""Tests of the module over the installed library. Expected values are those of samples/ and of the program.

H264V_PROGRAM names the program, and H264V_STREAMS a folder of streams whose frames are compared with the program's."""
import glob
import hashlib
import io
import os
import pathlib
import subprocess
import sys
import unittest

HERE = os.path.dirname(os.path.abspath(__file__))
sys.path.insert(0, os.path.dirname(HERE))
import h264v  # noqa: E402

SAMPLES = os.path.join(HERE, "..", "..", "samples")


def read(name):
    with open(os.path.join(SAMPLES, name), "rb") as file:
        return file.read()


class Check(unittest.TestCase):
    def test_a_legal_stream(self):
        verdict = h264v.check(read("one_frame.264"))
        self.assertEqual(verdict, (h264v.Kind.YES, 0, 3, 1, 1, "", ""))

    def test_a_broken_rule(self):
        verdict = h264v.check(read("vector_too_long.264"))
        self.assertEqual((verdict.kind, verdict.label), (h264v.Kind.NO, "VectorRange"))

    def test_modes(self):
        data = read("one_frame.264")
        self.assertEqual(h264v.check(data, h264v.Mode.UNITS)[2:5], (3, 0, 0))
        self.assertEqual(h264v.check(data, h264v.Mode.HEADERS)[2:5], (3, 1, 0))

    def test_no_bytes(self):
        self.assertEqual(h264v.check(b"").kind, h264v.Kind.NO)

    def test_a_mode_that_is_none(self):
        with self.assertRaises(ValueError):
            h264v.check(b"", 7)


class Version(unittest.TestCase):
    def test_the_library_has_the_version_of_the_module(self):
        self.assertEqual(h264v.library_version(), h264v.__version__)


class Explain(unittest.TestCase):
    def test_a_broken_rule(self):
        found = h264v.explain(read("vector_too_long.264"))
        wanted = {"verdict": "no", "status": 1, "rule": "VectorRange", "clause": "A.3", "bit": 256, "picture": 1, "macroblock": 0, "element": "mb_type"}
        self.assertEqual({key: found.get(key) for key in wanted}, wanted)
        self.assertTrue(found["allowed"].startswith("vectors of -8192 to 8191 across"))
        self.assertTrue(found["cause"])

    def test_a_legal_stream(self):
        found = h264v.explain(read("one_frame.264"))
        self.assertEqual(found, {"kind": "verdict", "verdict": "yes", "status": 0, "units": 3, "pictures": 1, "frames": 1})

    def test_without_places(self):
        decoder = h264v.Decoder(read("vector_too_long.264"))
        self.assertIsNone(decoder.explain())
        list(decoder)
        found = decoder.explain()
        self.assertEqual((found["rule"], found["bit"], found.get("macroblock")), ("VectorRange", 256, None))
        decoder.close()
        self.assertIsNone(decoder.explain())


class Stream(unittest.TestCase):
    def test_what_a_set_says(self):
        decoder = h264v.Decoder(read("one_frame.264"))
        self.assertIsNone(decoder.info)
        list(decoder)
        info = decoder.info
        self.assertEqual((info.profile_idc, info.level_idc, info.width, info.height), (66, 10, 16, 16))
        self.assertEqual((info.cropping, info.aspect_ratio, info.frame_rate), ((0, 0, 0, 0), None, None))
        decoder.close()
        self.assertIsNone(decoder.info)


class Decode(unittest.TestCase):
    def test_planes(self):
        decoder = h264v.Decoder(read("one_frame.264"))
        (frame,) = decoder
        self.assertEqual(frame.y.shape, (frame.height, frame.width))
        self.assertEqual(frame.cb.shape, (frame.height // 2, frame.width // 2))
        self.assertEqual(bytes(frame.samples), bytes(frame.y) + bytes(frame.cb) + bytes(frame.cr))
        self.assertEqual(decoder.verdict.kind, h264v.Kind.YES)

    def test_sources_give_the_same(self):
        data = read("one_frame.264")
        sources = (data, bytearray(data), io.BytesIO(data), [data[:7], b"", data[7:]], (bytes([b]) for b in data))
        frames = [[bytes(f.samples) for f in h264v.Decoder(source)] for source in sources]
        self.assertTrue(all(f == frames[0] for f in frames))

    def test_paths(self):
        path = os.path.join(SAMPLES, "one_frame.264")
        for source in (path, pathlib.Path(path)):
            with h264v.Decoder(source) as decoder:
                self.assertEqual(len(list(decoder)), 1)
                self.assertEqual(decoder.verdict.kind, h264v.Kind.YES)
        with self.assertRaises(OSError):
            list(h264v.Decoder(os.path.join(SAMPLES, "none.264")))

    def test_planes_share_the_frames_memory(self):
        (frame,) = h264v.Decoder(read("one_frame.264"))
        for plane in (frame.y, frame.cb, frame.cr):
            self.assertIs(plane.obj, frame.samples.obj)

    def test_lent_frames(self):
        data = read("one_frame.264")
        with h264v.Decoder(data, lend=True) as decoder:
            lent = [bytes(frame.samples) for frame in decoder]
        self.assertEqual(lent, [bytes(frame.samples) for frame in h264v.Decoder(data)])

    def test_a_closed_decoder_gives_no_frame(self):
        decoder = h264v.Decoder(read("one_frame.264"))
        decoder.close()
        decoder.close()
        self.assertEqual(list(decoder), [])

    def test_the_verdict_comes_at_the_end(self):
        decoder = h264v.Decoder(read("one_frame.264"))
        self.assertIsNone(decoder.verdict)
        list(decoder)
        self.assertEqual(decoder.verdict, h264v.check(read("one_frame.264")))

    def test_what_is_no_mode_target_or_source(self):
        for words in ((b"", 7), (b"", h264v.Mode.FULL, 2)):
            with self.assertRaises(ValueError):
                h264v.Decoder(*words)
        with self.assertRaises(TypeError):
            h264v.Decoder(5)
        with self.assertRaises(TypeError):
            h264v.check(5)
        with self.assertRaises(TypeError):
            list(h264v.Decoder([5]))

    def test_a_broken_rule_in_pieces(self):
        data = read("vector_too_long.264")
        decoder = h264v.Decoder(bytes([byte]) for byte in data)
        self.assertEqual(list(decoder), [])
        self.assertEqual(decoder.verdict, (h264v.Kind.NO, 256, 0, 0, 0, "VectorRange", "A.3"))
        self.assertEqual(list(decoder), [])
        self.assertEqual(decoder.verdict, h264v.check(data))

    def test_empty_pieces(self):
        data = read("one_frame.264")
        decoder = h264v.Decoder([b"", data[:9], b"", bytearray(), memoryview(data)[9:], b""])
        self.assertEqual(len(list(decoder)), 1)
        self.assertEqual(decoder.verdict.kind, h264v.Kind.YES)

    def test_a_source_that_fails(self):
        def pieces():
            yield read("one_frame.264")[:9]
            raise OSError("no more")

        with h264v.Decoder(pieces()) as decoder, self.assertRaises(OSError):
            list(decoder)

    def test_numpy(self):
        try:
            import numpy
        except ImportError:
            self.skipTest("numpy is not installed")
        (frame,) = h264v.Decoder(read("one_frame.264"))
        plane = numpy.asarray(frame.y)
        self.assertEqual(plane.shape, (frame.height, frame.width))
        self.assertEqual(plane.tobytes(), bytes(frame.y))
        self.assertTrue(numpy.shares_memory(plane, numpy.asarray(frame.samples)))


def units_of(data):
    """The NAL units of a byte stream whose units have no zero bytes after them."""
    return [unit.rstrip(b"\0") for unit in data.split(b"\0\0\1")[1:]]


class Units(unittest.TestCase):
    def test_a_legal_stream(self):
        data = read("one_frame.264")
        (wanted,) = h264v.Decoder(data)
        with h264v.Decoder() as decoder:
            for unit in units_of(data):
                self.assertIsNone(decoder.send_unit(unit))
                self.assertEqual(list(decoder), [])
            self.assertEqual(decoder.finish(), h264v.check(data))
            (frame,) = decoder
            self.assertEqual(bytes(frame.samples), bytes(wanted.samples))
            self.assertEqual(decoder.send_unit(b"\0"), decoder.verdict)

    def test_places_count_no_start_codes(self):
        data = read("vector_too_long.264")
        with h264v.Decoder(explain=True) as decoder:
            for unit in units_of(data):
                decoder.send_unit(memoryview(unit))
            verdict = decoder.finish()
            found = decoder.explain()
        # The unit stands 14 bytes earlier, without start codes of 4, 4, 3 and 3 bytes.
        self.assertEqual((verdict.label, verdict.bit), ("VectorRange", 256 - 8 * 14))
        self.assertEqual((found["bit"], found["byte"], found["unit"], found["element"]), (144, 18, 29 - 14, "mb_type"))

    def test_what_is_no_unit(self):
        units = units_of(read("one_frame.264"))
        decoder = h264v.Decoder()
        for unit in units:
            for none in (b"", b"\0", units[0] + b"\0", units[0] + b"\0\0\1" + units[1], units[0] + b"\0\0\0" + units[1]):
                with self.assertRaises(ValueError):
                    decoder.send_unit(none)
            self.assertIsNone(decoder.send_unit(unit))
        self.assertEqual(decoder.finish().kind, h264v.Kind.YES)
        decoder.close()
        for call in (decoder.finish, lambda: decoder.send_unit(units[0])):
            with self.assertRaises(ValueError):
                call()


@unittest.skipUnless(os.environ.get("H264V_PROGRAM") and os.environ.get("H264V_STREAMS"), "no program or no streams are named")
class Program(unittest.TestCase):
    def test_frames_and_verdicts_are_the_programs(self):
        names = sorted(glob.glob(os.path.join(os.environ["H264V_STREAMS"], "*.264")))
        self.assertTrue(names)
        for name in names:
            with self.subTest(name), open(name, "rb") as file:
                wanted = subprocess.run([os.environ["H264V_PROGRAM"], "decode", name], capture_output=True)
                decoder = h264v.Decoder(file)
                digest = hashlib.md5(b"".join(bytes(frame.samples) for frame in decoder)).hexdigest()
                self.assertEqual(digest, hashlib.md5(wanted.stdout).hexdigest())
                self.assertEqual(int(decoder.verdict.kind), wanted.returncode)


if __name__ == "__main__":
    unittest.main()
