"""Images of disks that are there: which are refused, by hand; that right and wrong drives are told apart; and what is drawn."""
import tempfile
import unittest
from collections import Counter
from dataclasses import replace
from hashlib import sha256
from pathlib import Path
from unittest.mock import patch

from cases.driven import End
from cases.images import OTHERS, SIZES, Given, ImagesCase, difference_of_images, faults_of
from cases.kinds import case_of
from model.layout import Geometry
from model.plans import Options
from model.switches import switched

IMAGE = bytes.fromhex("13051004 93082000 73000000 13050000 93081000 73000000")
CASE = ImagesCase(Geometry(16, 1, 4096), IMAGE, None, [Options(10, 1, None, events=0)], given=[Given("another")])


class Images(unittest.TestCase):
    def setUp(self):
        switch = switched(keys=True, long_runs=True, programs=True)
        switch.__enter__()
        self.addCleanup(switch.__exit__, None, None, None)

    def faults(self, *given, **what):
        case = replace(CASE, **what)
        return list(faults_of(case, case.disk(), Given(*given)))

    def test_images(self):
        for image, name in [(None, []), ("its own", []), ("a zero more", ["ImageDiffers"]), ("a byte less", ["ImageDiffers"]), ("another", ["ImageDiffers"]),
                            ("empty", ["ImageDiffers"]), ("missing", ["File"]), ("folder", ["File"])]:
            self.assertEqual(self.faults(image), name, image)
            self.assertEqual(self.faults(image, version=1), [], image)
            self.assertEqual(self.faults(image, change=(16, 1)), [], image)

    def test_notes(self):
        """Of a disk with another note its own image is another one."""
        self.assertEqual(self.faults("its own", change=(32, 1)), ["ImageDiffers"])
        self.assertEqual(self.faults("its own", change=(71, 1)), ["ImageDiffers"])
        self.assertEqual(self.faults("its own", change=(72, 1)), [])

    def test_sizes(self):
        self.assertEqual(self.faults("its own", tuple(zip(SIZES, (16, 1, 4096)))), [])
        for name, number in zip(SIZES, (17, 2, 8192)):
            self.assertEqual(self.faults("its own", ((name, number),)), ["BadConfig"])
            self.assertEqual(self.faults(None, ((name, number),), version=1), ["BadConfig"])
            self.assertEqual(self.faults("empty", ((name, number),)), ["BadConfig", "ImageDiffers"])

    def test_digests(self):
        told = faults_of(CASE, CASE.disk(), Given("a zero more"))["ImageDiffers"]
        self.assertEqual(told, ["0e6376304a4316bffed9623510f220e728ef4485ff15af18d591aff9d191d3e4", sha256(IMAGE + b"\0").hexdigest()])
        self.assertEqual(OTHERS["its own"](IMAGE), IMAGE)

    def difference(self, end, write=lambda disk: None):
        def drive_of_program(ckrt, disk, *words):
            write(disk)
            return end
        with patch("cases.images.drive_of_program", drive_of_program), tempfile.TemporaryDirectory() as folder:
            return difference_of_images("ckrt", CASE, Path(folder), Counter(), lambda count: None)

    def test_told(self):
        both = " and ".join(faults_of(CASE, CASE.disk(), Given("another"))["ImageDiffers"])
        self.assertIsNone(self.difference(End(1, "ImageDiffers", both)))
        for end in (End(0), End(1, "File", both), End(1, "ImageDiffers", both[:64]), End(1, "ImageDiffers", both[64:])):
            self.assertIsNotNone(self.difference(end))
        self.assertIsNotNone(self.difference(End(1, "ImageDiffers", both), lambda disk: disk.write_bytes(b"")))

    def test_drawn(self):
        cases = [case_of("images", seed) for seed in range(1, 41)]
        given = {one.image for case in cases for one in case.given}
        self.assertEqual(given, {None, *OTHERS, "missing", "folder"})
        faults = Counter(name for case in cases for one in case.given for name in faults_of(case, case.disk(), one))
        self.assertTrue(all(faults[name] > 3 for name in ("BadConfig", "ImageDiffers", "File")), faults)
        self.assertIn((16, 1), [case.change for case in cases])
