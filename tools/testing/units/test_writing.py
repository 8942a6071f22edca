"""Tests how judge writes the files of --html and --prometheus."""

import os
import pathlib
import stat
import tempfile
import threading
import unittest
from unittest import mock

from pgshard_tools.judging import writing
from pgshard_tools.judging.faults import BAD_COMMAND, Fault

# The numbers of /dev/null and /dev/full, of which the tests make nodes of their own.
NULL, FULL = os.makedev(1, 3), os.makedev(1, 7)


class InFolder(unittest.TestCase):
    """A test with a folder of its own."""

    def setUp(self) -> None:
        name = tempfile.TemporaryDirectory()
        self.addCleanup(name.cleanup)
        self.folder = pathlib.Path(name.name)

    def names(self) -> list[str]:
        return sorted(it.name for it in self.folder.iterdir())

    def device(self, name: str, number: int) -> pathlib.Path:
        """Makes a node of a device, if this user may."""
        try:
            os.mknod(self.folder / name, stat.S_IFCHR | 0o666, number)
            with open(self.folder / name, "rb"):
                return self.folder / name
        except PermissionError:
            self.skipTest("this user may not make devices, or not open them here")


class Files(InFolder):
    def test_files_that_are_written(self) -> None:
        (self.folder / "file").write_text("old, and longer than the text")
        (self.folder / "file.new").write_text("of a user")
        (self.folder / "link").symlink_to("file")
        (self.folder / "far").symlink_to("link")
        (self.folder / "loose").symlink_to("made")
        for name, of in {"file": "file", "other": "other", "link": "file", "far": "file", "loose": "made"}.items():
            with self.subTest(name):
                writing.write(str(self.folder / name), f"to {name} \udcff")
                self.assertEqual((self.folder / of).read_text(), f"to {name} \\udcff")
                self.assertEqual((self.folder / name).is_symlink(), of != name)
        self.assertEqual((self.folder / "file.new").read_text(), "of a user")
        self.assertEqual(self.names(), ["far", "file", "file.new", "link", "loose", "made", "other"])

    def test_a_file_without_its_folder(self) -> None:
        before = os.getcwd()
        os.chdir(self.folder)
        self.addCleanup(os.chdir, before)
        writing.write("file", "text")
        self.assertEqual((self.folder / "file").read_text(), "text")

    def test_modes(self) -> None:
        before = os.umask(0o027)
        self.addCleanup(os.umask, before)
        for mode, expected in {None: 0o640, 0o644: 0o644}.items():
            with self.subTest(mode):
                writing.write(str(self.folder / "file"), "text", mode)
                self.assertEqual((self.folder / "file").stat().st_mode & 0o777, expected)


class OtherThanFiles(InFolder):
    def test_devices(self) -> None:
        node = self.device("null", NULL)
        (self.folder / "link").symlink_to("null")
        for name in "null", "link":
            with self.subTest(name):
                writing.write(str(self.folder / name), "text")
                self.assertTrue(stat.S_ISCHR(node.stat().st_mode))
        self.assertEqual(self.names(), ["link", "null"])

    def test_a_pipe(self) -> None:
        path = self.folder / "pipe"
        os.mkfifo(path)
        found: list[str] = []
        reading = threading.Thread(target=lambda: found.append(path.read_text()), daemon=True)
        reading.start()
        writing.write(str(path), "text")
        reading.join(60)
        self.assertEqual(found, ["text"])
        self.assertTrue(stat.S_ISFIFO(path.stat().st_mode))


class Faults(InFolder):
    def refused(self, path: pathlib.Path | str) -> str:
        with self.assertRaises(Fault) as raised:
            writing.write(str(path), "text")
        self.assertEqual(raised.exception.status, BAD_COMMAND)
        return raised.exception.words.removeprefix(f"cannot write {path}: ")

    def test_names_that_cannot_be_written(self) -> None:
        (self.folder / "round").symlink_to("round")
        for name, reason in {"none/file": "No such file or directory", "": "Is a directory",
                             "round": "Too many levels of symbolic links"}.items():
            with self.subTest(name):
                self.assertEqual(self.refused(self.folder / name), reason)
        self.assertEqual(self.names(), ["round"])

    def test_a_disk_that_is_full(self) -> None:
        node = self.device("full", FULL)
        self.assertEqual(self.refused(node), "No space left on device")
        self.assertTrue(stat.S_ISCHR(node.stat().st_mode))

    def test_that_no_file_is_left(self) -> None:
        (self.folder / "file").write_text("old")
        with mock.patch("os.replace", side_effect=OSError(28, "No space left on device")):
            self.assertEqual(self.refused(self.folder / "file"), "No space left on device")
        self.assertEqual((self.names(), (self.folder / "file").read_text()), (["file"], "old"))


if __name__ == "__main__":
    unittest.main()
