"""What tests of scripts stand on: a folder of their own, into which they write."""
import os
import tempfile
import unittest


class MadeFolder(unittest.TestCase):
    def setUp(self):
        folder = tempfile.TemporaryDirectory()
        self.addCleanup(folder.cleanup)
        self.folder = folder.name

    def write(self, path, text):
        """Writes a text to a path below the folder, and gives the whole path."""
        path = f"{self.folder}/{path}"
        os.makedirs(os.path.dirname(path), exist_ok=True)
        with open(path, "w", encoding="utf-8") as file:
            file.write(text)
        return path

    def patched(self, *patches):
        """Patches that hold as long as the test."""
        for it in patches:
            it.start()
            self.addCleanup(it.stop)
