"""bindings/python/build in a small tree, with an rt and a cc that only say they were called."""

import os
import pathlib
import shutil
import subprocess
import tempfile
import unittest

from .cases import ROOT

RT = """#!/bin/sh
echo "rt $*"
[ "$RT_FAILS" = 1 ] && exit 1
mkdir -p out
[ -f out/libyam_c.a ] || echo archive > out/libyam_c.a
"""
# cc -shared -o OUT ARCHIVE: the shared library is the archive with a line more.
CC = """#!/bin/sh
[ "$CC_FAILS" = 1 ] && exit 1
{ cat "$5"; echo shared; } > "$3"
"""
OLD = 1_000_000_000  # a time of change long ago
SAID = "proving and building libyam_c.a"


class Build(unittest.TestCase):
    def setUp(self):
        directory = tempfile.TemporaryDirectory()
        self.addCleanup(directory.cleanup)
        self.tree = pathlib.Path(directory.name)
        self.source = self.tree / "crates" / "yam_c" / "src" / "lib.rt"
        self.script = self.tree / "bindings" / "python" / "build"
        self.archive = self.tree / "target" / "staticlib" / "libyam_c.a"
        self.shared = self.tree / "target" / "python" / "libyam.so"
        library = self.tree / "tools" / "staticlib"
        rt = self.tree / "bin" / "rt"
        for place in (self.source, self.script, library, rt, self.tree / "crates.txt"):
            place.parent.mkdir(parents=True, exist_ok=True)
        self.source.write_text("")
        (self.tree / "crates.txt").write_text("")
        shutil.copy(ROOT / "bindings" / "python" / "build", self.script)
        shutil.copy(ROOT / "tools" / "staticlib", library)
        for name, text in (("rt", RT), ("cc", CC)):
            (self.tree / "bin" / name).write_text(text)
            (self.tree / "bin" / name).chmod(0o755)

    def built(self, **environment):
        """Status and standard error of a build from another directory."""
        path = f"{self.tree / 'bin'}:{os.environ['PATH']}"
        told = {**os.environ, "PATH": path, **environment}
        done = subprocess.run([self.script], cwd="/", env=told, capture_output=True, text=True)
        self.assertEqual(done.stdout, "")
        return done.returncode, done.stderr

    def test_fresh_tree(self):
        status, said = self.built()
        self.assertEqual((status, self.shared.read_text()), (0, "archive\nshared\n"))
        self.assertIn(SAID, said)
        self.assertEqual((self.tree / "target" / "yam_c.log").read_text(), "rt lib\n")

    def test_only_where_it_is_old(self):
        self.built()
        self.assertEqual(self.built(), (0, ""))
        for changed in (self.source, self.tree / "crates.txt"):
            os.utime(self.archive, (OLD, OLD))
            for place in (self.source, self.tree / "crates.txt"):
                os.utime(place, (OLD, OLD))
            self.assertEqual(self.built(), (0, ""))
            os.utime(changed, (OLD + 1, OLD + 1))
            self.assertIn(SAID, self.built()[1])
            # The library is new now, even where rt found nothing to write.
            self.assertEqual(self.built(), (0, ""))

    def test_failures(self):
        status, said = self.built(RT_FAILS="1")
        self.assertEqual((status, said.splitlines()[-1]), (1, "rt lib"))
        self.assertFalse(self.shared.exists())
        self.built()
        self.assertEqual(self.built(CC_FAILS="1")[0], 1)
        self.assertEqual(self.shared.read_text(), "archive\nshared\n")
