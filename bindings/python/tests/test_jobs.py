"""Tests of jobs that are kept between calls."""
import copy
import gc
import os
import random
import subprocess
import sys
import threading
import types
import unittest
from unittest import mock

import boxglue
from boxglue import _job, _library

from .samples import ANSWERS, RULE, TEXT, examples, plain

PACKAGE = os.path.dirname(os.path.dirname(boxglue.__file__))


def pieces(script, most, numbers=random.Random(49)):
    """A script cut at line ends into pieces of 0 to `most` lines."""
    lines = script.splitlines(keepends=True)
    while lines:
        count = numbers.randint(0, most)
        yield "".join(lines[:count])
        del lines[:count]


def run_pieces(script, fonts, most):
    """The run of a script in pieces, where all that is there is taken after each piece."""
    with boxglue.Job(fonts) as job:
        answered, taken = [], []
        for piece in pieces(script, most):
            answered.append(job.commands(piece))
            taken.append(job.take())
        answered.append(job.finish())
        taken.append(job.take())
    return (
        "".join(it.answers_text for it in answered),
        b"".join(taken),
        all(it.accepted for it in answered),
    )


def whole(script, fonts):
    """The same of one run."""
    ran = boxglue.run(script, fonts)
    return ran.answers_text, ran.dvi, ran.accepted


class Jobs(unittest.TestCase):
    def test_pieces_of_all_examples(self):
        names = []
        for name, script, fonts in examples():
            wanted = whole(script, fonts)
            self.assertTrue(wanted[1], name)
            for most in (1, 2, 5, 40):
                self.assertEqual(run_pieces(script, fonts, most), wanted, name)
            names.append(name)
        self.assertIn("paragraph.box", names)

    def test_refused_commands_in_pieces(self):
        script = "ship 3\nend\n% a note\n\n" + TEXT + RULE
        self.assertEqual(run_pieces(script, {}, 3), whole(script, {}))

    def test_answers_of_a_piece(self):
        with boxglue.Job() as job:
            answers = job.commands("hbox into 0\n")
            self.assertEqual(
                ([*answers.replies], answers.answers_text, answers.accepted),
                ([boxglue.Ok(1)], "1: ok\n", True),
            )
            answers = job.commands("rule 1pt 1pt 0pt\nship 9")
            self.assertEqual(
                (answers.answers_text, answers.accepted), ("2: ok\n3: refused 21 VoidBox\n", False)
            )
            self.assertRaises(boxglue.Refused, answers.check)
            self.assertEqual(([*job.commands("").replies], job.commands("").accepted), ([], True))
            self.assertEqual(
                job.commands("end\n").check().answers_text,
                "4: packed 1.0pt 1.0pt 0.0pt badness 0\n",
            )

    def test_bad_piece_leaves_the_job(self):
        with boxglue.Job() as job:
            job.commands("hbox into 0\nrule 1pt 1pt 0pt\n").check()
            (refused,) = job.commands("end\nship 0\nkern x\n").refusals
            self.assertEqual(
                (refused.line, refused.name, refused.cause), (5, "BadScript", "Dimension")
            )
            self.assertEqual(job.take(), b"")
            self.assertEqual(
                job.commands("end\nship 0\n").answers_text, "".join(ANSWERS.splitlines(True)[2:4])
            )
            self.assertEqual(
                job.finish().answers_text + str(len(job.take())), "end: pages 1 bytes 116\n116"
            )

    def test_bytes_go_out_with_each_page(self):
        with boxglue.Job() as job:
            self.assertEqual(job.take(), b"")
            taken = []
            for _ in range(3):
                job.commands(RULE).check()
                taken.append(job.take())
                self.assertEqual(job.take(), b"")
            job.finish().check()
            self.assertTrue(all(taken))
            self.assertEqual(b"".join(taken) + job.take(), boxglue.run(RULE * 3).dvi)

    def test_outputs_that_need_larger_buffers(self):
        script = "".join(RULE.replace("1pt 0pt", f"{it}pt 0pt") for it in range(1, 3001))
        with boxglue.Job() as job:
            answers, end = job.commands(script).check(), job.finish().check()
            self.assertEqual(
                (answers.answers_text + end.answers_text, job.take(), True), whole(script, {})
            )

    def test_end_with_an_open_list(self):
        with boxglue.Job() as job:
            job.commands("hbox into 0\n").check()
            (refused,) = job.finish().refusals
            self.assertEqual(refused.name, "ListsOpen")
            job.commands("end\n").check()
            self.assertEqual([*job.finish().check().replies], [boxglue.End(0, 0)])

    def test_closed(self):
        job = boxglue.Job()
        self.assertEqual((job.closed, repr(job)), (False, "<boxglue.Job>"))
        job.close()
        self.assertEqual((job.closed, repr(job)), (True, "<boxglue.Job, closed>"))

    def test_after_the_end(self):
        with boxglue.Job() as job:
            job.finish().check()
            self.assertEqual([it.name for it in job.commands(RULE).refusals], ["JobOver"] * 4)
            self.assertEqual([it.name for it in job.finish().refusals], ["JobOver"])
            self.assertEqual(job.take(), b"")

    def test_closed_job(self):
        job = boxglue.Job(plain())
        job.commands(RULE).check()
        job.close()
        job.close()
        for call in (
            lambda: job.commands(RULE),
            job.take,
            job.finish,
            lambda: job.__enter__().commands(""),
        ):
            self.assertRaises(boxglue.NoJob, call)

    def test_fonts_are_copied(self):
        job = boxglue.Job([("".join("plain"), bytes(bytearray(plain()["plain"])))])
        gc.collect()
        self.assertTrue(job.commands(TEXT).accepted)
        self.assertRaises(boxglue.BadFontName, boxglue.Job, {"": b""})
        self.assertEqual(boxglue.Job().commands(TEXT).refusals[0].name, "NoFont")

    def test_job_cannot_be_copied(self):
        self.assertRaises(TypeError, copy.copy, boxglue.Job())

    def test_jobs_side_by_side(self):
        jobs = [boxglue.Job() for _ in range(100)]
        for line in RULE.splitlines():
            self.assertTrue(all(it.commands(line).accepted for it in jobs))
        self.assertTrue(all(it.finish().accepted for it in jobs))
        self.assertEqual({it.take() for it in jobs}, {boxglue.run(RULE).dvi})

    def test_job_of_several_threads(self):
        with boxglue.Job() as job:
            run_all = lambda: [job.commands("void 0\n").check() for _ in range(200)]
            threads = [threading.Thread(target=run_all) for _ in range(4)]
            for it in threads:
                it.start()
            for it in threads:
                it.join()
            self.assertEqual(job.commands("void 0\n").answers_text, "801: ok\n")


# A program that ends while a daemon thread is inside a call on a job. The library is a stand-in
# whose call waits, and which says what is freed meanwhile.
CLOSES = """
import boxglue, signal
job = boxglue.Job()
signal.signal(signal.SIGALRM, lambda *_: job.close())
signal.setitimer(signal.ITIMER_REAL, 0.2)
try:
    while True:
        job.commands("hbox into 1\\nend\\n" * 200)
except boxglue.NoJob:
    print("closed")
"""

ENDS = """
import threading, time, boxglue
from boxglue import _job
inside, library = threading.Event(), _job.library()
class Slow:
    boxglue_job_new = library.boxglue_job_new
    boxglue_job_free = staticmethod(lambda handle: print("freed inside a call", flush=True))
    @staticmethod
    def boxglue_job_run(*words):
        inside.set()
        time.sleep(60)
_job.library = lambda: Slow
job = boxglue.Job()
threading.Thread(target=job.commands, args=("hbox into 0\\n",), daemon=True).start()
inside.wait(60)
"""


class Released:
    """A lock at whose first release KeyboardInterrupt comes."""

    def __init__(self, lock):
        self.lock, self.first = lock, True

    def __enter__(self):
        self.lock.acquire()

    def __exit__(self, *_error):
        self.lock.release()
        if self.first:
            self.first = False
            raise KeyboardInterrupt


def cuts_off(count):
    """A profile function by which KeyboardInterrupt comes after so many calls of functions in C by
    the package."""
    left = iter(range(count, -1, -1))

    def profile(frame, event, _called):
        if (
            event == "c_return"
            and frame.f_globals["__name__"].startswith("boxglue")
            and not next(left)
        ):
            raise KeyboardInterrupt

    return profile


class Ends(unittest.TestCase):
    def test_cut_off_after_a_call(self):
        """The replies to a call that was cut off before they were taken are not those of the next
        call."""
        for error in (KeyboardInterrupt, MemoryError):
            with boxglue.Job() as job:
                with mock.patch.object(_job, "replies_of", side_effect=error):
                    self.assertRaises(error, job.commands, "ship 3\n")
                answers = job.commands("hbox into 0\n")
                self.assertEqual((answers.answers_text, answers.accepted), ("2: ok\n", True))
                with mock.patch.object(_job, "replies_of", side_effect=error):
                    self.assertRaises(error, job.finish)
                self.assertEqual(
                    job.commands("end\n").check().answers_text,
                    "3: packed 0.0pt 0.0pt 0.0pt badness 0\n",
                )

    def test_bytes_that_were_cut_off(self):
        """Bytes of the file that were not handed on are in those of the next call."""
        script = (
            RULE
            + RULE.replace(
                "rule", "special " + "x" * 60_000 + "\nspecial " + "y" * 60_000 + "\nrule"
            )
            + RULE
        )
        wanted, taken = boxglue.run(script).check().dvi, []
        with boxglue.Job() as job:
            for line in script.splitlines():
                job.commands(line).check()
                with mock.patch("ctypes.string_at", side_effect=MemoryError):
                    self.assertRaises(MemoryError, job.take)
                taken.append(job.take() if len(taken) % 2 else b"")
            job.finish().check()
            with mock.patch.object(_job, "new_buffer", side_effect=KeyboardInterrupt):
                self.assertRaises(KeyboardInterrupt, job.take)
            taken.append(job.take())
            self.assertEqual((b"".join(taken), job.take()), (wanted, b""))

    def test_bytes_that_were_cut_off_at_the_end(self):
        """Bytes are in the next call, also where the one that had them all was cut off before it
        returned them."""
        wanted = boxglue.run(RULE).check().dvi
        with boxglue.Job() as job:
            job.commands(RULE).check()
            with mock.patch.object(job, "_lock", Released(job._lock)):
                self.assertRaises(KeyboardInterrupt, job.take)
                job.finish().check()
                self.assertEqual((job.take(), job.take()), (wanted, b""))

    def test_cut_off_anywhere(self):
        """A call that is cut off at any place hands its bytes over in the next one, and none
        twice."""
        wanted, count, taken = boxglue.run(RULE).check().dvi, 0, b""
        while not taken:
            with boxglue.Job() as job:
                job.commands(RULE).check()
                job.finish().check()
                sys.setprofile(cuts_off(count))
                try:
                    taken = job.take()
                except KeyboardInterrupt:
                    count += 1
                finally:
                    sys.setprofile(None)
                self.assertEqual(taken + job.take(), wanted)
        self.assertGreater(count, 5)

    def test_a_signal_handler_closes_the_job(self):
        """A handler that interrupts a call does not wait for it, and later calls raise NoJob."""
        done = subprocess.run(
            [sys.executable, "-c", CLOSES],
            env={**os.environ, "PYTHONPATH": PACKAGE},
            stdout=subprocess.PIPE,
            timeout=60,
        )
        self.assertEqual((done.stdout, done.returncode), (b"closed\n", 0))

    def test_closed_job_keeps_no_buffers(self):
        job = boxglue.Job()
        job.close()
        self.assertRaises(boxglue.NoJob, job.take)
        self.assertEqual(job._filled, [])

    def test_thread_inside_a_call(self):
        """A job is not freed while a thread is inside a call on it."""
        done = subprocess.run(
            [sys.executable, "-c", ENDS],
            env={**os.environ, "PYTHONPATH": PACKAGE},
            stdout=subprocess.PIPE,
            timeout=60,
        )
        self.assertEqual((done.stdout, done.returncode), (b"", 0))

    def test_dropped_job(self):
        """A job that is dropped is freed."""
        library, freed = _library.library(), []
        slow = types.SimpleNamespace(
            boxglue_job_new=library.boxglue_job_new,
            boxglue_job_free=lambda handle: (freed.append(1), library.boxglue_job_free(handle)),
        )
        with mock.patch.object(_job, "library", lambda: slow):
            job = boxglue.Job()
        del job
        gc.collect()
        self.assertEqual(freed, [1])


if __name__ == "__main__":
    unittest.main()
