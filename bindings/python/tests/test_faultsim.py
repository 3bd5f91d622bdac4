"""The package, on C17 and on circuits of a line. Expected values are worked out by hand."""

import copy
import gc
import inspect
import os
import pathlib
import pickle
import resource
import signal
import subprocess
import sys
import tempfile
import threading
import unittest
import warnings
import weakref
from array import array
from unittest import mock

import faultsim

C17 = """INPUT(1)
INPUT(2)
INPUT(3)
INPUT(6)
INPUT(7)
OUTPUT(22)
OUTPUT(23)
10 = NAND(1, 3)
11 = NAND(3, 6)
16 = NAND(2, 11)
19 = NAND(11, 7)
22 = NAND(10, 16)
23 = NAND(16, 19)
"""
AND = "INPUT(a)\nINPUT(b)\nOUTPUT(z)\nz = AND(a, b)\n"


def _flat(words):
    return words.reshape(-1) if faultsim.numpy is not None else words


class Reading(unittest.TestCase):
    def test_sizes(self):
        with faultsim.Job(C17) as job:
            self.assertEqual((job.sources, job.signals, job.faults), (5, 11, 34))
            self.assertEqual((job.tests, job.blocks), (0, 0))
            self.assertEqual(len(job.classes_of()), 34)

    def test_error_has_kind_and_line(self):
        with self.assertRaises(faultsim.Error) as caught:
            faultsim.Job("INPUT(a)\nz = AND(a, b)\n")
        self.assertEqual((caught.exception.kind, caught.exception.place), (6, 2))
        self.assertEqual(str(caught.exception), "bench line 2: name not defined")

    def test_error_goes_to_another_process(self):
        error = pickle.loads(pickle.dumps(faultsim.Error(6, 2)))
        self.assertEqual((error.kind, error.place), (6, 2))
        self.assertEqual(str(error), "bench line 2: name not defined")

    def test_what_is_no_text(self):
        for text in (pathlib.Path("a.bench"), 5, None, [73]):
            with self.assertRaises(TypeError):
                faultsim.Job(text)

    def test_models_out_of_range(self):
        for model in (3, -1, 1 << 32):
            with self.assertRaises(IndexError):
                faultsim.Job(AND, model)
        with self.assertRaises(TypeError):
            faultsim.Job(AND, "stuck")

    def test_name_of_a_file_in_place_of_its_text(self):
        end = "the name of a file, and a job takes the text in it)"
        for text, hint in (
            ("no.bench", f" ('no.bench' looks like {end}"),
            (b"no.bench", f" ('no.bench' looks like {end}"),
            (__file__, f" ({__file__!r} is {end}"),
            ("z", ""),
            ("z = a.b\n", ""),
            ("INPUT(a.b", ""),
        ):
            with self.assertRaises(faultsim.Error) as caught:
                faultsim.Job(text)
            said = str(caught.exception)
            self.assertEqual(said, f"bench line 1: syntax{hint}")
            self.assertEqual(str(pickle.loads(pickle.dumps(caught.exception))), said)
        with faultsim.Job(AND) as job:
            for call in (
                lambda: job.set_tests("a.tests"),
                lambda: faultsim.firsts(AND, "a.tests"),
                lambda: faultsim.firsts("a.tests", "11\n"),
            ):
                with self.assertRaisesRegex(faultsim.Error, "'a.tests' looks like the name"):
                    call()
            with self.assertRaisesRegex(faultsim.Error, "^tests line 1: not 0 or 1$"):
                job.set_tests("1x")

    def test_types(self):
        calls = [it for name, it in vars(faultsim.Job).items() if not name.startswith("_")]
        for call in [*calls, faultsim.Job.__init__, faultsim.firsts, faultsim.release]:
            types = call.__annotations__
            names = {*inspect.signature(call).parameters} - {"self"}
            self.assertEqual({*types}, names | {"return"})
            self.assertNotIn("Any", types.values(), call)

    def test_release_is_that_of_the_package(self):
        version = faultsim.__version__
        self.assertIn(faultsim.release(), (version, f"{version} (unproved)"))

    def test_closed(self):
        job = faultsim.Job(AND)
        job.close()
        job.close()
        with self.assertRaises(ValueError):
            job.simulate([0])


class Tests(unittest.TestCase):
    def test_one_test_of_c17(self):
        with faultsim.Job(C17) as job:
            for tests, count in (
                ("11111\n", None),
                (b"11111", None),
                ([[1, 1, 1, 1, 1]], None),
                ([1] * 5, 1),
                (array("Q", [1] * 5), 1),
            ):
                job.set_tests(tests, count)
                self.assertEqual(job.tests, 1)
                self.assertEqual(job.coverage(), (14, 34))

    def test_wrong_tests(self):
        with faultsim.Job(AND) as job:
            job.set_tests("11\n")
            for tests, count, error in (
                ("11\n1\n", None, faultsim.Error),
                ([3, 1], 1, faultsim.Error),
                ([[1]], None, IndexError),
                ([[1, 2]], None, ValueError),
                ([1, 1], (1 << 32) + 1, IndexError),
                ([1 << 64, 1], 1, IndexError),
                ("11\n", 1, TypeError),
            ):
                with self.assertRaises(error):
                    job.set_tests(tests, count)
                self.assertEqual((job.tests, job.coverage()), (1, (3, 6)))

    def test_rows_that_raise(self):
        def rows():
            yield [1, 1]
            raise KeyError("amid rows")

        with faultsim.Job(AND) as job:
            job.set_tests("11\n")
            with self.assertRaises(KeyError):
                job.set_tests(rows())
            self.assertEqual((job.tests, job.coverage()), (1, (3, 6)))

    def test_lists_of_other_things(self):
        with faultsim.Job(AND) as job:
            job.set_tests("11\n")
            for call in (
                lambda: job.simulate([True, False]),
                lambda: job.simulate([[0, 1], [2, 3]]),
                lambda: job.detections(1, [True]),
                lambda: job.set_tests([True, True], count=1),
            ):
                with self.assertRaises(TypeError):
                    call()
            self.assertEqual(job.coverage(), (3, 6))

    def test_pair_over_the_edge(self):
        # A buffer: under 0 and then 1 the 1 detects that a line is slow to rise.
        with faultsim.Job("INPUT(a)\nOUTPUT(z)\nz = BUFF(a)\n", faultsim.Model.TRANSITION) as job:
            rise = int(job.classes_of()[0])
            for tests, count in (([[1]], None), ([1], 1)):
                job.set_tests("0\n")
                job.set_tests(tests, count)
                self.assertEqual((job.tests, job.detecting(rise, 0)), (1, 0))
                job.set_tests("1\n0\n")
                job.set_tests(tests, count, keep_last=True)
                self.assertEqual((job.tests, job.detecting(rise, 0)), (2, 0b10))
            # 64 more stand in two blocks: test 64 is the last of them.
            job.set_tests([[0]] * 63 + [[1]], keep_last=True)
            self.assertEqual((job.tests, job.blocks, job.detecting(rise, 1)), (65, 2, 1))
            with self.assertRaises(TypeError):
                job.set_tests("1\n", keep_last=True)
            with self.assertRaises(faultsim.Error) as caught:
                job.set_tests([0] * 1024, 65536, keep_last=True)
            self.assertEqual((caught.exception.kind, job.tests), (12, 65))
        with faultsim.Job(AND) as job:
            job.set_tests([[1, 1]], keep_last=True)
            self.assertEqual(job.tests, 1)

    def test_rows_past_a_block(self):
        # Test 70 alone is 11, which detects z stuck at 0; no test before it does.
        rows = [[0, 1]] * 70 + [[1, 1]]
        with faultsim.Job(AND) as job:
            job.set_tests(rows)
            self.assertEqual((job.tests, job.blocks), (71, 2))
            of, firsts = job.classes_of(), job.simulate()
            found = [int(firsts[int(it)]) for it in of]
            # faults: a sa0, a sa1, b sa0, b sa1, z sa0, z sa1
            self.assertEqual(found, [70, 0, 70, faultsim.NONE, 70, 0])
            self.assertEqual(job.detecting(int(of[4]), 1), 1 << 6)
            self.assertEqual(list(job.detections(3, [int(of[5])])), [3])
            # Of z stuck at 0 test 70 is one; of z stuck at 1 the 70 before it are.
            self.assertEqual([int(it) for it in job.detections(100, [of[4], of[5]])], [1, 70])

    def test_faults_by_name(self):
        with faultsim.Job(AND) as job:
            job.set_tests("11\n01\n")
            names = [f"stem {line} sa{value}" for line in "abz" for value in (0, 1)]
            self.assertEqual(job.fault_names(), names)
            wanted = dict(zip(names, [0, 1, 0, None, 0, 1]))
            self.assertEqual(job.first_tests(), wanted)
            self.assertEqual(job.first_tests(workers=2), wanted)
            for wrong in (6, -1):
                with self.assertRaises(IndexError):
                    job.fault_name(wrong)
        with faultsim.Job(AND, faultsim.Model.TRANSITION) as job:
            self.assertEqual(job.fault_name(5), "stem z stf")

    def test_responses_and_report(self):
        with faultsim.Job("INPUT(a)\nOUTPUT(z)\nq = DFF(a)\nz = NOT(q)\n") as job:
            # A test has a bit for a, and then one for the cell q.
            job.set_tests("10\n11\n01\n")
            a, z = (next(i for i in range(3) if job.name_of(i) == it) for it in "az")
            self.assertEqual([int(it) for it in job.observers()], [z, a])
            words = [int(it) & 0b111 for it in _flat(job.responses())]
            self.assertEqual(words, [0b001, 0b011])
        with faultsim.Job(AND) as job:
            job.set_tests("11\n01\n")
            self.assertEqual(job.report(), "5 of 6 (83.33%)\n")
            self.assertEqual(
                job.report(faultsim.Lines.UNDETECTED, classes=True),
                "stem b sa1 none\n5 of 6 (83.33%)\n3 of 4 classes (75.00%)\n",
            )
            self.assertEqual(job.report(faultsim.Lines.ALL).count("\n"), 7)
            with self.assertRaises(IndexError):
                job.report(3)

    def test_numbers_out_of_range(self):
        with faultsim.Job(AND) as job:
            job.set_tests("11\n")
            for wrong in (-1, job.classes, 1 << 32):
                for call in (
                    lambda: job.detecting(wrong, 0),
                    lambda: job.detecting(0, wrong),
                    lambda: job.word(0, wrong),
                    lambda: job.name_of(wrong),
                    lambda: job.simulate([wrong]),
                    lambda: job.detections(1, [wrong]),
                ):
                    with self.assertRaises(IndexError):
                        call()
            with self.assertRaises(TypeError):
                job.simulate([0.5])

    def test_words_and_names(self):
        with faultsim.Job(AND) as job:
            job.set_tests("11\n01\n")
            self.assertEqual([job.word(0, it) for it in range(3)], [0b01, 0b11, 0b01])
            self.assertEqual(set(int(it) for it in job.stems_of()), {2})
            self.assertEqual(job.source_names(), ["a", "b"])
            self.assertEqual([job.name_of(it) for it in range(3)], ["a", "b", "z"])
            for call in (lambda: job.word(1, 0), lambda: job.name_of(3)):
                with self.assertRaises(IndexError):
                    call()


class Threads(unittest.TestCase):
    def test_workers_find_the_same(self):
        with faultsim.Job(C17) as job:
            job.set_tests("11111\n01010\n10101\n")
            self.assertEqual(list(job.simulate()), list(job.simulate(workers=3)))
            job.set_tests("11111\n")
            self.assertEqual(job.coverage(workers=4), (14, 34))

    def test_other_threads_work(self):
        # The caller's thread takes no share until another thread has taken one.
        own, part = threading.current_thread(), faultsim.Job._part

        def note(job, asked):
            if threading.current_thread() is own:
                self.assertTrue(elsewhere.wait(60))
            else:
                elsewhere.set()
            return part(job, asked)

        with faultsim.Job(C17) as job, mock.patch.object(faultsim.Job, "_part", note):
            job.set_tests("11111\n01010\n")
            for call in (job.simulate, job.first_tests, job.coverage):
                elsewhere = threading.Event()
                wanted = call()
                self.assertFalse(elsewhere.is_set())
                self.assertEqual(list(call(workers=3)), list(wanted))
                self.assertTrue(elsewhere.is_set(), call)

    def test_error_of_another_thread(self):
        # The caller's thread takes no share until another thread has failed with one.
        failed, own, part = threading.Event(), threading.current_thread(), faultsim.Job._part

        def fail_elsewhere(job, asked):
            if threading.current_thread() is own:
                self.assertTrue(failed.wait(60))
                return part(job, asked)
            failed.set()
            raise MemoryError("elsewhere")

        with faultsim.Job(C17) as job, mock.patch.object(faultsim.Job, "_part", fail_elsewhere):
            job.set_tests("11111\n")
            with self.assertRaisesRegex(MemoryError, "elsewhere"):
                job.simulate(workers=2)

    def test_shared_tests_stay(self):
        with faultsim.Job(AND) as job, job.share() as other:
            for it in (job, other):
                with self.assertRaises(RuntimeError):
                    it.set_tests("11\n")
            other.close()
            job.set_tests("11\n")

    def test_new_tests_after_workers(self):
        with faultsim.Job(AND) as job:
            for tests, wanted in (("11\n", (3, 6)), ("11\n01\n", (5, 6))):
                job.set_tests(tests)
                for _ in range(2):
                    self.assertEqual(job.coverage(workers=3), wanted)

    def test_workers_on_lists(self):
        # Two chains: classes of many regions, in any order and more than once.
        gates = "".join(f"{n}{i} = NAND({n}{i - 1}, a)\n" for i in range(1, 300) for n in "xy")
        heads = "INPUT(a)\nOUTPUT(x299)\nOUTPUT(y299)\nx0 = NOT(a)\ny0 = BUFF(x7)\n"
        with faultsim.Job(heads + gates) as job:
            job.set_tests("0\n1\n")
            all_firsts = [int(it) for it in job.simulate()]
            for classes in (
                range(job.classes),
                range(job.classes - 1, -1, -1),
                [5, 3, 5, 0, job.classes - 1] * 40,
                [2],
                [],
            ):
                found = [int(it) for it in job.simulate(classes, workers=3)]
                self.assertEqual(found, [all_firsts[it] for it in classes])
            for wrong in ([0, job.classes], [-1, 0]):
                with self.assertRaises(IndexError):
                    job.simulate(wrong, workers=2)
            self.assertEqual([int(it) for it in job.simulate(workers=2)], all_firsts)

    def test_threads_of_one_job(self):
        # A chain long enough for the calls of several threads to meet.
        gates = "".join(f"n{i} = XOR(n{i - 1}, {'ab'[i % 2]})\n" for i in range(1, 500))
        with faultsim.Job("INPUT(a)\nINPUT(b)\nOUTPUT(n499)\nn0 = NAND(a, b)\n" + gates) as job:
            job.set_tests("00\n01\n10\n11\n")
            wanted, found = list(job.simulate()), []

            def run():
                found.extend(list(job.simulate()) for _ in range(10))

            threads = [threading.Thread(target=run) for _ in range(4)]
            for it in threads:
                it.start()
            for it in threads:
                it.join()
            self.assertTrue(len(found) == 40 and all(it == wanted for it in found))

    def test_new_tests_beside_workers(self):
        # Tests come before or after the workers of another thread, and never among them.
        gates = "".join(f"n{i} = XOR(n{i - 1}, {'ab'[i % 2]})\n" for i in range(1, 500))
        with faultsim.Job("INPUT(a)\nINPUT(b)\nOUTPUT(n499)\nn0 = NAND(a, b)\n" + gates) as job:
            wanted = []
            for tests in ("00\n", "11\n"):
                job.set_tests(tests)
                wanted.append([int(it) for it in job.simulate()])
            self.assertNotEqual(*wanted)
            found = []

            def run():
                found.extend([int(it) for it in job.simulate(workers=3)] for _ in range(10))

            thread = threading.Thread(target=run)
            thread.start()
            for turn in range(40):
                job.set_tests(("00\n", "11\n")[turn % 2])
            thread.join()
            self.assertTrue(len(found) == 10 and all(it in wanted for it in found))

    def test_close_beside_calls(self):
        # Calls of other threads are done, or find the job closed.
        gates = "".join(f"n{i} = XOR(n{i - 1}, {'ab'[i % 2]})\n" for i in range(1, 500))
        bench, ends = "INPUT(a)\nINPUT(b)\nOUTPUT(n499)\nn0 = NAND(a, b)\n" + gates, []

        def run(job, first):
            try:
                while True:
                    job.simulate(workers=2)
                    first.set()
            except ValueError as error:
                ends.append(str(error))

        for _ in range(10):
            job, begun = faultsim.Job(bench), [threading.Event() for _ in range(3)]
            job.set_tests("00\n11\n")
            threads = [threading.Thread(target=run, args=(job, it)) for it in begun]
            for it in threads:
                it.start()
            for it in begun:
                self.assertTrue(it.wait(60))
            job.close()
            for it in threads:
                it.join()
        self.assertEqual(ends, ["the job is closed"] * 30)

    def test_child_processes(self):
        # A child has the job, and none of the threads that simulated.
        with faultsim.Job(C17) as job:
            job.set_tests("11111\n")
            wanted = job.coverage(workers=3)
            with warnings.catch_warnings():
                warnings.simplefilter("ignore", DeprecationWarning)
                child = os.fork()
            if not child:
                same = job.coverage(workers=3) == wanted
                job.set_tests("11111\n11111\n")
                os._exit(0 if same and job.coverage() == wanted else 1)
            self.assertEqual(os.waitpid(child, 0)[1], 0)
            self.assertEqual(job.coverage(workers=3), wanted)

    def test_jobs_that_hold_each_other(self):
        one = faultsim.Job(C17)
        two = one.share()
        one.other, two.other, gone = two, one, weakref.ref(one)
        third = one.share()
        del one, two
        gc.collect()
        self.assertIsNone(gone())
        third.set_tests("11111\n")
        self.assertEqual(third.coverage(), (14, 34))
        third.close()

    def test_calls_of_a_signal_handler(self):
        said = []
        with faultsim.Job(C17) as job:
            job.set_tests("11111\n")
            before = signal.signal(signal.SIGALRM, lambda *_: said.append(job.coverage()))
            try:
                signal.setitimer(signal.ITIMER_REAL, 0.001, 0.001)
                while len(said) < 20:
                    self.assertEqual(job.coverage(workers=2), (14, 34))
            finally:
                signal.setitimer(signal.ITIMER_REAL, 0)
                signal.signal(signal.SIGALRM, before)
        self.assertEqual(set(said), {(14, 34)})

    def test_signal_handler_that_raises(self):
        # Whatever a handler stops, the next tests free what it left. What it stops as a job is
        # collected, Python tells to a hook.
        class Stop(Exception):
            pass

        def forget(_):
            pass

        def stop(*_):
            if armed:
                raise Stop

        rows, stopped, armed = [[1, 1, 1, 1, 1], [0, 1, 0, 1, 0]], 0, []
        before = signal.signal(signal.SIGALRM, stop)
        try:
            with faultsim.Job(C17) as job, mock.patch("sys.unraisablehook", forget):
                for turn in range(300):
                    try:
                        armed.append(turn)
                        signal.setitimer(signal.ITIMER_REAL, 0.0002 + 0.00002 * (turn % 97))
                        job.set_tests(rows)
                        job.simulate(workers=3)
                        job.share().close()
                        job.share()
                        armed.clear()
                    except Stop:
                        armed.clear()
                        stopped += 1
                job.set_tests("11111\n")
                self.assertEqual(job.coverage(workers=2), (14, 34))
        finally:
            signal.setitimer(signal.ITIMER_REAL, 0)
            signal.signal(signal.SIGALRM, before)
        self.assertGreater(stopped, 0)

    def test_job_that_was_not_freed(self):
        # As if a signal handler raised where a job that shares this one is collected.
        with faultsim.Job(C17) as job:
            other = job.share()
            with mock.patch.object(faultsim.Job, "__del__", lambda _: None):
                del other
            job.set_tests("11111\n")
            self.assertEqual(job.coverage(), (14, 34))
            other = job.share()
            with self.assertRaises(RuntimeError):
                job.set_tests("11111\n")
            other.close()

    def test_tests_of_a_handler_amid_a_call(self):
        # The other thread waits until the caller's thread, amid a share, has set other tests.
        part, were_set = faultsim.Job._part, threading.Event()

        def set_tests_first(job, asked):
            if job is not whole:
                self.assertTrue(were_set.wait(60))
            elif not were_set.is_set():
                job.set_tests("11111\n11111\n")
                were_set.set()
            return part(job, asked)

        with faultsim.Job(C17) as whole, mock.patch.object(faultsim.Job, "_part", set_tests_first):
            whole.set_tests("11111\n")
            with self.assertRaisesRegex(RuntimeError, "other tests"):
                whole.simulate(workers=2)
            self.assertEqual((whole.tests, whole.coverage(workers=2)), (2, (14, 34)))

    def test_memory_is_freed(self):
        # A chain of 2,000 gates takes megabytes. 60 jobs that stay would take over 60 MB.
        gates = "".join(f"n{i} = NOT(n{i - 1})\n" for i in range(1, 2000))
        bench = f"INPUT(n0)\nOUTPUT(n1999)\n{gates}"

        def resident():
            with open("/proc/self/statm", encoding="ascii") as file:
                return int(file.read().split()[1]) * resource.getpagesize()

        def read_again(job):
            job.__init__(bench)

        def close(job):
            job.close()

        def read_wrong(job):
            with self.assertRaises(faultsim.Error):
                faultsim.Job(f"{bench}x = ")

        def share(job):
            job.set_tests("1\n")
            with job.share() as other:
                other.simulate(workers=2)

        for free in (read_again, close, read_wrong, share):
            job = faultsim.Job(bench)
            with faultsim.Job(bench) as other:
                self.assertEqual(other.sources, 1)
            before = resident()
            kept = [job]
            for _ in range(60):
                free(kept[-1])
                if free is close:
                    kept.append(faultsim.Job(bench))
            self.assertLess(resident() - before, 20_000_000, free.__name__)
            kept[-1].close()

    def test_no_copies(self):
        with faultsim.Job(AND) as job:
            for call in (copy.copy, copy.deepcopy, pickle.dumps):
                with self.assertRaises(TypeError):
                    call(job)

    def test_jobs_of_two_threads(self):
        found = []

        def run():
            with faultsim.Job(C17) as job:
                job.set_tests("11111\n")
                found.append(job.coverage())

        threads = [threading.Thread(target=run) for _ in range(2)]
        for it in threads:
            it.start()
        for it in threads:
            it.join()
        self.assertEqual(found, [(14, 34)] * 2)


class InOneCall(unittest.TestCase):
    def test_firsts(self):
        found = faultsim.firsts(C17, "11111\n")
        self.assertEqual(sum(int(it) != faultsim.NONE for it in found), 14)

    def test_module(self):
        with tempfile.NamedTemporaryFile("w") as bench, tempfile.NamedTemporaryFile("w") as tests:
            bench.write(C17)
            tests.write("11111\n")
            bench.flush()
            tests.flush()
            words = [sys.executable, "-m", "faultsim", bench.name, tests.name]
            said = subprocess.run(words, capture_output=True, text=True, check=True)
        self.assertEqual(said.stdout, "14 of 34 (41.17%)\n")

    def test_module_with_a_model(self):
        # Under 0 and then 1 a buffer's two lines are slow to rise, of four faults.
        for model, wanted in (
            ("stuck", "4 of 4 (100.00%)\n"),
            ("transition", "2 of 4 (50.00%)\n"),
            ("transition-pairs", "2 of 4 (50.00%)\n"),
        ):
            self.assertEqual(self.printed("0\n1\n", model), wanted)
        self.assertEqual(self.printed("1\n0\n1\n", "transition"), "4 of 4 (100.00%)\n")
        self.assertEqual(self.printed("1\n0\n1\n", "transition-pairs"), "2 of 4 (50.00%)\n")

    def printed(self, tests, model):
        """What the module prints of a buffer."""
        with tempfile.TemporaryDirectory() as folder:
            bench, rows = pathlib.Path(folder, "a.bench"), pathlib.Path(folder, "a.tests")
            bench.write_text("INPUT(a)\nOUTPUT(z)\nz = BUFF(a)\n", encoding="ascii")
            rows.write_text(tests, encoding="ascii")
            words = [sys.executable, "-m", "faultsim", str(bench), str(rows), model]
            return subprocess.run(words, capture_output=True, text=True, check=True).stdout


@unittest.skipIf(faultsim.numpy is None, "numpy is not there")
class Arrays(unittest.TestCase):
    def test_rows_of_numpy(self):
        rows = faultsim.numpy.array([[0, 1]] * 70 + [[1, 1]], dtype=bool)
        with faultsim.Job(AND) as job:
            job.set_tests(rows)
            firsts = job.simulate(faultsim.numpy.arange(job.classes))
            self.assertEqual(firsts.dtype, faultsim.numpy.uint32)
            self.assertEqual(int(firsts[int(job.classes_of()[4])]), 70)
            with self.assertRaises(IndexError):
                job.set_tests(faultsim.numpy.zeros((2, 3)))

    def test_types_and_layouts_of_rows(self):
        numpy = faultsim.numpy
        rows = numpy.array([[0, 1]] * 70 + [[1, 1]])
        with faultsim.Job(AND) as job:
            for right in (
                *(rows.astype(kind) for kind in ("i1", "u8", ">i4", "f4", "f8")),
                numpy.asfortranarray(rows),
                numpy.repeat(rows, 2, axis=0)[::2],
                numpy.ascontiguousarray(rows[::-1, ::-1])[::-1, ::-1],
                list(rows),
            ):
                job.set_tests([])
                job.set_tests(right)
                self.assertEqual(job.tests, 71)
                self.assertEqual([job.word(1, it) & 127 for it in (0, 1)], [64, 127])
            for wrong in (rows * 2, rows * 0.5, rows.astype(object), rows.astype(str)):
                with self.assertRaises(ValueError):
                    job.set_tests(wrong)
            for wrong in (rows[0], rows[None], rows.T):
                with self.assertRaisesRegex(IndexError, "shape"):
                    job.set_tests(wrong)
            self.assertEqual(job.tests, 71)

    def test_shapes_of_words(self):
        # 65 tests of two sources: only the last has a 1 at a, and only test 63 one at b.
        numpy = faultsim.numpy
        words = numpy.array([[0, 1 << 63], [1, 0]], numpy.uint64)
        with faultsim.Job(AND) as job:
            for right in (words, numpy.asfortranarray(words), words.astype(">u8")):
                job.set_tests(right, count=65)
                self.assertEqual([job.word(0, 0), job.word(0, 1)], [0, 1 << 63])
                self.assertEqual([job.word(1, it) & 1 for it in (0, 1)], [1, 0])
            job.set_tests(numpy.zeros((3, 2), numpy.uint64), count=129)
            for wrong in (
                numpy.zeros((2, 3), numpy.uint64),
                numpy.zeros((6, 1), numpy.uint64),
                numpy.zeros((1, 3, 2), numpy.uint64),
                numpy.array(0, numpy.uint64),
            ):
                with self.assertRaisesRegex(IndexError, "shape"):
                    job.set_tests(wrong, count=129)
            self.assertEqual(job.tests, 129)

    def test_masked_arrays_and_shapes_of_lists(self):
        masked = faultsim.numpy.ma.masked_array
        with faultsim.Job(AND) as job:
            job.set_tests("11\n")
            for call in (
                lambda: job.simulate(masked([0, 1], mask=[True, False])),
                lambda: job.set_tests(masked([[1, 1]], mask=[[True, False]])),
                lambda: job.set_tests(masked([1, 1], mask=[True, False]), count=1),
            ):
                with self.assertRaises(TypeError):
                    call()
            for wrong in (faultsim.numpy.zeros((2, 2), int), faultsim.numpy.array(3)):
                with self.assertRaisesRegex(IndexError, "shape"):
                    job.simulate(wrong)
            self.assertEqual((job.tests, job.coverage()), (1, (3, 6)))

    def test_arrays_of_other_numbers(self):
        numpy = faultsim.numpy
        with faultsim.Job(AND) as job:
            job.set_tests("11\n01\n")
            wanted = list(job.simulate([0, 1]))
            odd = numpy.frombuffer(bytes(1) + array("I", [0, 1]).tobytes(), numpy.uint32, offset=1)
            for classes in (odd, numpy.array([0, 1], ">i8"), numpy.array([0, 7, 1])[::2]):
                self.assertEqual(list(job.simulate(classes)), wanted)
            self.assertEqual(len(job.simulate(numpy.array([]))), 0)
            for classes, error in (
                (numpy.array([True, False]), TypeError),
                (list(numpy.array([True, False])), TypeError),
                ([numpy.array([0, 1]), numpy.array([2, 3])], TypeError),
                (numpy.array([0.5]), TypeError),
                (numpy.array([1 << 32]), IndexError),
                (numpy.array([-1]), IndexError),
            ):
                with self.assertRaises(error):
                    job.simulate(classes)
            with self.assertRaises(IndexError):
                job.set_tests(numpy.array([-1, -1]), count=64)


if __name__ == "__main__":
    unittest.main()
