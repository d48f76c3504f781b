"""The pool of programs: which queries share a script, limits, what is cancelled, and that no program stays."""
import os
import signal
import subprocess
import sys
import threading
import time
import unittest
from unittest import mock

import support
from skyq_lib.errors import SkyqError
from skyq_lib.pool import Busy, Cancelled, Pool, Question

SLOW = os.path.join(support.HERE, "slow_program.py")


def is_alive(pid):
    """Whether a process is there and has not ended."""
    try:
        with open(f"/proc/{pid}/stat", encoding="ascii") as file:
            return file.read().rsplit(")", 1)[1].split()[0] != "Z"
    except FileNotFoundError:
        return False


def until(holds, seconds=60.0):
    """Waits for something; whether it came to hold."""
    end = time.monotonic() + seconds
    while time.monotonic() < end:
        if holds():
            return True
        time.sleep(0.01)
    return holds()


class Programs(support.WithFolder):
    def setUp(self):
        super().setUp()
        before = os.environ.get("SKYQ_PROGRAM")
        os.environ["SKYQ_PROGRAM"] = SLOW
        self.addCleanup(lambda: os.environ.pop("SKYQ_PROGRAM") if before is None else os.environ.update(SKYQ_PROGRAM=before))
        for name in ("sky.txt", "catalogue.csv", "log"):
            self.write(name, "")

    def write(self, name, text):
        with open(self.path(name), "w", encoding="utf-8") as file:
            file.write(text)

    def pool(self, programs=1, **more):
        pool = Pool(self.folder, programs, 0, **more)
        self.addCleanup(pool.close)
        pool.start()
        return pool

    def log(self, word):
        """The numbers of the log's lines that begin with a word."""
        with open(self.path("log"), encoding="utf-8") as file:
            return [tuple(int(number) for number in line.split()[1:]) for line in file if line.startswith(word)]

    def asked(self, pool, queries, seconds=60.0):
        """Asks queries at once; what each got, by query: a number, or the fault."""
        found = {}

        def ask(query):
            try:
                found[query] = int(pool.ask(query, seconds).columns[0].whole[0])
            except (SkyqError, Cancelled) as fault:
                found[query] = fault

        threads = [threading.Thread(target=ask, args=(query,)) for query in queries]
        for thread in threads:
            thread.start()
        for thread in threads:
            thread.join()
        return found


    def held(self, pool):
        """Lets a pool's program work until self.let_go(thread, count): until so many queries wait."""
        thread = threading.Thread(target=self.asked, args=(pool, ["hold go"]))
        thread.start()
        self.assertTrue(until(lambda: self.log("script")))
        return thread

    def let_go(self, pool, thread, count):
        self.assertTrue(until(lambda: len(pool.waiting) >= count))
        self.write("go", "")
        thread.join()


class Scripts(Programs):
    def test_queries_that_wait_together_share_a_script(self):
        pool = self.pool()
        first, found = self.held(pool), {}
        words = {f"say {'x' * k}": k for k in range(20)}
        second = threading.Thread(target=lambda: found.update(self.asked(pool, words)))
        second.start()
        self.let_go(pool, first, 20)
        second.join()
        self.assertEqual(found, words)
        self.assertEqual([count for _, count in self.log("script")], [1, 20])

    def test_no_script_has_more_than_64(self):
        pool = self.pool(programs=2)
        words = {f"say {'x' * k}": k for k in range(150)}
        self.assertEqual(self.asked(pool, words), words)
        counts = [count for _, count in self.log("script")]
        self.assertEqual(sum(counts), 150)
        self.assertLessEqual(max(counts), 64)

    def test_the_last_program_waits_for_queries_that_come_later(self):
        with mock.patch("skyq_lib.pool.LAST_QUIET", 90.0), mock.patch("skyq_lib.pool.LAST_LONGEST_QUIET", 90.0):
            pool, found = self.pool(), {}
            first = threading.Thread(target=lambda: found.update(self.asked(pool, ["say "])))
            first.start()
            self.assertTrue(until(lambda: pool.waiting))
            words = {f"say {'x' * k}": k for k in range(1, 64)}
            self.assertEqual(self.asked(pool, words), words)
            first.join()
        self.assertEqual((found, [count for _, count in self.log("script")]), ({"say ": 0}, [64]))

    def test_a_program_does_not_wait_long_while_another_is_ready(self):
        with mock.patch("skyq_lib.pool.LAST_QUIET", 90.0), mock.patch("skyq_lib.pool.LAST_LONGEST_QUIET", 90.0):
            pool, begun = self.pool(programs=2), time.monotonic()
            self.assertTrue(until(lambda: pool.ready == 2))
            self.assertEqual(self.asked(pool, ["say abc"]), {"say abc": 3})
        self.assertLess(time.monotonic() - begun, 80)

    def test_a_program_stands_ready_while_another_works(self):
        pool = self.pool(programs=2)
        slow = threading.Thread(target=self.asked, args=(pool, ["sleep 90"], 100.0))
        slow.start()
        self.assertTrue(until(lambda: self.log("script")))
        self.assertEqual(self.asked(pool, ["say abc"]), {"say abc": 3})
        self.assertTrue(slow.is_alive())
        pool.close()
        slow.join()

    def test_a_script_longer_than_a_pipe_holds(self):
        pool = self.pool()
        words = {f"say {'x' * (10000 + k)}": 10000 + k for k in range(30)}
        self.assertEqual(self.asked(pool, words), words)

    def test_a_query_that_ends_the_program_takes_no_other_with_it(self):
        pool = self.pool()
        first, found = self.held(pool), {}
        second = threading.Thread(target=lambda: found.update(self.asked(pool, ["say a", "crash", "say abc"])))
        second.start()
        self.let_go(pool, first, 3)
        second.join()
        self.assertEqual((found["say a"], found["say abc"]), (1, 3))
        self.assertEqual(str(found["crash"]), "the program failed: out of memory")
        self.assertEqual([count for _, count in self.log("script")], [1, 3, 1, 1, 1])

    def test_a_refusal_is_an_answer(self):
        self.assertEqual(self.pool().ask("refuse", 20).why, "not a query")


class Limits(Programs):
    def test_a_query_that_takes_too_long_ends_its_program(self):
        pool = self.pool()
        for seconds in (1, 10, 60):     # a busy machine may not have begun by then
            found = self.asked(pool, ["sleep 90"], seconds)
            self.assertEqual(str(found["sleep 90"]), f"the query took more than {seconds} s; ask for less, or give it more time as an asynchronous job")
            if self.log("script"):
                break
        [(pid, _)] = self.log("script")
        self.assertTrue(until(lambda: not is_alive(pid)))
        self.assertEqual(self.asked(pool, ["say abc"]), {"say abc": 3})

    def test_the_queue_has_a_length(self):
        pool = self.pool(most_waiting=3)
        slow, questions = self.held(pool), [Question(f"say {'x' * k}") for k in range(3)]
        for one in questions:
            pool.put(one)
        with self.assertRaises(Busy) as caught:
            pool.ask("say a", 20)
        self.assertEqual(str(caught.exception), "3 queries wait already; ask again later")
        self.let_go(pool, slow, 3)
        for length, one in enumerate(questions):
            self.assertTrue(one.done.wait(60))
            self.assertEqual(one.answer.columns[0].whole.tolist(), [length])

    def test_a_client_that_goes_away_ends_its_query(self):
        pool, begun = self.pool(), time.monotonic()
        with self.assertRaises(Cancelled):
            pool.ask("sleep 90", 80, is_wanted=lambda: time.monotonic() - begun < 2)
        self.assertLess(time.monotonic() - begun, 60)
        [(pid, _)] = self.log("script")
        self.assertTrue(until(lambda: not is_alive(pid)))


class Cancels(Programs):
    def test_a_cancelled_query_ends_its_program_and_the_others_are_asked_again(self):
        pool, held = self.pool(), []
        first = self.held(pool)
        faults = []

        def hold():
            try:
                pool.ask("sleep 90", 80, hold=held.append)
            except Cancelled as fault:
                faults.append(fault)

        found = {}
        threads = [threading.Thread(target=hold), threading.Thread(target=lambda: found.update(self.asked(pool, ["say a", "say abc"])))]
        for thread in threads:
            thread.start()
        self.let_go(pool, first, 3)
        self.assertTrue(until(lambda: len(self.log("script")) == 2))
        self.assertEqual(self.log("script")[1][1], 3)
        pool.cancel(held[0])
        for thread in threads:
            thread.join()
        self.assertEqual((len(faults), found), (1, {"say a": 1, "say abc": 3}))
        self.assertEqual([count for _, count in self.log("script")], [1, 3, 2])

    def test_a_query_that_waits_is_taken_out(self):
        pool, held = self.pool(), []
        first = self.held(pool)
        second = threading.Thread(target=lambda: self.assertRaises(Cancelled, pool.ask, "say a", 20, held.append))
        second.start()
        self.assertTrue(until(lambda: held))
        pool.cancel(held[0])
        second.join()
        self.let_go(pool, first, 0)
        self.assertEqual(self.asked(pool, ["say abc"]), {"say abc": 3})
        self.assertEqual([count for _, count in self.log("script")], [1, 1])


class Starts(Programs):
    def test_a_faulty_catalogue_is_told_at_once(self):
        self.write("catalogue.csv", "bad")
        with self.assertRaises(SkyqError) as caught:
            self.pool()
        self.assertEqual(str(caught.exception), "the catalogue folder is not as skyq ingest makes it (catalogue row 1: length); ingest the table again")

    def test_a_catalogue_that_becomes_faulty_is_told_and_forgotten(self):
        pool = self.pool()
        self.write("catalogue.csv", "bad")
        self.assertEqual(self.asked(pool, ["say a"]), {"say a": 1})      # the program that had read it
        fault = self.asked(pool, ["say ab"])["say ab"]
        self.assertIn("catalogue row 1: length", str(fault))
        self.write("catalogue.csv", "")
        self.assertTrue(until(lambda: self.asked(pool, ["say abc"]) == {"say abc": 3}))

    def test_no_program_stays_after_close(self):
        pool = Pool(self.folder, 3, 0)
        pool.start()
        self.assertTrue(until(lambda: len(self.log("start")) == 3))
        slow = threading.Thread(target=self.asked, args=(pool, ["sleep 90"]))
        slow.start()
        self.assertTrue(until(lambda: self.log("script")))
        pool.close()
        slow.join()
        self.assertTrue(until(lambda: not any(is_alive(pid) for pid, in self.log("start"))))
        self.assertFalse(os.path.exists(pool.folder))

    def test_no_program_stays_where_the_service_is_killed(self):
        code = ("import sys, time; from skyq_lib.pool import Pool; pool = Pool(sys.argv[1], 3, 0); pool.start();"
                " print('ready', pool.folder, flush=True); time.sleep(60)")
        service = subprocess.Popen([sys.executable, "-c", code, self.folder], cwd=os.path.dirname(support.LIBRARY), stdout=subprocess.PIPE, text=True)
        folder = service.stdout.readline().split()[1]
        self.assertTrue(until(lambda: len(self.log("start")) == 3))
        self.assertTrue(all(is_alive(pid) for pid, in self.log("start")))
        service.send_signal(signal.SIGKILL)
        service.wait()
        service.stdout.close()
        self.assertTrue(until(lambda: not any(is_alive(pid) for pid, in self.log("start"))))
        for name in os.listdir(folder):
            os.unlink(os.path.join(folder, name))
        os.rmdir(folder)


if __name__ == "__main__":
    unittest.main()
