"""Calls in several threads, and memory over many bundles."""
import gc
import resource
import threading
import unittest

from fluent_rattle import FluentBundle, FluentChain

SOURCE = "m = { $n ->\n [one] one\n *[other] { $n } of { $who }\n }\n"
TURNS = 2_000


def in_threads(*works):
    """Runs each in a thread, all at once, and gives what they raised."""
    raised = []
    start = threading.Barrier(len(works))

    def run(work):
        try:
            start.wait()
            work()
        except BaseException as error:
            raised.append(error)

    threads = [threading.Thread(target=run, args=(work,)) for work in works]
    for thread in threads:
        thread.start()
    for thread in threads:
        thread.join()
    return raised


def ask(bundle, who, turns=TURNS):
    for n in range(turns):
        wanted = "one" if n == 1 else f"{n} of {who}"
        text, errors = bundle.format_value("m", {"n": n, "who": who})
        if (text, errors) != (wanted, []):
            raise AssertionError((text, errors, wanted))


class Threads(unittest.TestCase):
    def test_bundles_of_their_own(self):
        def work(who):
            with FluentBundle("en", use_isolating=False, formatter=None) as bundle:
                bundle.add_resource(SOURCE)
                ask(bundle, who)

        self.assertEqual(in_threads(*(lambda who=who: work(who) for who in ("a" * 9, "b" * 99, "c" * 999, "d"))), [])

    def test_one_bundle(self):
        bundle = FluentBundle("en", use_isolating=False, formatter=None)
        bundle.add_resource(SOURCE)

        def add():
            for i in range(300):
                bundle.add_resource("x%d = { m }\nm = never\n" % i)
                if not bundle.has_message("x%d" % i):
                    raise AssertionError(i)

        works = [lambda who=who: ask(bundle, who) for who in ("a" * 9, "b" * 99, "c" * 999)]
        self.assertEqual(in_threads(*works, add), [])
        self.assertEqual(bundle.format_value("x299", {"n": 1}), ("one", []))

    def test_a_chain(self):
        chain = FluentChain(["pl", "en"], use_isolating=False, formatter=None)
        polish, english = chain.bundles
        english.add_resource(SOURCE)

        def add():
            for i in range(300):
                told = polish.add_resource(f"x{i} = X\nx{i} = X\n")
                if told != [f'2: Attempt to override an existing message: "x{i}".']:
                    raise AssertionError(told)

        works = [lambda who=who: ask(chain, who) for who in ("a" * 9, "b" * 99)]
        self.assertEqual(in_threads(*works, lambda: ask(english, "c"), add), [])
        self.assertEqual(len(polish.message_ids()), 300)

    def test_a_bundle_that_is_closed_meanwhile(self):
        bundle = FluentBundle("en", use_isolating=False, formatter=None)
        bundle.add_resource(SOURCE)
        raised = in_threads(*[lambda: ask(bundle, "a", 10**9)] * 3, bundle.close)
        self.assertEqual([(type(error), str(error)) for error in raised], [(ValueError, "the bundle is closed")] * 3)


class Memory(unittest.TestCase):
    def test_many_bundles(self):
        def peak():
            gc.collect()
            return resource.getrusage(resource.RUSAGE_SELF).ru_maxrss

        def live(how_often):
            for i in range(how_often):
                bundle = FluentBundle("en", use_isolating=False, formatter=None)
                bundle.add_resource(SOURCE)
                ask(bundle, "x", 3)
                # The others are closed as garbage.
                if i % 2:
                    bundle.close()

        live(500)
        before = peak()
        live(10_000)
        # In kilobytes: a tenth of a bundle that stayed would be seen.
        self.assertLess(peak() - before, 1_000)

    def test_many_calls(self):
        with FluentBundle("en", use_isolating=False, formatter=None) as bundle:
            bundle.add_resource(SOURCE)
            ask(bundle, "x" * 5_000, 200)
            before = resource.getrusage(resource.RUSAGE_SELF).ru_maxrss
            ask(bundle, "x" * 5_000, 10_000)
            self.assertLess(resource.getrusage(resource.RUSAGE_SELF).ru_maxrss - before, 1_000)


if __name__ == "__main__":
    unittest.main()
