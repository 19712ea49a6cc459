"""Sheets in parts: every cutting gives what the whole gives, faults stand and are told again (docs/RULES.md, section 7)."""
import ctypes
import io
import random
import shutil
import unittest

import pasoletu
from pasoletu import _table
from pasoletu._library import ask, words
from pasoletu.refusal import AFTER_END, ENDS_EARLY, LENGTH, NOT_SHORTEST, TOO_MANY, UNKNOWN


def particles(n):
    """At rest, squeezed, stretched, and one with a NaN."""
    sigmas = [1.0, 0.9, 1.02, float("nan"), 1.3]
    return [pasoletu.Particle.stretched([sigmas[k % len(sigmas)], 1.0, 1.0]) for k in range(n)]


def small(n=2, determinants=False):
    return pasoletu.write_sheet(pasoletu.SnowPlasticity(), particles(n), determinants)


def bits(ran):
    """All that a run says, as bits."""
    floats = [x for row in ran.records.tolist() for x in row]
    passed = ran.passed
    return (
        type(ran.model), ran.model.parameters(), ran.determinants, memoryview((ctypes.c_double * len(floats))(*floats)).tobytes(),
        passed.answers.tolist(), passed.untouched, passed.stored, passed.refused,
    )


def named(state):
    """Whether a state's words name one of the models, each flag 0.0 or 1.0 (docs/RULES.md, section 7: the model is word 2, its parameters begin at 7)."""
    if state[2] not in _table.LAW_OF:
        return False
    law = _table.MODELS[_table.LAW_OF[state[2]][0]]
    return all(state[7 + k] in (0, 0x3FF0000000000000) for k, name in enumerate(law.parameters) if name in law.flags)


def fed(*parts):
    arrival = pasoletu.Arrival()
    for part in parts:
        arrival.feed(part)
    return arrival


def refusal(call, *arguments):
    try:
        call(*arguments)
    except pasoletu.Refused as e:
        return e.number
    return 0


class Cuttings(unittest.TestCase):
    def same(self, arrival, whole):
        self.assertEqual(bits(arrival.finish()), bits(pasoletu.run(whole)))

    def test_every_cutting_into_two(self):
        for whole in (small(), small(2, True), small(0)):
            for k in range(len(whole) + 1):
                self.same(fed(whole[:k], whole[k:]), whole)

    def test_one_byte_at_a_time_with_empty_parts_between(self):
        for whole in (small(5), small(5, True)):
            self.same(fed(*(part for b in whole for part in (b"", bytes([b])))), whole)

    def test_random_cuttings_of_the_longest(self):
        whole = pasoletu.write_sheet(pasoletu.RankinePlasticity.new(1.0e6, 0.2, 1.0e3, 1.0), particles(200), True)
        rng = random.Random(10)
        for _ in range(20):
            places = sorted(rng.randrange(len(whole) + 1) for _ in range(rng.randrange(40)))
            self.same(fed(*(whole[a:b] for a, b in zip([0] + places, places + [len(whole)]))), whole)

    def test_every_model_in_sevens(self):
        laws = (
            pasoletu.SnowPlasticity(), pasoletu.RankinePlasticity.new(1.0e6, 0.2, 1.0e3, 1.0),
            pasoletu.DruckerPragerPlasticity.new(1000.0, 0.25), pasoletu.NaccPlasticity.new(1000.0, 0.25, 0.1, True, 1.0, 0.5),
        )
        for law in laws:
            whole = pasoletu.write_sheet(law, particles(7))
            self.same(fed(*(whole[k:k + 7] for k in range(0, len(whole), 7))), whole)

    def test_complete_is_told_with_the_last_byte(self):
        whole, arrival = small(3), pasoletu.Arrival()
        head = 1 + 3 * 8 + 1
        self.assertIsNone(arrival.count)
        for k, b in enumerate(whole, 1):
            complete = arrival.feed(bytes([b]))
            self.assertEqual(complete, max(0, k - head) // (36 * 8))
            self.assertEqual(arrival.count, 3 if k >= head else None)
            if arrival.ran is not None:
                self.assertEqual(len(arrival.ran), complete)
                self.assertEqual(arrival.ran.passed.answers.tolist(), pasoletu.run(whole).passed.answers.tolist()[:complete])

    def test_as_a_file(self):
        whole, arrival = small(4), pasoletu.Arrival()
        shutil.copyfileobj(io.BytesIO(whole), arrival, 100)
        arrival.close()
        arrival.close()
        self.assertEqual(bits(arrival.ran), bits(pasoletu.run(whole)))
        self.assertEqual(refusal(arrival.write, b""), AFTER_END)


class Faults(unittest.TestCase):
    def stands(self, arrival, number, complete):
        """The fault is told again, by parts and ends, and changes nothing."""
        before = bytes(arrival._state), bytes(arrival._room), bytes(arrival._answers)
        for call, given in ((arrival.feed, (b"",)), (arrival.feed, (b"\0" * 300,)), (arrival.finish, ()), (arrival.finish, ())):
            self.assertEqual(refusal(call, *given), number)
            self.assertEqual(arrival.complete, complete)
        self.assertEqual((bytes(arrival._state), bytes(arrival._room), bytes(arrival._answers)), before)

    def test_fifteen_after_the_end(self):
        whole = small()
        arrival = fed(whole)
        ran = bits(arrival.finish())
        self.stands(arrival, AFTER_END, 2)
        self.assertEqual(bits(arrival.ran), ran)

    def test_a_shortage_is_told_only_at_the_end(self):
        whole = small()
        for k in range(len(whole)):
            arrival = fed(whole[:k])
            self.assertEqual(refusal(arrival.finish), ENDS_EARLY)
            self.assertEqual(refusal(pasoletu.run, whole[:k]), ENDS_EARLY)
            self.stands(arrival, ENDS_EARLY, max(0, k - 26) // 288)

    def test_a_byte_too_many(self):
        whole = small(3)
        arrival = fed(whole)
        self.assertEqual(refusal(arrival.feed, b"\0"), TOO_MANY)
        self.stands(arrival, TOO_MANY, 3)
        self.assertEqual(arrival.ran.passed.answers.tolist(), pasoletu.run(whole).passed.answers.tolist())

    def test_faults_before_the_records(self):
        flagged = pasoletu.write_sheet(pasoletu.DruckerPragerPlasticity.new(1000.0, 0.25), [])
        bad = flagged[:1 + 6 * 8] + b"\1" + flagged[2 + 6 * 8:]
        for data, number in ((b"\x80\x00", NOT_SHORTEST), (b"\x80\x80", NOT_SHORTEST), (bytes([len(_table.LAW_OF)]), UNKNOWN), (bad, UNKNOWN),
                             (small(0)[:-1] + b"\xc9\x01", TOO_MANY)):
            self.assertEqual(refusal(pasoletu.run, data), number)
            for k in range(len(data)):
                arrival = fed(data[:k]) if not refusal(fed, data[:k]) else None
                if arrival is not None:
                    self.assertIn(refusal(arrival.feed, data[k:]), (number,))
                    self.stands(arrival, number, 0)

    def test_a_line_that_is_cut_off_keeps_what_came(self):
        whole = small(5)
        arrival = fed(whole[:26 + 3 * 288 + 17])
        self.assertEqual(refusal(arrival.finish), ENDS_EARLY)
        self.assertEqual(arrival.ran.passed.answers.tolist(), pasoletu.run(whole).passed.answers.tolist()[:3])
        self.assertEqual((arrival.complete, arrival.count, len(arrival.ran)), (3, 5, 3))


class Lengths(unittest.TestCase):
    """The calls themselves: 8 comes first, is no fault, and writes nothing."""

    def lists(self, state=_table.PARTS_STATE, records=200 * 37, answers=400, progress=2):
        made = [words(state), (ctypes.c_double * records)(), words(answers), words(progress)]
        for held in made:
            for k in range(len(held)):
                held[k] = 7
        return made

    def test_begin(self):
        for n in (0, 51, 53):
            state = words(n)
            self.assertEqual(ask("begin_parts", state), LENGTH)
            self.assertEqual(list(state), [0] * n)

    def test_part_and_end(self):
        wrong = [{"state": 51}, {"state": 53}, {"records": 199 * 37}, {"records": 200 * 37 + 1}, {"answers": 399}, {"progress": 1}, {"progress": 3}, {"records": 0, "answers": 0}]
        for other in wrong:
            for after in (0, AFTER_END):
                state, records, answers, progress = made = self.lists(**other)
                if len(state) == _table.PARTS_STATE:
                    ask("begin_parts", state)
                    state[0] = after
                before = [bytes(held) for held in made]
                self.assertEqual(ask("part", (ctypes.c_uint8 * 2)(9, 9), state, records, answers, progress), LENGTH)
                self.assertEqual(ask("end_parts", records, answers, state, progress), LENGTH)
                self.assertEqual([bytes(held) for held in made], before)

    def test_eight_is_no_fault(self):
        whole, arrival = small(), pasoletu.Arrival()
        arrival.feed(whole[:100])
        self.assertEqual(ask("part", (ctypes.c_uint8 * 1)(9), arrival._state, arrival._room, words(398), arrival._progress), LENGTH)
        arrival.feed(whole[100:])
        self.assertEqual(bits(arrival.finish()), bits(pasoletu.run(whole)))

    def test_after_the_end_and_after_a_fault_nothing_is_written(self):
        whole = small()
        for data, number in ((whole, AFTER_END), (whole + b"\0", TOO_MANY), (whole[:-1], ENDS_EARLY)):
            state, records, answers, progress = made = self.lists()
            ask("begin_parts", state)
            ask("part", (ctypes.c_uint8 * len(data)).from_buffer_copy(data), state, records, answers, progress)
            ask("end_parts", records, answers, state, progress)
            progress[:] = [7, 9]
            before = [bytes(held) for held in made]
            self.assertEqual(ask("part", (ctypes.c_uint8 * 1)(9), state, records, answers, progress), number)
            self.assertEqual(ask("end_parts", records, answers, state, progress), number)
            self.assertEqual([bytes(held) for held in made], before)

    def test_any_words_answer(self):
        """What the state holds, else 6 where it names no model, and then nothing is written; else some number, which the state then holds."""
        rng, unnamed = random.Random(3), 0
        for _ in range(2000):
            state, records, answers, progress = made = self.lists()
            for k in range(len(state)):
                state[k] = rng.choice([0, 1, 4, 7, 200, 255, 256, 296, rng.randrange(300), rng.getrandbits(64)])
            if rng.randrange(2):
                state[0], state[2] = 0, rng.randrange(10)
            held = state[0] % 256 or (0 if named(state) else UNKNOWN)
            before = [bytes(part) for part in made]
            data = bytes(rng.randrange(256) for _ in range(rng.randrange(400)))
            told = ask("part", (ctypes.c_uint8 * len(data)).from_buffer_copy(data), state, records, answers, progress)
            if held:
                self.assertEqual((told, [bytes(part) for part in made]), (held, before))
                unnamed += state[0] % 256 == 0
            else:
                self.assertEqual(state[0] % 256, told)
        self.assertGreater(unnamed, 100)


if __name__ == "__main__":
    unittest.main()
