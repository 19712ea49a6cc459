"""The pass over a Dask array, on two worker processes of this machine: every bit is that of the pass over the whole list at once."""
import tempfile
import unittest

import pasoletu
from pasoletu import CorotatedLinearElasticity, MaximumStressFailure, NaccPlasticity, Particle, RankinePlasticity, SnowPlasticity

try:
    import dask
    import dask.array
    import numpy
    from distributed import Client, LocalCluster

    from pasoletu import chunks
except ImportError as error:
    raise unittest.SkipTest("%s; on Debian: apt-get install -y python3-distributed" % error)

LAWS = (
    SnowPlasticity(),
    RankinePlasticity(1e5, 0.3, 500.0, 2.0),
    NaccPlasticity(1e4, 0.3, 0.05, True, 3.0, 2.36),
)
# Seconds, after which a worker is taken for lost, on however slow a machine.
WAIT = 1200
LIMITS, ELASTICITY = MaximumStressFailure(2e4, 1e4), CorotatedLinearElasticity(True, 0.9, 4e4, 6e4)


def drawn(count):
    """Records of every fate: at rest, crushed, torn, not finite, out of range."""
    records = numpy.tile(Particle().floats(), (count, 1))
    for k, sigma in enumerate(numpy.random.default_rng(15).uniform(0.6, 1.4, (count, 3))):
        records[k] = Particle.stretched(sigma).floats()
    records[::7] = Particle().floats()
    records[3::11, 30] = numpy.nan
    records[5::13, 18] = -1.0
    records[6::13, 31] = 1e300
    return records


def bits(array):
    return numpy.asarray(array).tobytes()


class Chunks(unittest.TestCase):
    @classmethod
    def setUpClass(cls):
        folder = tempfile.TemporaryDirectory()
        cls.addClassCleanup(folder.cleanup)
        dask.config.set({"distributed.comm.timeouts.connect": "%ds" % WAIT, "distributed.comm.timeouts.tcp": "%ds" % WAIT})
        cluster = LocalCluster(
            n_workers=2,
            threads_per_worker=1,
            processes=True,
            host="127.0.0.1",
            dashboard_address=None,
            local_directory=folder.name,
        )
        cls.addClassCleanup(cluster.close)
        cls.client = Client(cluster)
        cls.addClassCleanup(cls.client.close)
        cls.client.wait_for_workers(2, timeout=WAIT)

    def both(self, law, limits=None, elasticity=None):
        """The pass over all at once, and over chunks of several heights on both workers."""
        given = drawn(1000)
        whole = given.copy()
        passed = pasoletu.pass_records(law, whole, limits, elasticity)
        lazy = chunks.pass_array(law, dask.array.from_array(given, chunks=((1, 333, 260, 0, 406), 37)), limits, elasticity)
        futures = self.client.compute([lazy.records, lazy.answers, lazy.counts])
        after, answers, counts = (future.result(timeout=WAIT) for future in futures)
        self.assertEqual(bits(after), bits(whole))
        self.assertEqual(bits(answers), bits(passed.answers))
        self.assertEqual(counts.tolist(), [passed.untouched, passed.stored, passed.refused, passed.failed])
        self.assertEqual(bits(given), bits(drawn(1000)))
        return passed

    def test_a_pass_is_the_pass_over_all_at_once(self):
        for law in LAWS:
            passed = self.both(law)
            self.assertGreater(passed.refused, 50)
            self.assertGreater(passed.stored, 50)

    def test_with_failure(self):
        self.assertGreater(self.both(SnowPlasticity(), LIMITS, ELASTICITY).failed, 50)

    def test_each_worker_by_itself(self):
        self.assertTrue(self.client.scheduler_info()["address"].startswith("tcp://127.0.0.1:"))
        workers = list(self.client.scheduler_info()["workers"])
        self.assertEqual(len(workers), 2)
        for count, worker in enumerate(workers, 100):
            self.assertTrue(worker.startswith("tcp://127.0.0.1:"), worker)
            answers = chunks.pass_array(LAWS[2], dask.array.from_array(drawn(count), chunks=(50, 37))).answers
            future = self.client.compute(answers, workers=[worker], allow_other_workers=False)
            whole = pasoletu.pass_records(LAWS[2], drawn(count)).answers
            self.assertEqual(bits(future.result(timeout=WAIT)), bits(whole))


class Errors(unittest.TestCase):
    def told(self, error, words, *arguments, **named):
        with self.assertRaises(error) as caught:
            chunks.pass_array(SnowPlasticity(), *arguments, **named)
        self.assertIn(words, str(caught.exception))

    def test_what_is_no_array_of_records_is_told_before_any_work(self):
        records = dask.array.zeros((72, 37))
        self.told(TypeError, "records is a ndarray and must be a Dask array", numpy.ones((2, 37)))
        self.told(TypeError, "records holds float32", records.astype("f4"))
        self.told(ValueError, "pass records.T", dask.array.zeros((37, 2)))
        self.told(ValueError, "a record a row", dask.array.zeros(72))
        self.told(ValueError, "records.rechunk({1: 37})", records.rechunk((36, 18)))
        self.told(TypeError, "elasticity is given and limits is not", records, elasticity=ELASTICITY)


if __name__ == "__main__":
    unittest.main()
