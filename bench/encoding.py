"""Times pandas.factorize on columns like those of `bench/encoding`: the least processor time of five runs, in milliseconds."""
import time

import numpy
import pandas

ROWS = 10_000_000


def least(column):
    times = []
    for _ in range(5):
        began = time.thread_time()
        pandas.factorize(column)
        times.append(time.thread_time() - began)
    return min(times) * 1e3


random = numpy.random.default_rng(7)
for distinct in (1_000, 1_000_000):
    numbers = random.integers(0, distinct, ROWS, dtype=numpy.uint64) * numpy.uint64(0x9E3779B97F4A7C15)
    print(f"pandas.factorize, u64, {distinct} distinct: {least(numbers):.0f} ms")
