"""How long two programs take for the walk of two processes and depth 8: the least of 20 runs each, in turn, whole processes."""

import subprocess
import sys
import time


def taken(program):
    start = time.perf_counter()
    subprocess.run([program], input=b"2 8\n", stdout=subprocess.DEVNULL, check=True)
    return time.perf_counter() - start


least = [min(times) for times in zip(*([taken(program) for program in sys.argv[1:]] for _ in range(20)))]
print("the walk `2 8`, ms: " + ", ".join(f"{1000 * time:.1f}" for time in least) + f"; ratio {least[0] / least[1]:.3f}")
