"""Builds and drains a graph with Python's graphlib and prints the best time in nanoseconds a job.

usage: graphlib_bench.py FILE      a line for each job: the numbers of its prerequisites
"""
import graphlib
import sys
import time


def nanoseconds_a_job(lists):
    start = time.perf_counter_ns()
    sorter = graphlib.TopologicalSorter()
    for job, prerequisites in enumerate(lists):
        sorter.add(job, *prerequisites)
    sorter.prepare()
    done = 0
    while sorter.is_active():
        for job in sorter.get_ready():
            sorter.done(job)
            done += 1
    took = time.perf_counter_ns() - start
    assert done == len(lists)
    return took / len(lists)


with open(sys.argv[1], encoding="ascii") as file:
    lists = [[int(number) for number in line.split()] for line in file]
print(min(nanoseconds_a_job(lists) for _ in range(10)))
