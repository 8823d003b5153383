#!/usr/bin/env python3
"""Many cases on more than one machine, by Dask (Debian: python3-distributed): the lines go out by parts, the answers come back in order.

    /usr/bin/python3 examples/batch_dask.py CASE.json LINES ANSWERS [SCHEDULER]

SCHEDULER is the address of a Dask scheduler whose workers have this package, such as tcp://10.0.0.5:8786; without it two workers are started
here. What a worker does is `yadvorkhul.batch.answers`, the same function as in `yadvorkhul batch`.
"""

import sys

from yadvorkhul.batch import answers, chunks
from yadvorkhul.cases import read_case


def lines_of(path):
    with open(path, encoding="utf-8", newline="\n") as stream:
        return [line.rstrip("\r\n") for line in stream]


def main(case_path, lines_path, output, scheduler=None):
    from distributed import Client, LocalCluster

    case = read_case(case_path)
    cluster = None if scheduler else LocalCluster(n_workers=2, threads_per_worker=1, dashboard_address=None)
    with Client(scheduler or cluster) as client:
        [there] = client.scatter([case], broadcast=True)  # a list: a case by itself would be taken for one
        parts = [client.submit(answers, part, there, pure=False) for part in chunks(lines_of(lines_path))]
        with open(output, "w", encoding="utf-8", newline="\n") as out:
            for part in parts:  # in the order of the lines
                out.writelines(answer + "\n" for answer in part.result())
        print(f"{len(parts)} parts by {len(client.scheduler_info()['workers'])} workers")
    if cluster:
        cluster.close()


if __name__ == "__main__":
    if len(sys.argv) not in (4, 5):
        sys.exit(__doc__)
    main(*sys.argv[1:])
