#!/usr/bin/env python3
"""A thousand small documents, each a job of its own: one after the other, through a pool of
processes, or through a Dask cluster on this machine.

    many_documents.py ENGINE PLAIN_TFM OUT [--count N] [--workers N]

ENGINE is `one`, `pool` or `dask`; all make the same files: OUT/NUMBER.dvi, or OUT/NUMBER.refused
with the line of a refusal. How far it is goes to standard error. The status is 1 if a document was
refused, as document 500 is.

Jobs share nothing, so no engine needs a lock. Processes are started by `spawn`: the library is not
called in the child of a process with threads after a fork (include/boxglue.h).
"""
from __future__ import annotations

import argparse
import multiprocessing
import sys
from concurrent.futures import ProcessPoolExecutor, as_completed
from pathlib import Path
from typing import Iterator, Mapping

from documents import Outcome, typeset


def one(count: int, workers: int, fonts: Mapping[str, bytes]) -> Iterator[Outcome]:
    """The documents, one after the other, in this process."""
    for number in range(count):
        yield typeset(number, fonts)


def pool(count: int, workers: int, fonts: Mapping[str, bytes]) -> Iterator[Outcome]:
    """The documents as they are ready, from a pool of processes."""
    with ProcessPoolExecutor(workers, mp_context=multiprocessing.get_context("spawn")) as executor:
        for done in as_completed(
            [executor.submit(typeset, number, fonts) for number in range(count)]
        ):
            yield done.result()


def dask(count: int, workers: int, fonts: Mapping[str, bytes]) -> Iterator[Outcome]:
    """The documents as they are ready, from a cluster of processes on this machine, without its
    dashboard."""
    from distributed import Client, LocalCluster
    from distributed import as_completed as as_ready

    cluster = LocalCluster(
        n_workers=workers,
        threads_per_worker=1,
        processes=True,
        host="127.0.0.1",
        dashboard_address=None,
    )
    try:
        client = Client(cluster)
        try:
            # The metrics go to each worker once.
            shared = client.scatter(dict(fonts), broadcast=True)
            for done in as_ready(client.map(typeset, range(count), fonts=shared)):
                yield done.result()
        finally:
            client.close()
    finally:
        cluster.close()


ENGINES = {it.__name__: it for it in (one, pool, dask)}


def keep(outcome: Outcome, out: Path) -> None:
    """Writes what came of a document."""
    if outcome.dvi is not None:
        (out / f"{outcome.number}.dvi").write_bytes(outcome.dvi)
    else:
        (out / f"{outcome.number}.refused").write_text(f"{outcome.refusal}\n")


def main() -> int:
    """Makes the documents."""
    parser = argparse.ArgumentParser(description=(__doc__ or "").split("\n")[0])
    parser.add_argument("engine", choices=sorted(ENGINES))
    parser.add_argument(
        "metrics",
        type=Path,
        help="the metric file of the font cmtt10, or the one that examples/plain-metrics makes",
    )
    parser.add_argument(
        "out", type=Path, help="the folder of the files; it is made where it is not there"
    )
    parser.add_argument("--count", type=int, default=1000)
    parser.add_argument("--workers", type=int, default=2)
    words = parser.parse_args()
    words.out.mkdir(parents=True, exist_ok=True)
    refused = done = 0
    for outcome in ENGINES[words.engine](
        words.count, words.workers, {"cmtt10": words.metrics.read_bytes()}
    ):
        keep(outcome, words.out)
        done, refused = done + 1, refused + (outcome.dvi is None)
        if done % 100 == 0 or done == words.count:
            print(f"{done} of {words.count}, {refused} refused", file=sys.stderr)
    return 1 if refused else 0


if __name__ == "__main__":
    sys.exit(main())
