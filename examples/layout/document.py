"""A document in cmr10, for the programs beside this file."""
from contextlib import contextmanager
from pathlib import Path

import boxglue


@contextmanager
def document(metrics, out):
    """A job with cmr10 as its font. At its end its file is written, and its last reply printed."""
    with boxglue.Job({"cmr10": Path(metrics).read_bytes()}) as job:
        job.use(job.load("cmr10"))
        yield job
        print(*job.finish().check().replies)
        Path(out).write_bytes(job.take())
