"""Sets a page in the font cmtt10 by typed calls: page.py METRICS OUT. It prints their replies as
they come, and writes the DVI file to OUT."""
import sys
from pathlib import Path

import boxglue
from boxglue import pt

metrics, out = map(Path, sys.argv[1:])
with boxglue.Job({"cmtt10": metrics.read_bytes()}) as job:
    job.use(job.load("cmtt10"))
    job.set(hsize=pt(200))
    with job.vbox(into=0) as box, job.par() as par:
        job.text("Glue stretches and shrinks until the lines are as wide as hsize.")
    print(par.reply, box.reply, job.ship(0), *job.finish().check().replies, sep="\n")
    out.write_bytes(job.take())
