"""What the parts share: the driver of tests/run, cases and their results, built programs and
libraries, inputs and outputs of runs."""
