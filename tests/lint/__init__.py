"""The parts of tests/run that read sources and documents, and run no program."""
