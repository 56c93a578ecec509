"""What boxglue must do, written again from the documents and without the product: readers of
metrics and DVI files, a writer of DVI files, and inputs whose answers are known. The modules of
`models.tests` are parts of tests/run."""
