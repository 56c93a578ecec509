"""The tests of the models, on files that are known."""
