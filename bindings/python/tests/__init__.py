"""Tests of the package: python3 -m unittest in the folder above this one, with the shared object
that `bindings/build` made named in BOXGLUE_LIBRARY."""
