"""Tests of the Python side: small inputs with answers that were worked out by hand. `python3 -m unittest` runs them all."""
