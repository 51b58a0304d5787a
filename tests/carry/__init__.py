"""Tests of the exporters: small plans whose waits were worked out by hand, and commands whose effect is looked at."""
