"""Trials: what is compared with the real dpkg, systemd, make, ssh and others. `python3 -m trials NAME ..` runs one."""
