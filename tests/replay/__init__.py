"""The calls of the C library's tests, recorded on x86-64 beside the model and replayed on other machines: tests/outside_the_gate/on_machines.py."""
