"""What tests share. Whatever is run imports this package first: modules of tools/ and bench/ are found by their names alone."""
import os
import sys

TESTS = os.path.dirname(os.path.dirname(os.path.abspath(__file__)))
sys.path += [os.path.join(os.path.dirname(TESTS), folder) for folder in ("tools", "bench")]
