"""Where the bench's programs find what they share with the makers; each imports this before the bench's other files."""
import os, sys

TOP = os.path.dirname(os.path.dirname(os.path.abspath(__file__)))
sys.path[1:1] = [os.path.join(TOP, "makers"), os.path.join(TOP, "tools")]
# The library in its harness, as `run` builds it.
LIBRARY = [os.path.join(TOP, "tools", "emulate"), os.path.join(TOP, "target", "bench", "harness")]
