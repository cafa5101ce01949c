"""Where the tests find what they test. `python3 -m unittest discover checks/converter_tests` runs them all."""

import os
import sys

TOP = os.path.dirname(os.path.dirname(os.path.dirname(os.path.abspath(__file__))))
EXAMPLES = os.path.join(TOP, "examples")
sys.path.insert(0, EXAMPLES)
