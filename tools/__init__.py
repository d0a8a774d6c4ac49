"""What builds, installs and tests Skeptolyr. The modules in Python are run from the top of the tree: python3 -m tools.NAME."""
import os

TOP = os.path.dirname(os.path.dirname(os.path.abspath(__file__)))
