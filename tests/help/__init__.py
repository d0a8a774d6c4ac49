"""What helps the tests, and tests nothing itself."""
import os

# What tests make at random, they make from this. SEED=N in the environment chooses another.
SEED = int(os.environ.get('SEED', '20170515'))
