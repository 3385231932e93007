"""Where the repository stands. The package serpentgleam is then on the path of the scripts beside this one."""
import os
import sys

TOP = os.path.dirname(os.path.dirname(os.path.abspath(__file__)))
sys.path.insert(0, os.path.join(TOP, 'python'))


def path(*parts):
    return os.path.join(TOP, *parts)
