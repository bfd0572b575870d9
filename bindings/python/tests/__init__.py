"""Tests of the module adf and of the programs over it. In the folder above:

    ADF_LIBRARY=../../libadf.so python3 -B -m unittest
"""
