"""The tests of the built program: `python3 -m tests`, or `python3 -m unittest`, in the folder above."""
