"""The rules in Python, and what is told by them: the library of the scripts here, in tools/, kit/ and tests/."""
