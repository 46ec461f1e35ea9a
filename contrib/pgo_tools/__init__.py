"""What the scripts of this folder do, in rooms by subject. A script calls the `main` of its module in `commands`.

Python 3.9 and later, the standard library alone. A second program of a check keeps readers of its own.
"""
