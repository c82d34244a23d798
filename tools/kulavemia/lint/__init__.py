"""The parts of `lint`: the program's answers, the files that are read, the places of findings, and what is printed."""
