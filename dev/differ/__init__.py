"""Sudo's own code and the program, asked alike, and the rows of docs/PROFILE.md that explain how they differ."""
