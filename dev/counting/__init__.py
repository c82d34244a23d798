"""The figures that documents state: what they count, and where they are counted."""
