"""Modules that the commands under tools/ share.

These modules prepare the inputs of the proved program and show its answers. They judge nothing.
"""
