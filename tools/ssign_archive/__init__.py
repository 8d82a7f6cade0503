"""Cuts the log of a collector into parts, and writes the messages of a part."""
