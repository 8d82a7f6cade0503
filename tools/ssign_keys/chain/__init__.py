"""Signed files that name the one before: each signed file is a session, and its first message is the link of a chain."""
