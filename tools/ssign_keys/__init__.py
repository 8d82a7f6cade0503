"""The keys of a signed log: makes them, signs with them, and checks signatures, around the program ssign."""

# that of ssign, with which the tools are released
VERSION = "0.1.0"
