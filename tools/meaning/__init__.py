"""The meaning of a source, worked out by its own rules: sets of lanes on lists of statements, and all states kept.

It judges the answers that are stored in this repository, and knows nothing of the program: it has no numbers of steps for lanes to wait for,
no code and no record of old words. It reads accepted sources alone, but for grammar.py
and fronts.py, which say of any tokens how far a source goes on with them.
"""
