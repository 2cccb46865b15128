"""What ./bring-in does, by language: NAME.py changes a file, NAME_text.py reads one, and the preludes are data."""
