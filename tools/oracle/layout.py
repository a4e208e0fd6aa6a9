"""The widths of 01's records, for every script here; 01 is their source, and not the library."""

CLIP_WORDS = 17  # "a lent table of 64-bit words, seventeen to a clip"
TAG_WORDS = 4  # "Unknown tag: name start, end, rest start, end"
