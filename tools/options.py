"""How the scripts of this folder read their words: each has `--help`, which is its own text."""
import argparse


def reader(text: str) -> argparse.ArgumentParser:
    """A parser whose help is this text, as it is laid out."""
    return argparse.ArgumentParser(description=text, formatter_class=argparse.RawDescriptionHelpFormatter)
