"""The words of a script's command line: help from its own text, and a refusal in one line."""
import argparse
import sys


class Words(argparse.ArgumentParser):
    def __init__(self, text):
        super().__init__(description=text, formatter_class=argparse.RawDescriptionHelpFormatter)

    def error(self, message):
        print(f"{self.prog}: {message} (--help says more)", file=sys.stderr)
        sys.exit(2)
