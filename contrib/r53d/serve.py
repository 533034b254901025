"""r53d from its words: reads the settings, and runs the driver."""
import sys

from . import parsers, settings
from .driver import Driver


def main(words):
    """Runs the service; answers its exit status."""
    given = vars(parsers.r53d().parse_args(words))
    config, may_make = given.pop("config"), given.pop("init")
    try:
        chosen = settings.load(config, given)
    except settings.BadSettings as fault:
        print("r53d: %s" % fault, file=sys.stderr)
        return 1
    return Driver(chosen, may_make).run()
