"""What the scripts of several folders share."""
import os
import sys

# A command of a clone's bin/ gives its own name, so that lines begin with the name that the user ran.
if "DSDARC_COMMAND" in os.environ:
    sys.argv[0] = os.environ.pop("DSDARC_COMMAND")
