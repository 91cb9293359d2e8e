"""For `mn --custom $(python -m ofswitch mininet)`, which runs the text of this file: the switch `ofswitch`."""

import os
import sys

# The Python of Mininet may have no package `ofswitch`, and the text does not know its file: the command line does.
for _word in sys.argv:
    for _path in _word.removeprefix("--custom=").split(","):
        if os.path.basename(_path) == "mn_custom.py":
            sys.path.append(os.path.dirname(os.path.dirname(os.path.abspath(_path))))

from ofswitch.mininet import OFSwitch  # noqa: E402

switches = {"ofswitch": OFSwitch}
