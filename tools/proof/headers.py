"""What stood in the first line of a function's proof file of the older form, and the places in the source that the check prints above its goals."""
import re

SKELETON = "-- Generated skeleton (tools/proof/write-skeletons), answers by hand.\n"
WHOLE = "-- Generated: tools/proof/write-skeletons, then tools/proof/list-facts --fill.\n"
POSITION = re.compile(r"^-- src/\S+\.rt:\d+:\d+\n", re.M)
