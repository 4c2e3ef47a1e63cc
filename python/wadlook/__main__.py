"""`python -m wadlook`: the words of `wadlens` that make no files."""

import sys

from wadlook._program import main

sys.exit(main(sys.argv[1:]))
