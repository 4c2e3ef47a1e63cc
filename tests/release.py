"""Looks at the wheel that pip installed for this interpreter: see `release`, which runs this."""

import base64
import hashlib
import importlib.metadata
import inspect
import os
import sys

import wadlook


def is_whole(file: importlib.metadata.PackagePath) -> bool:
    """Whether a file is the one of which RECORD has the digest; pip's own have none."""
    if file.hash is None:
        return True
    digest = hashlib.new(file.hash.mode, file.read_binary()).digest()
    return base64.urlsafe_b64encode(digest).rstrip(b"=").decode() == file.hash.value


files = importlib.metadata.files("wadlook") or []
here = os.path.dirname(wadlook.__file__)
assert here.startswith(sys.prefix), f"the module is that of {here}"
assert wadlook._so._name == os.path.join(here, "libwadlook.so"), f"the library is {wadlook._so._name}"
assert {"libwadlook.so", "__init__.py", "py.typed", "PROOF", "METADATA", "WHEEL"} <= {
    file.name for file in files if file.hash
}, files
about = importlib.metadata.metadata("wadlook")
assert about["Description-Content-Type"] == "text/markdown" and about["Requires-Python"] == ">=3.9", about.items()
description = about["Description"] or about.get_payload()
assert description.strip() == inspect.getdoc(wadlook), description
assert all(map(is_whole, files)), [file for file in files if not is_whole(file)]
