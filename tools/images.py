"""Images of machine code, as bytes, and runs of them by `grift exec`."""

import os
import subprocess
import tempfile


def image(code: bytes, statics: bytes = b"") -> bytes:
    """The image with this code and these statics, without labels, entered at the start of its code."""
    code += bytes(-len(code) % 8)
    statics += bytes(-len(statics) % 8)
    fields = [64 + len(statics) + len(code), len(statics), len(code), 0, 0, 0, 0]
    header = b"GRIFTRV1" + b"".join(field.to_bytes(8, "little") for field in fields)
    return header + statics + code


def run(grift: str, whole: bytes, *options: str) -> tuple[int, bytes, str]:
    """The status, the output and the line of a run of an image."""
    handle, name = tempfile.mkstemp()
    try:
        with os.fdopen(handle, "wb") as file:
            file.write(whole)
        done = subprocess.run([grift, "exec", name, *options], capture_output=True)
    finally:
        os.unlink(name)
    return done.returncode, done.stdout, done.stderr.decode()
