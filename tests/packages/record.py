"""Checks that a wheel has the files of its RECORD and no others, with their checksums: `record.py WHEEL`."""

import base64
import csv
import hashlib
import io
import sys
import zipfile


def line_of(wheel: zipfile.ZipFile, name: str) -> list[str]:
    """What RECORD has to say of a file; of itself it gives no checksum."""
    if name.endswith(".dist-info/RECORD"):
        return [name, "", ""]
    content = wheel.read(name)
    digest = base64.urlsafe_b64encode(hashlib.sha256(content).digest()).rstrip(b"=").decode()
    return [name, f"sha256={digest}", str(len(content))]


def main(path: str) -> int:
    with zipfile.ZipFile(path) as wheel:
        names = wheel.namelist()
        [record] = [name for name in names if name.endswith(".dist-info/RECORD")]
        written = sorted(csv.reader(io.StringIO(wheel.read(record).decode())))
        found = sorted(line_of(wheel, name) for name in names)
    for line in written:
        if line not in found:
            print(f"RECORD has {line}")
    for line in found:
        if line not in written:
            print(f"RECORD lacks {line}")
    return 0 if written == found else 1


if __name__ == "__main__":
    sys.exit(main(sys.argv[1]))
