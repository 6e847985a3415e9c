"""many.py LABEL FILE .. writes the text of each FILE in this encoding to FILE.utf8, and counts the
exit statuses. A file whose text is there is left out; a text is there only if it is whole."""

import collections
import os
import subprocess
import sys

from distributed import Client

INDEXES = os.path.expanduser("~/indexes")


def decode(words, name):
    """Writes the text of a file, and gives the program's exit status."""
    made = name + ".part"
    with open(name, "rb") as source, open(made, "wb") as sink:
        status = subprocess.run(words, stdin=source, stdout=sink, check=False).returncode
    if status == 0:
        os.replace(made, name + ".utf8")
    else:
        os.remove(made)
    return status


def main(label, names):
    listed = ["unwrap-indexes", "--list", INDEXES, label]
    indexes = subprocess.run(listed, stdout=subprocess.PIPE, text=True, check=True).stdout.split("\n")
    words = ["unwrap", "text", "--encoding=" + label, *filter(None, indexes)]
    left = [n for n in names if not n.endswith(".utf8") and not os.path.exists(n + ".utf8")]
    # Two workers here; Client("scheduler:8786") has those of other machines.
    with Client(n_workers=2, threads_per_worker=1, dashboard_address=None) as client:
        statuses = client.gather(client.map(decode, [words] * len(left), left))
    print(dict(collections.Counter(statuses)))


if __name__ == "__main__":
    if len(sys.argv) < 3:
        sys.exit(__doc__)
    main(sys.argv[1], sys.argv[2:])
