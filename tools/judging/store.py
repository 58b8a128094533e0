"""What is proved already: for each crate and each digest of all that its proof rests on, a record and the work that was kept."""

import hashlib
import json
import os
import shutil
import subprocess
import threading

RUN = ("data", "stdin", "stdout", "args", "status")
LARGEST = 4_000_000_000
# The bytes of disk below which nothing more is kept: a landing needs them itself.
LEFT_FREE = 6_000_000_000
# The bytes of disk below which what is kept lies packed in the store alone, and no other copy of it stays.
ROOMY = 20_000_000_000


def files_in(folder, parts):
    """Returns the files of these parts of a crate, in order."""
    found = []
    for part in parts:
        path = f"{folder}/{part}"
        found += [path] if os.path.isfile(path) else []
        for at, folders, names in os.walk(path):
            folders.sort()
            found += [f"{at}/{it}" for it in sorted(names)]
    return found


def sum_of(words, folder, parts):
    """Returns a digest of some words and of the files of these parts of a crate, with their names."""
    made = hashlib.sha256(repr(words).encode())
    for file in files_in(folder, parts):
        with open(file, "rb") as it:
            made.update(repr((os.path.relpath(file, folder), it.read())).encode())
    return made.hexdigest()


class Store:
    """The folder that `RINDDECADE_STORE` names, else one in the user's cache. Each record says which steps have passed."""

    def __init__(self):
        cache = os.environ.get("XDG_CACHE_HOME") or os.path.expanduser("~/.cache")
        self.top = os.environ.get("RINDDECADE_STORE") or f"{cache}/rinddecade"
        self.held, self.is_full = threading.Lock(), False
        os.makedirs(self.top, exist_ok=True)

    def entry(self, name, digest):
        return f"{self.top}/{name}/{digest[:32]}"

    def record(self, name, digest):
        """Returns the steps that have passed for the digest, each with its seconds."""
        try:
            with open(f"{self.entry(name, digest)}/record.json", encoding="utf-8") as it:
                return json.load(it)
        except (OSError, ValueError):
            return {}

    def note(self, name, digest, step, seconds):
        """Notes that a step has passed."""
        with self.held:
            entry, passed = self.entry(name, digest), self.record(name, digest)
            passed[step] = round(seconds, 1)
            os.makedirs(entry, exist_ok=True)
            with open(f"{entry}/record.new", "w", encoding="utf-8") as it:
                json.dump(passed, it)
            os.replace(f"{entry}/record.new", f"{entry}/record.json")

    def is_short(self):
        """Whether the disk has no room for unpacked copies of all that a landing keeps."""
        return shutil.disk_usage(self.top).free < ROOMY

    def keep(self, name, digest, folder, part):
        """Keeps a part of a crate's out/ in the digest's entry, kept work only of the newest; returns whether the disk has room for it.

        No verdict rests on what is kept: without it a later landing does again what this one did.
        """
        entry = self.entry(name, digest)
        os.makedirs(entry, exist_ok=True)
        if shutil.disk_usage(self.top).free < LEFT_FREE or not pack(f"{folder}/out/{part}", f"{entry}/{part}.tar.gz"):
            self.is_full = True
            return False
        for other in os.listdir(f"{self.top}/{name}") if part == "incremental" else []:
            if other != os.path.basename(entry) and os.path.exists(f"{self.top}/{name}/{other}/{part}.tar.gz"):
                os.remove(f"{self.top}/{name}/{other}/{part}.tar.gz")
        return True

    def lay(self, name, digest, folder, part):
        """Lays a part that was kept under the digest into a crate's out/, and returns whether there was one."""
        return unpack(f"{self.entry(name, digest)}/{part}.tar.gz", f"{folder}/out/{part}")

    def lay_newest(self, name, folder, part):
        """Lays the newest kept part of any digest into a crate's out/, and returns whether there was one."""
        files = [f"{self.top}/{name}/{it}/{part}.tar.gz" for it in os.listdir(f"{self.top}/{name}")] if os.path.isdir(f"{self.top}/{name}") else []
        files = sorted((it for it in files if os.path.isfile(it)), key=os.path.getmtime)
        return bool(files) and unpack(files[-1], f"{folder}/out/{part}")

    def shrink(self, digests):
        """Removes the oldest entries while the store is too large, but none of these digests."""
        entries = []
        for name in os.listdir(self.top):
            for digest in os.listdir(f"{self.top}/{name}") if os.path.isdir(f"{self.top}/{name}") else []:
                path = f"{self.top}/{name}/{digest}"
                size = sum(os.path.getsize(it) for it in files_in(path, ("",)))
                entries.append((os.path.getmtime(path), size, path, digests.get(name, "")[:32] == digest))
        total = sum(size for _, size, _, _ in entries)
        for _, size, path, is_current in sorted(entries):
            if total > LARGEST and not is_current:
                shutil.rmtree(path, ignore_errors=True)
                total -= size


def pack(folder, file):
    """Packs a folder into a file, which is whole or not there, and returns whether that went well."""
    with open(f"{file}.new", "wb") as it:
        tar = subprocess.Popen(["tar", "cf", "-", "-C", folder, "."], stdout=subprocess.PIPE)
        zipped = subprocess.run(["gzip", "-1"], stdin=tar.stdout, stdout=it)
        # (else tar would wait for a gzip that has failed)
        tar.stdout.close()
    if tar.wait() or zipped.returncode:
        os.remove(f"{file}.new")
        return False
    os.replace(f"{file}.new", file)
    return True


def unpack(file, folder):
    """Unpacks a file of `pack` in place of a folder, and returns whether that went well."""
    if not os.path.isfile(file):
        return False
    shutil.rmtree(folder, ignore_errors=True)
    os.makedirs(folder)
    well = subprocess.run(["tar", "xzf", file, "-C", folder]).returncode == 0
    if not well:
        shutil.rmtree(folder, ignore_errors=True)
    return well
