"""Makes a cache folder of 100,000 files with four indexes: folder.py FOLDER.

Each index is an InRelease that names a list of packages, which is held and names 15,000 files, each by a stanza of about
1,000 bytes. These 60,000 files are held, and so are 39,992 that no index names. All of those have a body of no byte, and no
file has a mark.
"""
import hashlib
import os
import sys

ROWS, INDEXES, NAMED = 100_000, 4, 15_000
DEPENDS = ", ".join(f"libpart{k} (>= {k}.2.1-3)" for k in range(14))
TEXT = "a program that does its one thing well, with a line of words that tells what it is for"
NOTHING = hashlib.sha256(b"").hexdigest()

folder = sys.argv[1]
os.makedirs(folder)
count = 0


def hold(path, body):
    """Puts a whole file into the folder, under the next id."""
    global count
    with open(f"{folder}/b-{count:016x}", "wb") as file:
        file.write(body)
    with open(f"{folder}/h-{count:016x}", "w") as file:
        file.write(f"acng-head 1\npath {path}\norigin fetched {count} {count}\nsize {len(body)}\nchecked 1000\nend\n")
    count += 1


def stanza(name):
    return (
        f"Package: {name}\nSource: {name}\nVersion: 1.0-2+b1\nInstalled-Size: 40\n"
        "Maintainer: The Maintainers <maintainers@lists.example.org>\nArchitecture: amd64\n"
        f"Depends: {DEPENDS}\nDescription: {TEXT}\nMulti-Arch: foreign\n"
        f"Homepage: https://www.example.org/{name}/\nDescription-md5: {NOTHING[:32]}\n"
        "Tag: implemented-in::c, interface::commandline, role::program, scope::utility\n"
        "Section: utils\nPriority: optional\n"
        f"Filename: pool/main/p/{name}/{name}_1.0-2+b1_amd64.deb\nSize: 0\n"
        f"MD5sum: {NOTHING[:32]}\nSHA256: {NOTHING}\n\n"
    )


def deb(name):
    return f"mirror.example.org/debian/pool/main/p/{name}/{name}_1.0-2+b1_amd64.deb"


for index in range(INDEXES):
    names = [f"package-{index}-{k}" for k in range(NAMED)]
    packages = "".join(map(stanza, names)).encode()
    entry = f" {hashlib.sha256(packages).hexdigest()} {len(packages)} main/binary-amd64/Packages\n"
    inrelease = (
        "-----BEGIN PGP SIGNED MESSAGE-----\nHash: SHA256\n\nOrigin: Example\nSHA256:\n" + entry
        + "-----BEGIN PGP SIGNATURE-----\n\niQ\n-----END PGP SIGNATURE-----\n"
    )
    dists = f"mirror.example.org/debian/dists/suite-{index}"
    hold(f"{dists}/InRelease", inrelease.encode())
    hold(f"{dists}/main/binary-amd64/Packages", packages)
    for name in names:
        hold(deb(name), b"")
for k in range(ROWS - count):
    hold(deb(f"unnamed-{k}"), b"")
