"""Writes a made list of packages: 60,000 stanzas of about 1,000 bytes, with the fields and the lengths of Debian's own."""
import sys

HASH = "0123456789abcdef" * 4
DEPENDS = ", ".join(f"libpart{k} (>= {k}.2.1-3)" for k in range(14))
TAGS = "implemented-in::c, interface::commandline, role::program, scope::utility"
TEXT = "a program that does its one thing well, with a line of words that tells what it is for"

with open(sys.argv[1], "w") as out:
    for k in range(60_000):
        name = f"package-{k}"
        out.write(
            f"Package: {name}\nSource: source-{k // 3}\nVersion: 1.{k}-2+b1\nInstalled-Size: {k + 40}\n"
            "Maintainer: The Maintainers <maintainers@lists.example.org>\nArchitecture: amd64\n"
            f"Depends: {DEPENDS}\nDescription: {TEXT}\nMulti-Arch: foreign\n"
            f"Homepage: https://www.example.org/{name}/\nDescription-md5: {HASH[:32]}\nTag: {TAGS}\n"
            f"Section: utils\nPriority: optional\n"
            f"Filename: pool/main/p/{name}/{name}_1.{k}-2+b1_amd64.deb\nSize: {k * 100 + 7}\n"
            f"MD5sum: {HASH[:32]}\nSHA256: {HASH}\n\n"
        )
