"""Makes a cache folder of held files of no byte: folder.py FOLDER COUNT."""
import os, sys

folder, count = sys.argv[1], int(sys.argv[2])
os.makedirs(folder)
for id in range(count):
    path = f"mirror.example.org/pool/main/p/package/p_{id}_all.deb"
    head = f"acng-head 1\npath {path}\norigin fetched {id} {id}\nsize 0\nchecked 1000\nend\n"
    with open(f"{folder}/h-{id:016x}", "w") as file:
        file.write(head)
    open(f"{folder}/b-{id:016x}", "w").close()
