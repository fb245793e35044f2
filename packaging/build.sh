#!/usr/bin/env bash
# Makes the Debian package from the built program, the files of this folder and the documents: packaging/out/acng_VERSION_amd64.deb,
# or in the folder that is named. The same sources give the same bytes: the version is that of `changelog`, and every date is
# that of the last commit, of the changelog where there is no git, or SOURCE_DATE_EPOCH.
set -eu
cd "$(dirname "$0")/.."
umask 022
export LC_ALL=C TZ=UTC DPKG_DEB_THREADS_MAX=1
here=packaging
out=${1:-$here/out}
program=crates/acng/out/acng

for tool in dpkg-deb python3 gzip; do
    command -v "$tool" > /dev/null || { echo "deb: skipped, there is no $tool"; exit 0; }
done
[ -x "$program" ] || (cd crates/acng && rt run -- check-conf < /dev/null > /dev/null 2>&1) || true
[ -x "$program" ] || { echo "deb: the program isn't built; make run builds it"; exit 1; }

version=$(sed -n '1s/^acng (\([^)]*\)).*/\1/p' "$here/changelog")
changed=$(sed -n 's/^ -- .*>  //p' "$here/changelog" | head -n 1)
SOURCE_DATE_EPOCH=${SOURCE_DATE_EPOCH:-$(git log -1 --format=%ct 2> /dev/null || date -d "$changed" +%s)}
export SOURCE_DATE_EPOCH

work=$(mktemp -d)
trap 'rm -rf "$work"' EXIT
root=$work/root
# put MODE FILE FOLDER: the file in that folder of the package
put() { install -D -m "$1" "$2" "$root/$3/$(basename "$2")"; }

put 755 "$program" usr/sbin
if command -v strip > /dev/null; then strip --strip-unneeded --remove-section=.comment "$root/usr/sbin/acng"; fi
put 755 "$here/expire" usr/lib/acng
put 644 "$here/acng.conf" etc/acng
put 644 "$here/debian_mirrors" etc/acng
for unit in acng.service acng-expire.service acng-expire.timer; do put 644 "$here/$unit" usr/lib/systemd/system; done
install -d -m 755 "$root/var/cache/acng"

share=usr/share/doc/acng
put 644 "$here/copyright" "$share"
put 644 "$here/from-apt-cacher-ng.md" "$share"
put 644 docs/CONFIGURATION.md "$share"
put 644 docs/FORMATS.md "$share"
put 644 "$here/changelog" "$share"
for page in acng.8 acng.conf.5; do
    folder=$root/usr/share/man/man${page##*.}
    mkdir -p "$folder"
    python3 "$here/manual.py" "$here/$page.in" docs "$version" "$SOURCE_DATE_EPOCH" > "$folder/$page"
    gzip -9n "$folder/$page"
done
gzip -9n "$root/$share/changelog"

mkdir "$root/DEBIAN"
(cd "$root" && find etc -type f -printf '/%p\n' | sort) > "$root/DEBIAN/conffiles"
(cd "$root" && find usr var -type f -print0 | sort -z | xargs -0 md5sum) > "$root/DEBIAN/md5sums"
libc=$(grep -ao 'GLIBC_2\.[0-9]*' "$root/usr/sbin/acng" | sort -Vu | tail -n 1)
size=$(find "$root" -path "$root/DEBIAN" -prune -o -type f -printf '%s\n' | awk '{ sum += int(($1 + 1023) / 1024) } END { print sum }')
sed -e "s/@VERSION@/$version/" -e "s/@SIZE@/$size/" -e "s/@LIBC@/${libc#GLIBC_}/" "$here/control.in" > "$root/DEBIAN/control"
for script in postinst prerm postrm; do install -m 755 "$here/$script" "$root/DEBIAN/$script"; done

chmod 755 "$root"
find "$root" -exec touch -h -d "@$SOURCE_DATE_EPOCH" {} +
mkdir -p "$out"
dpkg-deb --root-owner-group -Zxz --build "$root" "$out/acng_${version}_amd64.deb" > /dev/null
echo "$out/acng_${version}_amd64.deb"
