#!/bin/sh
# Builds an archive of a built relayd that runs from any folder: the program and relayd-supervised, man pages, completions,
# the units of systemd, and the pages and examples.
#
#     packaging/tarball.sh PROGRAM FOLDER
#
# Puts relayd-VERSION-linux-amd64.tar.gz into FOLDER, with its checksum beside it, and prints its path; SHA256SUMS in it has
# the checksums of its files. The same program and sources give the same archive, to the byte.
set -eu
umask 022

program=$1
folder=$2
top=$(dirname "$(dirname "$(readlink -f "$0")")")
name=relayd-$("$program" --version | cut -d' ' -f2)-linux-amd64
work=$(mktemp -d)
trap 'rm -rf "$work"' EXIT
root=$work/$name
export LC_ALL=C

"$top/packaging/files.sh" "$program" "$root"
install -D -m 644 "$top/LICENSE" "$root/LICENSE"
for unit in relayd.service relayd-metrics.service relayd-metrics.timer; do
    install -D -m 644 "$top/packaging/$unit" "$root/lib/systemd/system/$unit"
done
(cd "$root" && find . -type f -print0 | sort -z | xargs -0 sha256sum >"$work/sums" && mv "$work/sums" SHA256SUMS)
chmod 644 "$root/SHA256SUMS"
tar --create --sort=name --owner=0 --group=0 --numeric-owner --mtime="@$("$top/packaging/epoch.sh")" \
    --directory="$work" "$name" | gzip -9n >"$folder/$name.tar.gz"
(cd "$folder" && sha256sum "$name.tar.gz" >"$name.tar.gz.sha256")
echo "$folder/$name.tar.gz"
