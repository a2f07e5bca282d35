#!/bin/sh
# Builds the image of a container with a built relayd, by podman or buildah, and prints its name.
#
#     packaging/image.sh [--trial] PROGRAM [BUILDER WORD ..]
#
# PROGRAM must be what the proofs left in crates/relayd/out, to the byte, so the quick program is refused. With --trial any
# program is taken, and the image is localhost/relayd:trial. BUILDER and its words stand for `podman`, as in
# `podman --root FOLDER`. The times of files are those of SOURCE_DATE_EPOCH, or of the last commit.
#
# The image has no base: it has the program, what `ldd` names, busybox for `sh` (of Debian's busybox-static), and the
# notices of these. Nothing is fetched.
set -eu

top=$(dirname "$(dirname "$(readlink -f "$0")")")
trial=''
if [ "${1-}" = --trial ]; then
    trial=yes
    shift
fi
program=$1
shift
fail() {
    echo "image: $1" >&2
    exit 1
}
if [ ! "$trial" ] && ! cmp -s "$program" "$top/crates/relayd/out/relayd"; then
    fail "$program is not the program that was proved, crates/relayd/out/relayd: run make (or --trial, to try it out)"
fi
if [ $# -eq 0 ]; then
    if command -v podman >/dev/null; then set -- podman; else set -- buildah; fi
fi
command -v "$1" >/dev/null || fail "$1 is missing: the Debian packages podman and buildah have such programs"
if [ ! -x /bin/busybox ] || ldd /bin/busybox >/dev/null 2>&1; then
    fail "/bin/busybox is missing, or links a library: the Debian package busybox-static has one that links none"
fi

version=$("$program" --version | cut -d' ' -f2)
tag=$version
if [ "$trial" ]; then tag=trial version=$version-trial; fi
epoch=$("$top/packaging/epoch.sh")
folder=$(mktemp -d)
trap 'rm -rf "$folder"' EXIT
root=$folder/root
mkdir -p "$folder/state" "$root/etc/relayd" "$root/var/lib"
install -d -m 1777 "$root/tmp"

install -D -m 755 "$program" "$root/usr/bin/relayd"
strip --strip-unneeded "$root/usr/bin/relayd"
install -m 755 "$top/packaging/relayd-supervised" /bin/busybox "$root/usr/bin"
ln -s usr/bin "$root/bin"  # for #!/bin/sh
for word in cat ls md5sum nc ps sh sleep top wget; do ln -s busybox "$root/usr/bin/$word"; done
# What the program links, at the paths where it looks for them.
ldd "$program" | grep -o '/[^ ]*' | while read -r library; do
    install -D -m 755 "$library" "$root$library"
done
echo 'relayd:x:65532:65532:relayd:/:/bin/sh' >"$root/etc/passwd"
echo 'relayd:x:65532:' >"$root/etc/group"
echo 'hosts: files dns' >"$root/etc/nsswitch.conf"
notices=$root/usr/share/doc
install -D -m 644 "$top/LICENSE" "$notices/relayd/LICENSE"
install -m 644 "$top/packaging/copyright" "$notices/relayd/copyright"
for package in libc6 busybox-static; do
    install -D -m 644 "/usr/share/doc/$package/copyright" "$notices/$package/copyright"
    dpkg-query -W "$package" >>"$notices/packages"  # whose sources Debian has
done
chmod 644 "$root"/etc/[gnp]* "$notices/packages"
find "$folder" -exec touch -h -d "@$epoch" {} +

"$@" build --quiet --layers=false --format docker --timestamp "$epoch" --build-arg "VERSION=$version" \
    --tag "localhost/relayd:$tag" --file "$top/packaging/Containerfile" "$folder" >/dev/null
echo "localhost/relayd:$tag"
