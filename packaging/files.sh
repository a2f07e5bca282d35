#!/bin/sh
# Lays out what the Debian package and the archive have in common, below a folder.
#
#     packaging/files.sh PROGRAM FOLDER
#
# Programs are in FOLDER/bin, man pages, completions, pages and examples in FOLDER/share.
set -eu
umask 022

program=$1
root=$2
top=$(dirname "$(dirname "$(readlink -f "$0")")")

install -D -m 755 "$program" "$root/bin/relayd"
strip --strip-unneeded "$root/bin/relayd"
install -m 755 "$top/packaging/relayd-supervised" "$root/bin/relayd-supervised"
for page in relayd.1 relayd-supervised.1 relay.conf.5; do
    install -D -m 644 "$top/packaging/$page" "$root/share/man/man${page##*.}/$page"
done
install -D -m 644 "$top/packaging/relayd.bash" "$root/share/bash-completion/completions/relayd"
ln -s relayd "$root/share/bash-completion/completions/relayd-supervised"
install -D -m 644 "$top/packaging/_relayd" "$root/share/zsh/vendor-completions/_relayd"
for file in relayd.fish relayd-supervised.fish; do
    install -D -m 644 "$top/packaging/$file" "$root/share/fish/vendor_completions.d/$file"
done
# As in the source tree, so that the links between pages lead somewhere.
doc=$root/share/doc/relayd
for file in README.md CHANGELOG.md SECURITY.md THIRD_PARTY.md; do
    install -D -m 644 "$top/$file" "$doc/$file"
done
install -m 644 "$top/packaging/copyright" "$doc/copyright"
for folder in docs examples examples/tls examples/two-relays; do
    for file in "$top/$folder"/*.*; do
        install -D -m 644 "$file" "$doc/$folder/$(basename "$file")"
    done
done
chmod 755 "$doc"/examples/*.py "$doc/examples/tls/certificates.sh"
# These need a built source tree.
rm "$doc/examples/demo.sh" "$doc/examples/running.py"
python3 "$top/packaging/installed_pages.py" "$doc"
