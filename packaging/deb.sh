#!/bin/sh
# Builds the Debian package of a built relayd, with the service, the examples as its configuration, the man pages, the
# completions of bash, zsh and fish, and the pages and examples to which its notes and files point.
#
#     packaging/deb.sh PROGRAM FOLDER
#
# Puts relayd_VERSION_amd64.deb into FOLDER and prints its path. The same program and sources give the same package, to the
# byte (packaging/epoch.sh has the time of its files). The service is neither enabled nor started: first write
# /etc/relayd/relay.conf. An upgrade leaves a relay that runs alone: the operator restarts it.
set -eu
umask 022

program=$1
folder=$2
top=$(dirname "$(dirname "$(readlink -f "$0")")")
version=$("$program" --version | cut -d' ' -f2 | tr - '~')  # 0.3.0~dev comes before 0.3.0
root=$folder/relayd-$version
package=$folder/relayd_${version}_amd64.deb
maintainer='Zalbune maintainers <maintainers@users.noreply.zalbune.example>'
SOURCE_DATE_EPOCH=$("$top/packaging/epoch.sh")
export SOURCE_DATE_EPOCH DPKG_DEB_THREADS_MAX=1 LC_ALL=C

rm -rf "$root"
mkdir -p "$root/DEBIAN"
"$top/packaging/files.sh" "$program" "$root/usr"
for unit in relayd.service relayd-metrics.service relayd-metrics.timer; do
    install -D -m 644 "$top/packaging/$unit" "$root/lib/systemd/system/$unit"
done
# The same for instances.
for unit in relayd.service relayd-metrics.service relayd-metrics.timer; do
    sed -f "$top/packaging/instance.sed" "$top/packaging/$unit" >"$root/lib/systemd/system/${unit%.*}@.${unit##*.}"
done
# What the timer runs, which is no command.
mkdir -p "$root/usr/share/relayd"
sed 1d "$top/examples/report_to_graphite.py" >"$root/usr/share/relayd/report_to_graphite.py"
for file in relay.conf relay-rules.conf rewrite-rules.conf; do
    install -D -m 644 "$top/examples/$file" "$root/etc/relayd/$file"
    echo "/etc/relayd/$file" >>"$root/DEBIAN/conffiles"
done
gzip -9n >"$root/usr/share/doc/relayd/changelog.gz" <<END
relayd ($version) unstable; urgency=medium

  * /usr/share/doc/relayd/CHANGELOG.md says what is new.

 -- $maintainer  $(date -u -R -d "@$SOURCE_DATE_EPOCH")
END
gzip -9n "$root"/usr/share/man/man?/*
(cd "$root" && find usr lib -type f -print0 | sort -z | xargs -0 md5sum >DEBIAN/md5sums)

cat >"$root/DEBIAN/control" <<END
Package: relayd
Version: $version
Section: net
Priority: optional
Architecture: amd64
Depends: libc6 (>= 2.34), passwd
Recommends: systemd, python3
Suggests: netcat-openbsd
Maintainer: $maintainer
Installed-Size: $(find "$root" -type f -printf '%s\n' | awk '{ kib += int(($1 + 1023) / 1024) } END { print kib }')
Description: relay for Graphite metrics
 Takes datapoints as text lines, UDP datagrams and pickles, rewrites their
 names, routes them by relay rules or by carbon's hash ring, keeps one bounded
 queue for each destination, and writes lines to each.
END

# The key of the admin port, which root and the members of a group of its own may read: the service and who commands it.
cat >"$root/DEBIAN/postinst" <<'END'
#!/bin/sh
set -e
if [ "$1" = configure ]; then
    getent group relayd-admin >/dev/null || groupadd --system relayd-admin
    if [ ! -e /etc/relayd/admin.key ]; then
        head -c 24 /dev/urandom | base64 | install -m 640 -o root -g relayd-admin /dev/stdin /etc/relayd/admin.key
    fi
fi
if [ -d /run/systemd/system ]; then systemctl daemon-reload; fi
END
cat >"$root/DEBIAN/prerm" <<'END'
#!/bin/sh
set -e
if [ -d /run/systemd/system ] && [ "$1" = remove ]; then systemctl stop 'relayd-metrics*.timer' relayd 'relayd@*'; fi
END
# A removed package leaves whether the service is enabled, and its configuration; a purged one leaves nothing.
cat >"$root/DEBIAN/postrm" <<'END'
#!/bin/sh
set -e
if [ "$1" = purge ]; then
    rm -f /etc/systemd/system/multi-user.target.wants/relayd.service
    rm -f /etc/systemd/system/multi-user.target.wants/relayd@*.service
    rm -f /etc/systemd/system/timers.target.wants/relayd-metrics.timer
    rm -f /etc/systemd/system/timers.target.wants/relayd-metrics@*.timer
    rm -f /etc/relayd/admin.key
    if [ -d /etc/relayd ]; then rmdir --ignore-fail-on-non-empty /etc/relayd; fi
    if getent group relayd-admin >/dev/null; then groupdel relayd-admin; fi
    # What the relay did not send, what the metrics sent last, and both of instances.
    rm -rf /var/lib/private/relayd /var/lib/relayd /var/lib/private/relayd-* /var/lib/relayd-*
fi
if [ -d /run/systemd/system ]; then systemctl daemon-reload; fi
END
chmod 755 "$root/DEBIAN/postinst" "$root/DEBIAN/prerm" "$root/DEBIAN/postrm"

dpkg-deb --root-owner-group --build "$root" "$package" >&2
rm -rf "$root"
echo "$package"
