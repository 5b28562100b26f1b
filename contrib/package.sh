#!/usr/bin/env bash
# Makes a Debian package of the program in dist/: bnc_VERSION_amd64.deb, in the current folder.
#
#   contrib/package.sh [FOLDER]        FOLDER: where it goes instead
#
# It has the program, the manual page, the systemd unit, an example of the settings and the pages for
# users. dpkg-deb makes it; nothing is proved or built here.
set -eu
to=$(realpath -e "${1:-.}")
cd "$(dirname "$0")/.."
name=bnc-x86_64-linux-gnu
at=$(mktemp -d)
trap 'rm -rf "$at"' EXIT
umask 022
(cd dist && sha256sum --quiet --check --ignore-missing SHA256SUMS)
gzip -dc "dist/$name.gz" > "$at/bnc"
chmod 755 "$at/bnc"
version=1.0.$(git log -1 --format=%cd --date=format:%Y%m%d)
glibc=$(grep -aoE 'GLIBC_[0-9]+(\.[0-9]+)+' "$at/bnc" | sed 's/GLIBC_//' | sort -uV | tail -n 1)

put() { install -D -m "$1" "$2" "$at/root$3"; }
put 755 "$at/bnc" /usr/bin/bnc
put 644 docs/bnc.1 /usr/share/man/man1/bnc.1
gzip -9 -n "$at/root/usr/share/man/man1/bnc.1"
sed 's#/usr/local/bin/bnc#/usr/bin/bnc#; /^#   /d' contrib/bnc.service > "$at/bnc.service"
put 644 "$at/bnc.service" /lib/systemd/system/bnc.service
put 644 contrib/bnc.toml /usr/share/doc/bnc/examples/bnc.toml
for page in README.md docs/SETTINGS.md docs/CLIENTS.md docs/TLS.md docs/OFFLINE.md; do
  put 644 "$page" "/usr/share/doc/bnc/$(basename "$page")"
done
put 644 debian/copyright /usr/share/doc/bnc/copyright
printf 'bnc (%s) unstable; urgency=medium\n\n  * The program of dist/, as it is in this commit.\n\n -- Buskaeri <maintainers@buskaeri.example>  %s\n' \
  "$version" "$(git log -1 --format=%cD)" | gzip -9 -n > "$at/changelog.gz"
put 644 "$at/changelog.gz" /usr/share/doc/bnc/changelog.gz
# the program stays byte for byte what the proofs made, so it is not stripped
echo 'bnc: unstripped-binary-or-object *' > "$at/overrides"
put 644 "$at/overrides" /usr/share/lintian/overrides/bnc

mkdir "$at/root/DEBIAN"
cat > "$at/root/DEBIAN/control" <<END
Package: bnc
Version: $version
Section: net
Priority: optional
Architecture: amd64
Maintainer: Buskaeri <maintainers@buskaeri.example>
Installed-Size: $(du -sk "$at/root" | cut -f 1)
Depends: libc6 (>= $glibc)
Recommends: stunnel4
Description: IRC bouncer with late attach
 bnc stays connected to IRC networks for you. A client that attaches late
 gets the channels, topics, modes and members as they are now, and the
 messages that it missed, each once. Its logic is proved.
END
cat > "$at/root/DEBIAN/postinst" <<'END'
#!/bin/sh
set -e
if [ -d /run/systemd/system ]; then systemctl daemon-reload; fi
END
cat > "$at/root/DEBIAN/prerm" <<'END'
#!/bin/sh
set -e
if [ "$1" = remove ] && [ -d /run/systemd/system ]; then systemctl disable --now bnc.service || true; fi
END
cat > "$at/root/DEBIAN/postrm" <<'END'
#!/bin/sh
set -e
if [ -d /run/systemd/system ]; then systemctl daemon-reload; fi
END
chmod 755 "$at/root/DEBIAN/postinst" "$at/root/DEBIAN/prerm" "$at/root/DEBIAN/postrm"
dpkg-deb --root-owner-group --build "$at/root" "$to/bnc_${version}_amd64.deb"
