#!/usr/bin/env bash
# Makes the Debian package of the proved program xp, by dpkg-deb:
#
#     tools/package.sh [--program PROGRAM] [FILE]
#
# FILE is out/gonukire_VERSION_amd64.deb where it is absent. What is packed is the program that `./xp prove` made; where there is none,
# or where it is older than the sources, no package is made. With --program it is another program, for tests: the version of the package
# ends in ~unproved then, and its `xp --version` says that it is not proved. Made again by the same tools, a package has the same octets.
set -euo pipefail
umask 022

top=$(dirname "$(dirname "$(readlink -f "${BASH_SOURCE[0]}")")")
parts=$top/tools/package
maintainer="${DEBFULLNAME:-Gonukire maintainers} <${DEBEMAIL:-maintainers@users.noreply.gonukire.example}>"

refuse() {
  echo "package: $*" >&2
  exit 1
}

# What `./xp --version` tells: the version, the commit, whether the program is proved, and the kit, a line each.
read_identity() {
  mapfile -t identity < <("$top/xp" --version)
  version=${identity[0]#xp }
  # A package's version has no hyphen, but before the number of a Debian revision.
  version=${version//-/.}
}

# Takes the proved program, or the one that a test gives.
choose_program() {
  if [ -n "$program" ]; then
    identity[2]="proved: no"
    version+="~unproved"
    return
  fi
  case ${identity[2]} in
    "proved: yes") program=$top/crates/xp/out/xp ;;
    "proved: no") refuse "no program is proved here: ./xp prove proves and builds it, in about an hour" ;;
    *) refuse "the proved program is older than the sources: ./xp prove proves what changed" ;;
  esac
}

# The seconds since 1970 of the commit, which all files of the package get: those of CHANGELOG.md where there is no commit.
moment_of_version() {
  git -C "$top" log -1 --format=%ct 2> /dev/null || stat -c %Y "$top/CHANGELOG.md"
}

put_program() {
  install -D -m 755 "$program" "$root/usr/lib/gonukire/xp"
  install -D -m 644 "$top/tools/run_program.sh" "$root/usr/lib/gonukire/run_program.sh"
  printf '%s\n' "${identity[@]}" > "$root/usr/lib/gonukire/version"
  install -D -m 755 "$parts/launcher" "$root/usr/bin/xp"
  install -D -m 644 "$parts/lintian-overrides" "$root/usr/share/lintian/overrides/gonukire"
}

# The unit runs the launcher of the package. Everything else of it is that of examples/xp.service.
put_unit() {
  install -d "$root/usr/lib/systemd/system"
  sed 's|^ExecStart=/usr/local/bin/xp |ExecStart=/usr/bin/xp |' "$top/examples/xp.service" > "$root/usr/lib/systemd/system/xp.service"
}

put_documents() {
  local documents=$root/usr/share/doc/gonukire manual=$root/usr/share/man/man1
  install -D -m 644 -t "$documents" "$top/README.md" "$top/CHANGELOG.md"
  install -D -m 644 -t "$documents/docs" "$top"/docs/*.md "$top"/docs/*.png
  install -D -m 644 -t "$documents/examples" "$top"/examples/*.*
  rm "$documents/examples/xp.service"
  changelog | gzip -9n > "$documents/changelog.gz"
  { cat "$parts/copyright" && "$top/tools/licences.py"; } > "$documents/copyright"
  install -d "$manual"
  gzip -9n < "$top/docs/xp.1" > "$manual/xp.1.gz"
}

# The changelog of the package: a block for each heading of CHANGELOG.md, with its entries. The top one has the moment of the commit, any
# other the day that it names.
changelog() {
  local word text signature=
  awk '/^## /{ print "version", $2 } /^- /{ print "entry", substr($0, 3) }' "$top/CHANGELOG.md" | sed 's/\*\*//g' | {
    while read -r word text; do
      if [ "$word" = entry ]; then
        fold -s -w 74 <<< "$text" | sed '1s/^/  * /; 1!s/^/    /; s/ *$//'
      elif [ -z "$signature" ]; then
        printf 'gonukire (%s) unstable; urgency=medium\n\n' "$version"
        signature=$(signature_of "@$moment")
      else
        printf '\n%s\n\ngonukire (%s) unstable; urgency=medium\n\n' "$signature" "${text//-/.}"
        signature=$(signature_of "${text:0:10}")
      fi
    done
    printf '\n%s\n' "$signature"
  }
}

signature_of() {
  printf ' -- %s  %s' "$maintainer" "$(LC_ALL=C TZ=UTC date -R -d "$1")"
}

# The newest glibc whose symbols the program asks for.
glibc_version() {
  { grep -aoE 'GLIBC_[0-9]+(\.[0-9]+)+' "$program" || true; } | sed 's/GLIBC_//' | sort -V | tail -n 1
}

# What the files take, each in whole kilobytes.
kilobytes() {
  find "$root/usr" -type f -printf '%s\n' | awk '{ sum += int(($1 + 1023) / 1024) } END { print sum }'
}

put_control() {
  local glibc
  glibc=$(glibc_version)
  install -D -m 755 -t "$root/DEBIAN" "$parts/postinst" "$parts/prerm" "$parts/postrm"
  (cd "$root" && find usr -type f -print0 | LC_ALL=C sort -z | xargs -0 md5sum) > "$root/DEBIAN/md5sums"
  cat > "$root/DEBIAN/control" << EOF
Package: gonukire
Version: $version
Architecture: amd64
Maintainer: $maintainer
Installed-Size: $(kilobytes)
Depends: libc6${glibc:+ (>= $glibc)}
Section: net
Priority: optional
Description: call-control exchange of an X.25 packet network over TCP
 The exchange sets up, carries, clears and charges virtual calls between card
 terminals, telemetry, hosts and routers that speak X.25 over TCP (XOT, RFC
 1613), as ITU-T X.25 says. It has closed user groups, hunt groups, call
 redirection, fast select, reverse charging and charging information.
 .
 The program xp is proved to join only lines that may be joined, and to charge
 each call exactly.
EOF
}

program=
if [ "${1-}" = --program ]; then
  program=${2-}
  [ -x "$program" ] || refuse "--program wants a program"
  shift 2
fi
[[ $# -le 1 && ${1-} != -* ]] || refuse "one file is wanted, found $*"
read_identity
choose_program
file=${1-$top/out/gonukire_${version}_amd64.deb}
moment=$(moment_of_version)
folder=$(mktemp -d)
trap 'rm -rf "$folder"' EXIT
root=$folder/root
put_program
put_unit
put_documents
put_control
mkdir -p "$(dirname "$file")"
SOURCE_DATE_EPOCH=$moment dpkg-deb -Zxz --root-owner-group --build "$root" "$file"
