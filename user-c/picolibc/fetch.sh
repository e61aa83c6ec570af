#!/bin/sh
# fetch.sh PACKAGE FOLDER: the source of a Debian package, as FOLDER/PACKAGE. It goes by a list of sources of its own,
# since Debian's default list has none for sources, and leaves the system's lists alone. It needs dpkg-dev.
set -eu
package=$1
mkdir -p "$2"
folder=$(realpath "$2")
[ -d "$folder/$package" ] && exit 0
scratch=$(mktemp -d "$folder/fetch.XXXXXX")
trap 'rm -rf "$scratch"' EXIT
. /etc/os-release
mkdir -p "$scratch/lists/partial" "$scratch/cache/archives/partial" "$scratch/source"
echo "deb-src http://deb.debian.org/debian $VERSION_CODENAME main" > "$scratch/sources.list"
own="-o Dir::Etc::sourcelist=$scratch/sources.list -o Dir::Etc::sourceparts=/dev/null -o Dir::State::lists=$scratch/lists -o Dir::Cache=$scratch/cache -o APT::Sandbox::User="
# Options of one word each.
# shellcheck disable=SC2086
apt-get -qq $own update
cd "$scratch/source"
# shellcheck disable=SC2086
apt-get -qq $own source "$package"
mv "$(find . -mindepth 1 -maxdepth 1 -type d)" "$folder/$package"
