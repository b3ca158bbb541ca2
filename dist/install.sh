#!/bin/sh
# Installs topotool, togrid, noshinka-git and the library noshinka below PREFIX; or removes them, or lists their files.
#
#     sh install.sh [--uninstall | --list] PREFIX
set -eu
what=--install
case ${1:-} in
    --uninstall | --list) what=$1; shift ;;
esac
case ${1:--} in
    -*) set -- ;;
esac
[ $# -eq 1 ] || { echo "usage: sh install.sh [--uninstall | --list] PREFIX, as /usr/local or $HOME/.local" >&2; exit 2; }
[ "$what" != --install ] || mkdir -p "$1"
prefix=$(cd "$1" && pwd)
cd "$(dirname "$0")"

files() {
    find bin include lib share ! -type d | LC_ALL=C sort
}

case $what in
    --list) files | sed "s|^|$prefix/|" ;;
    --uninstall)
        files | while read -r file; do rm -f "$prefix/$file"; done
        # Folders of others stay, and so do those with more in them.
        find share -depth -type d | grep noshinka | while read -r folder; do rmdir "$prefix/$folder" 2> /dev/null || true; done
        echo "removed from $prefix" ;;
    *)
        for folder in bin include lib share; do
            mkdir -p "$prefix/$folder"
            cp -R "$folder/." "$prefix/$folder/"
        done
        sed "s|@PREFIX@|$prefix|" lib/pkgconfig/noshinka.pc > "$prefix/lib/pkgconfig/noshinka.pc"
        echo "installed below $prefix; $prefix/bin has topotool, togrid and noshinka-git" ;;
esac
