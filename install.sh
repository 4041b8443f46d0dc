#!/bin/sh
# Installs the program, its man page and its completions, or removes them.
#
#   ./install.sh [--uninstall]
#
# PREFIX is where to (/usr/local), DESTDIR a folder put before it. The program is built first, where it isn't yet, by
# `rt run` in crates/dvdisaster_rs01.
set -eu
from=$(pwd)
cd "$(dirname "$0")"

name=dvdisaster_rs01
# A relative folder is meant from where the caller stands.
case ${DESTDIR:-} in
"" | /*) root=${DESTDIR:-} ;;
*) root=$from/$DESTDIR ;;
esac
prefix=$root${PREFIX:-/usr/local}
built=crates/$name/out/$name

# Each thing that is installed: its mode, where it stands here, and where it goes.
things() {
    cat <<END
755 $built $prefix/bin/$name
644 docs/$name.1 $prefix/share/man/man1/$name.1
644 completions/$name.bash $prefix/share/bash-completion/completions/$name
644 completions/_$name $prefix/share/zsh/site-functions/_$name
644 completions/$name.fish $prefix/share/fish/vendor_completions.d/$name.fish
END
}

usage() {
    sed -n '2,7s/^# \{0,1\}//p' install.sh >&2
    exit 2
}

if [ "${1:-}" = --uninstall ]; then
    [ $# -eq 1 ] || usage
    things | while read -r _ _ to; do
        if [ -e "$to" ]; then
            rm -f "$to"
            echo "removed $to"
        fi
    done
    exit 0
fi

[ $# -eq 0 ] || usage

if [ ! -x "$built" ]; then
    (cd crates/$name && rt run)
fi

things | while read -r mode from to; do
    mkdir -p "$(dirname "$to")"
    cp "$from" "$to"
    chmod "$mode" "$to"
    echo "installed $to"
done
