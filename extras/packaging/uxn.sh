#!/bin/sh
# Runs the program. It answers --help and --version itself, since the program refuses them.
self=$0
while [ -h "$self" ]; do
    link=$(readlink -- "$self")
    case $link in
    /*) self=$link ;;
    *) self=${self%/*}/$link ;;
    esac
done
top=${self%/*}/..
case ${1-} in
-h | --help | help) exec cat "$top/share/uxn/help" ;;
--version)
    echo 'uxn @VERSION@'
    exit
    ;;
esac
exec "$top/lib/uxn/uxn" "$@"
