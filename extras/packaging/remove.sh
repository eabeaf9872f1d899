#!/bin/sh
# Deletes what the folder above has of uxn: the files of share/uxn/files, and each of their folders that is empty then.
cd -- "$(dirname -- "$0")/../.." || exit 1
files=$(cat share/uxn/files) || exit 1
printf '%s\n' "$files" | while IFS= read -r path; do
    case $path in
    */) ;;
    *) rm -f -- "$path" ;;
    esac
done
printf '%s\n' "$files" | LC_ALL=C sort -r | while IFS= read -r path; do
    case $path in
    */) rmdir -- "$path" 2>/dev/null ;;
    esac
done
exit 0
