#!/bin/sh
# Prints values of attributes as Linux itself writes them on a file of the folder that it runs in: the rows of
# crates/virtiofs_map_tests/src/acl/by_linux.rt were made by it. It needs setfacl, setcap and getfattr, and root.
set -eu
folder=$(mktemp -d ./values.XXXXXX)
trap 'rm -rf "$folder"' EXIT
cd "$folder"

show() {
    getfattr --absolute-names --only-values -n "$2" "$1" | od -An -v -tx1 | tr -d ' \n'
    printf '  %s\n' "$3"
}

# The attribute, and the command that sets it on a file.
of_file() {
    name=$1
    shift
    touch file
    chmod 640 file
    "$@" file
    show file "$name" "$* file"
    rm file
}

default() {
    mkdir folder
    chmod 750 folder
    setfacl -d -m "$1" folder
    show folder system.posix_acl_default "setfacl -d -m $1 folder"
    touch folder/file
    show folder/file system.posix_acl_access "touch folder/file"
    rm -r folder
}

for it in u:1000:rw u:101000:rw u:0:r,u:1000:rwx,u:65535:-,g:50:rx,g:1000:w \
    u:100000:r,u:101000:rwx,u:165535:-,g:200050:rx,g:201000:w; do
    of_file system.posix_acl_access setfacl -m $it
done
default u:1000:rwx,g:50:rx
default u:101000:rwx,g:200050:rx
of_file security.capability setcap cap_net_bind_service=+ep
of_file security.capability setcap -n 1000 cap_net_bind_service=+ep
of_file security.capability setcap -n 101000 cap_net_bind_service=+ep
of_file security.capability setcap cap_setfcap,cap_checkpoint_restore=+ip
