#!/bin/busybox sh
# The guest's first process: mounts each tag that the kernel's command line names, and performs the lines of `operations`
# there: a uid, which is the gid too, and a command. What each writes, and how it ends, goes to the second serial line.
/bin/busybox mkdir -p /proc /dev /m /usr/bin
/bin/busybox --install -s /bin
export PATH=/bin:/usr/bin
mount -t proc proc /proc; mount -t devtmpfs dev /dev
for it in /modules/*; do insmod $it; done
exec >/dev/ttyS1 2>&1 </dev/null
stty -F /dev/ttyS1 raw
for tag in $(sed 's/.* tags=//; s/ .*//; s/,/ /g' /proc/cmdline); do
    echo "=== $tag"
    mount -t virtiofs $tag /m || continue
    cd /m
    while read -r who command; do
        echo "$who $command"
        eval "as $who $command" 2>&1 | grep -v '^# file:\|^$'
    done </operations
    cd /; umount /m
done
echo "=== end"
poweroff -f
