# A root that has what Debian installed and nothing else, for checks that read this file in. They have the folder of the root in $empty, and
# in $shared a folder that the root has too, at the same path. It is the only one that can be written to, except for /tmp and /home.
#
# The root holds: /usr, read-only and without /usr/local; of /etc the alternatives, the users and the settings of man; four devices, /proc,
# and in /rust the compiler for Rust if it is not Debian's. It has no network, no /opt, and no file of the repository except in $shared.
# Commands get none of the variables of the environment.

# Makes its folders. What is mounted there is seen only by `in_empty_root`.
make_empty_root() {
    mkdir -p "$empty/etc" "$empty/proc" "$empty/dev" "$empty/tmp" "$empty/home" "$empty/rust" "$empty$shared"
    for folder in usr bin sbin lib lib32 lib64 libx32; do
        if [ -L "/$folder" ]; then
            cp -P "/$folder" "$empty"
        elif [ -d "/$folder" ]; then
            mkdir "$empty/$folder"
        fi
    done
    for file in alternatives passwd group nsswitch.conf manpath.config groff; do
        [ ! -e "/etc/$file" ] || cp -RP "/etc/$file" "$empty/etc"
    done
    for device in null zero full urandom; do
        : > "$empty/dev/$device"
    done
    rust=$(rustc --print sysroot 2> /dev/null) || rust=
    [ "$rust" != /usr ] || rust=
    user=
    unshare --mount true 2> /dev/null || user='--user --map-root-user'
}

# Mounts all of it and runs a command there; $1 to $3 are $empty, $shared and $rust. Who is not root cannot write to /usr anyway.
enter_empty_root='
set -eu
empty=$1 shared=$2 rust=$3
shift 3
for folder in usr bin sbin lib lib32 lib64 libx32; do
    if [ -d "$empty/$folder" ] && [ ! -L "$empty/$folder" ]; then
        mount --bind "/$folder" "$empty/$folder"
        mount -o remount,bind,ro "$empty/$folder" 2> /dev/null || [ ! -w "$empty/$folder" ]
    fi
done
[ ! -d "$empty/usr/local" ] || mount -t tmpfs none "$empty/usr/local"
for device in null zero full urandom; do
    mount --bind "/dev/$device" "$empty/dev/$device"
done
mount -t proc proc "$empty/proc" 2> /dev/null || mount --rbind /proc "$empty/proc"
mount --bind "$shared" "$empty$shared"
[ -z "$rust" ] || mount --bind "$rust" "$empty/rust"
exec chroot "$empty" /usr/bin/env -i -C "$shared" PATH=/rust/bin:/usr/bin:/bin HOME=/home "$@"
'

# Runs a command in the root, in the folder $shared, for five minutes or $CHECK_SECONDS. Its variables come before it, as for `env`.
in_empty_root() {
    timeout "${CHECK_SECONDS:-300}" unshare $user --mount --pid --net --ipc --uts --fork --kill-child sh -c "$enter_empty_root" enter \
        "$empty" "$shared" "$rust" "$@"
}
