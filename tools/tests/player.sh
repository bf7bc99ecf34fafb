# shellcheck shell=sh
# For tests that play as somebody else.

# Runs a command as nobody where this is root, and with nothing of this environment but the path.
as_player() {
    if test "$(id -u)" -eq 0; then
        setpriv --reuid=65534 --regid=65534 --clear-groups --no-new-privs env -i PATH="$PATH" "$@"
    else
        env -i PATH="$PATH" "$@"
    fi
}
