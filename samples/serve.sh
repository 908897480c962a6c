#!/bin/sh
# Runs `dewfelt serve` as systemd would by samples/platform.service: where it ends by a fault it is started anew a second later.
#
#     samples/serve.sh DIR [OPTIONS] >> platform.log
#
# DIR is the folder that has the file `fleet`; the options are those of `dewfelt serve`. The variable DEWFELT names the program;
# without it, it is that of this repository. SIGTERM, SIGINT or SIGHUP stops the service by `dewfelt stop`, and ends the loop.
program=${DEWFELT:-$(dirname -- "$(readlink -f -- "$0")")/../dewfelt}
if [ $# -lt 1 ]; then
    echo "usage: samples/serve.sh DIR [OPTIONS]" >&2
    exit 2
fi
is_stopped=
stop() {
    is_stopped=yes
    "$program" stop "$folder" >&2
}
folder=$1
trap stop HUP INT TERM

while [ -z "$is_stopped" ]; do
    "$program" serve "$@" &
    run=$!
    wait "$run"
    status=$?
    # A signal ends the wait before the service has ended.
    while kill -0 "$run" 2>/dev/null; do
        # (it may have come before the service could be asked)
        [ -n "$is_stopped" ] && "$program" stop "$folder" >&2
        wait "$run"
        status=$?
    done
    if [ -n "$is_stopped" ]; then
        exit 0
    fi
    case $status in
    # It was stopped, also by SIGHUP, SIGINT, SIGPIPE or SIGTERM; or settings, words, fleet, folder or tokens are wrong, or no
    # program is there: going on helps nobody.
    0 | 129 | 130 | 141 | 143 | 1 | 2 | 3 | 9 | 11 | 125 | 126 | 127)
        exit "$status"
        ;;
    *)
        echo "serve: the service ended with status $status and is started anew" >&2
        sleep 1
        ;;
    esac
done
exit 0
