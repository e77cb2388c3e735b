#!/usr/bin/env bash
# Tries in an empty Debian what somebody meets who has nothing else. It needs root, `mmdebstrap`, and a mirror of Debian.
#
#     tests/packages/empty_debian.sh [DIST [WORDS ..]]     the packages of DIST, of dist where it isn't said: installs them by apt, and judges a proof by the program,
#                                                          weft, Python and C; with WORDS the acceptance run is made there with these, as -j 4 for all of it
#     tests/packages/empty_debian.sh --look [SUITE ..]     Python alone: README's first look over a copy of the sources, as another user, within ten seconds; in
#                                                          bullseye, which has Python 3.9, and in the suite of this machine where none is named
#     tests/packages/empty_debian.sh --judge DIST SIGNERS LINE    judges the release in DIST as another user, by the judge of this copy and by the release's own, with
#                                                          Python alone, and once more with Perl and ssh-keygen: then each fault that the acceptance run plants, in
#                                                          a copy of DIST; with those who may sign and the log's line in these files
#
# It tells how many seconds each part took. The last line is `passed`.
set -euo pipefail
if [[ ${1:-} == --help ]]; then
    sed -n '2,/^set/s/^# \{0,1\}//p' "$0"
    exit
fi
top=$(cd "$(dirname "$0")/../.." && pwd)
own_suite=$(. /etc/os-release && echo "$VERSION_CODENAME")
room=$(mktemp -d)
chmod 755 "$room"
root=$room/debian
trap 'umount -q "$root/proc" || true; rm -rf "$room"' EXIT
since=0

# The user and group as which somebody looks and judges, who owns nothing.
other=4711

told() { echo "$((SECONDS - since)) s: $1"; since=$SECONDS; }
bare() { env -i PATH=/usr/sbin:/usr/bin:/sbin:/bin LC_ALL=C.UTF-8 DEBIAN_FRONTEND=noninteractive "$@"; }
inside() { bare chroot "$root" "$@"; }
outside() { bare chroot --userspec=$other:$other "$root" "$@"; }
wants() { local wanted=$1 got; shift; got=$(inside "$@"); [[ $got == *"$wanted"* ]] || { echo "$*: $got"; exit 1; }; }
sources() { git -C "$top" archive --prefix=tree/ HEAD | tar -x -C "$root/$1"; }

# An empty Debian of a suite, with these settings of mmdebstrap.
empty() {
    rm -rf "$root"
    mmdebstrap --quiet "${@:2}" "$1" "$root"
    # (ssh-keygen runs for a user that has a name alone)
    echo "stranger:x:$other:$other::/nonexistent:/bin/sh" >> "$root/etc/passwd"
    told "an empty Debian, $1"
}

# ---- Python alone

# What somebody sees who has a copy of the sources and Python: the first look, three times, and README's example.
look() {
    empty "$1" --variant=essential --include=python3
    sources srv
    local before took best=
    for _ in 1 2 3; do
        before=$(date +%s%N)
        outside sh -c 'cd /srv/tree && python3 tools/look.py' > "$room/look"
        took=$((($(date +%s%N) - before) / 1000000))
        best=$((${best:-took} < took ? best : took))
    done
    PYTHONPATH=$top/tests/acceptance python3 -c 'import harness.places, sys; from cases import unproved; unproved.hold_look(sys.stdin.read())' < "$room/look"
    outside sh -c 'cd /srv/tree && weft/bin/weft judge --reference --kept web/examples/three.lines -- web/examples/bound.proof' > "$room/judged" || [ $? = 20 ]
    grep -q '^web/examples/bound.proof: shown$' "$room/judged"
    told "$(outside python3 --version), $(outside sh -c 'command -v make || echo no make'): the look took $best ms, the best of three, and shows what README does"
    [ "$best" -le 10000 ] || { echo "that is more than ten seconds"; exit 1; }
}

# ---- a release

# Judges a release by the judge of this copy and by its own, which has to say the same; in an empty Debian with Python and what more is named, as ,perl.
judge() {
    local dist=$1 given=(--signers /srv/given/signers --line /srv/given/line) status=0
    empty bullseye --variant=essential --include="python3$4"
    sources srv
    mkdir "$root/srv/release" "$root/srv/given"
    install -m 644 "$dist"/* "$root/srv/release"
    install -m 644 "$2" "$root/srv/given/signers"
    install -m 644 "$3" "$root/srv/given/line"
    outside python3 /srv/tree/tools/judge_release.py /srv/release "${given[@]}" > "$room/told" || status=$?
    cat "$room/told"
    [ $status = 0 ] || [ $status = 3 ] || { echo "the judge ended with $status"; exit 1; }
    told "judged by the judge of another copy, with python3$4 alone"
    outside sh -c 'cd "$(mktemp -d)" && tar -xf /srv/release/timeweave-*-source.tar.gz && python3 timeweave-*/tools/judge_release.py "$@"' sh /srv/release "${given[@]}" > "$room/own" || [ $? = $status ]
    cmp "$room/told" "$room/own"
    told "judged by the release's own judge, which says the same"
}

# Judges a copy of the release with a fault; those of the careful have no signature.
judge_planted() {
    local given=(--signers /srv/given/signers)
    [ ! -e "${1%/}.careful" ] || given=()
    outside python3 /srv/tree/tools/judge_release.py "/srv/planted/$(basename "$1")" "${given[@]}" > "${1%/}.told" || true
    rm -rf "$1"
}

# Plants the faults into copies of the release there, and has each judged, two a processor at a time.
plant() {
    local into=$root/srv/planted folder
    mkdir "$into"
    python3 "$top/tests/packages/plant.py" "$1" "$into"
    for folder in "$into"/*/; do
        judge_planted "$folder" &
        while [ "$(jobs -rp | wc -l)" -ge $((2 * $(nproc))) ]; do wait -n || true; done
    done
    wait
    python3 "$top/tests/packages/plant.py" "$1" --found "$into"
    told "planted faults"
}

# ---- the packages

packages() {
    local dist=$1
    shift
    (cd "$dist" && sha256sum --quiet --check SHA256SUMS)
    empty "$own_suite" --variant=apt
    mount -t proc proc "$root/proc"

    cp "$dist"/*.deb "$root/root/"
    inside sh -c 'apt-get -qq update && apt-get -qq install --no-install-recommends /root/timeweave_*.deb /root/python3-*.deb /root/libtimeweave1_*.deb' > "$room/log" 2>&1 || { tail "$room/log"; exit 1; }
    inside test -e /usr/share/timeweave/weft/__pycache__ -a -e /usr/lib/python3/dist-packages/timeweave_reference/__pycache__
    told "apt install: timeweave, python3-timeweave, libtimeweave1; what is of Python is compiled"

    local line='a 1 9f9cc8f6baef592ed6bf90b106ebe7b882f59a1cc9803a6d1eef6974da5f87ed'
    cp "$top/crates/timeweave/data/p" "$root/root/p"
    echo "$line" > "$root/root/lines"
    wants 'accepted exists' timeweave verify /root/p $line
    wants 'shown' weft judge --kept /root/lines /root/p
    wants 'exists' python3 -c 'import timeweave; print(timeweave.strict(open("/root/p", "rb").read(), open("/root/lines").read()).kind)'
    wants 'accepted exists' python3 -m timeweave_reference judge /root/p /root/lines
    wants 'accepted exists' timeweave-unproved verify /root/p /root/lines
    told "a verdict by timeweave, weft, Python and the second implementation"

    inside sh -c 'apt-get -qq install --no-install-recommends gcc libc6-dev pkg-config /root/libtimeweave-dev_*.deb' > "$room/log" 2>&1 || { tail "$room/log"; exit 1; }
    inside sh -c 'cc -o /root/many /usr/share/doc/timeweave/examples/many_proofs.c $(pkg-config --cflags --libs timeweave)'
    wants '10 of 10 accepted' /root/many /root/p /root/lines 10
    inside sh -c 'cc -o /root/many /usr/share/doc/timeweave/examples/many_proofs.c -l:libtimeweave.a'
    wants '10 of 10 accepted' /root/many /root/p /root/lines 10
    told "C, by pkg-config and with the static library"

    if [ $# -gt 0 ]; then
        inside apt-get -qq install --no-install-recommends make git openssh-client openssl > "$room/log" 2>&1
        sources root
        inside python3 /root/tree/tests/acceptance/run.py /usr/bin/timeweave "$@" | tail -40
        told "the acceptance run"
    fi
    inside apt-get -qq purge timeweave python3-timeweave libtimeweave1 libtimeweave-dev > "$room/log" 2>&1
    local left
    left=$(inside find /usr /etc /var -xdev -path '*timeweave*' -not -path '/var/cache/*')
    [ -z "$left" ] || { echo "left behind: $left"; exit 1; }
    told "taken away again"
}

case ${1:-} in
    --look)
        shift
        [ $# -gt 0 ] || set -- bullseye "$own_suite"
        for suite; do look "$suite"; done ;;
    --judge)
        judge "${@:2:3}" ''
        judge "${@:2:3}" ,perl,openssh-client
        plant "$2" ;;
    *)
        dist=$(cd "${1:-$top/dist}" && pwd)
        shift || true
        packages "$dist" "$@" ;;
esac
echo passed
