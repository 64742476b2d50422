#!/usr/bin/env bash
# Runs a script with stampctl, and ends with its status. What was proved and built from the present sources is run; else the
# program is run unproved, by `rt try`, and standard error says so. What a script prints is the same either way.
# With --rows, .ci/rows builds it so and runs all rows.
set -euo pipefail

usage='usage: ./run.sh [--proved] [SCRIPT]
       ./run.sh --rows

Runs the file SCRIPT, or the row of that name, with stampctl; without SCRIPT the row acknowledged. The rows are the scripts of
crates/tests_rows/data, each beside what it prints.

  --proved    proves and builds stampctl first, where that is not done: about an hour on four cores.
              Without it, what was not proved and built before is run unproved, after about a minute and a half.
  --rows      builds stampctl, unproved, runs all rows, and tells each that prints or ends otherwise: some minutes.'

stop() {
    printf 'run.sh: %s\n' "$1" >&2
    exit 2
}

# Whether the program stands as it was proved and built from the present sources. Of what rt makes, the stamp comes last, only
# where no source changed meanwhile, and it goes first when the program is built again. A time of change, unlike one of
# writing, is never set back.
is_proved() {
    [[ -x $program && -f $program.stamp ]] || return 1
    [[ -z $(find crates.txt crates/*/{src,specs,proofs} -newercm "$program.stamp" -print -quit) ]]
}

# Proves and builds. Where the sources changed and changed back rt has nothing to do, so that its stamp is given the time itself.
prove() {
    local begun
    begun=$(date +%s.%N)
    (cd crates/stampctl && rt run -- --help >/dev/null) || stop 'stampctl was not proved and built'
    touch -d "@$begun" "$program.stamp"
}

need_rt() {
    command -v rt >/dev/null || stop 'rt, the command of the toolchain, is not on the path'
}

home=$(dirname -- "$(realpath -- "$0")")
rows=$home/crates/tests_rows/data
if [[ $* == --rows ]]; then
    need_rt
    exec "$home/.ci/rows"
fi
proved=no
if [[ ${1-} == --proved ]]; then
    proved=yes
    shift
fi
case $#:${1-} in
1:-h | 1:--help)
    printf '%s\n' "$usage"
    exit
    ;;
0: | 1:[!-]*) ;;
*)
    printf '%s\n' "$usage" >&2
    exit 2
    ;;
esac

script=${1-"$rows/acknowledged"}
[[ -f $script ]] || script=$rows/$script
[[ -f $script && -r $script ]] || stop "${1-"$script"} is neither a file that can be read nor a row"
script=$(realpath -- "$script")
cd -- "$home"
program=crates/stampctl/out/stampctl

if [[ $proved == yes ]] || ! is_proved; then
    need_rt
fi
if [[ $proved == yes ]]; then
    prove
elif ! is_proved; then
    cat >&2 <<'NOTE'
run.sh: this run is not proved. Its output comes in about a minute and a half.
run.sh: ./run.sh --proved SCRIPT proves the program and builds it first, in about an hour on four cores.
NOTE
    cd crates/stampctl
    exec rt try --seconds 3600 <"$script"
fi
exec "$program" <"$script"
