#!/bin/sh
# Runs tools/seeds.py as a job array on a real Slurm of one node, on this machine's loopback: tests/slurm.sh PROGRAM
# 8 tasks run 80,000 seeds. One is cancelled: then tools/merge.py must say which seeds are missing. It is made again,
# and the joined report must be that of one run. An array of tools/sweep.py has the rows of one sweep. Slurm and munge
# (Debian: slurm-wlm, munge) run from a folder of their own and with a key of their own. Where they aren't installed or
# can't start, standard error says so and the test passes.
top=$(CDPATH='' cd -- "$(dirname -- "$0")/.." && pwd) || exit 1
TARDIS=$(readlink -f -- "$1") || exit 1
export TARDIS PATH="$PATH:/usr/sbin:/sbin"
cd "$top" || exit 1
test=examples/litmus/SB.litmus runs=80000 tasks=8 cancelled=2

skip() {
    echo "slurm.sh: not tried: $*" >&2
    exit 0
}

fail() {
    echo "slurm.sh: $*"
    exit 1
}

for name in munged slurmctld slurmd sbatch squeue scancel scontrol sinfo; do
    command -v "$name" >/dev/null || skip "$name isn't installed"
done
work=$(mktemp -d) || exit 1
daemons='' each=''
trap 'for each in $daemons; do kill "$each" && wait "$each"; done 2>/dev/null; rm -rf "$work"' EXIT
trap 'exit 1' HUP INT TERM
chmod 755 "$work"
mkdir "$work/state" "$work/spool"
export SLURM_CONF="$work/slurm.conf"
for name in $(env | sed -n 's/^\(\(SLURM\|SBATCH\|SQUEUE\|SCANCEL\)_[A-Z_]*\)=.*/\1/p'); do
    [ "$name" = SLURM_CONF ] || unset "$name"
done

# Two ports that nothing listens on.
ports=$(python3 -c 'import socket
both = [socket.create_server(("127.0.0.1", 0)) for _ in range(2)]
print(*(each.getsockname()[1] for each in both))') || exit 1
cat >"$SLURM_CONF" <<END
ClusterName=one
SlurmctldHost=$(hostname -s)(127.0.0.1)
SlurmctldPort=${ports% *}
SlurmdPort=${ports#* }
SlurmUser=$(id -un)
SlurmdUser=$(id -un)
AuthType=auth/munge
AuthInfo=socket=$work/munge.socket
CommunicationParameters=NoInAddrAny,NoCtldInAddrAny
StateSaveLocation=$work/state
SlurmdSpoolDir=$work/spool
SlurmctldPidFile=$work/slurmctld.pid
SlurmdPidFile=$work/slurmd.pid
SlurmctldLogFile=$work/slurmctld.log
SlurmdLogFile=$work/slurmd.log
ProctrackType=proctrack/linuxproc
TaskPlugin=task/none
JobAcctGatherType=jobacct_gather/none
AccountingStorageType=accounting_storage/none
MpiDefault=none
SelectType=select/cons_tres
SelectTypeParameters=CR_CPU
SchedulerParameters=sched_min_interval=100000,sched_interval=1
MinJobAge=2
NodeName=node NodeHostname=$(hostname -s) NodeAddr=127.0.0.1 CPUs=$(nproc) State=UNKNOWN
PartitionName=all Nodes=ALL Default=YES State=UP
END

# begin WORDS..: a daemon, in the background; its log is on standard error.
begin() {
    "$@" >>"$work/daemons.log" 2>&1 &
    daemons="$! $daemons"
}

# until_so SECONDS WORDS..: waits until the command succeeds; whether it did while all daemons run.
until_so() {
    end=$(($(date +%s) + $1))
    shift
    until "$@" >/dev/null 2>&1; do
        # shellcheck disable=SC2086
        kill -0 $daemons 2>/dev/null && [ "$(date +%s)" -lt "$end" ] || return 1
        sleep 0.1
    done
}

dd if=/dev/urandom of="$work/key" bs=128 count=1 2>/dev/null && chmod 400 "$work/key"
begin munged --foreground --force --key-file="$work/key" --socket="$work/munge.socket" --pid-file="$work/munge.pid" \
    --log-file="$work/munge.log" --seed-file="$work/munge.seed"
until_so 10 test -S "$work/munge.socket" || skip "munged doesn't start: $(tail -n 3 "$work/daemons.log")"
begin slurmctld -D
begin slurmd -D
is_idle() {
    [ "$(timeout 5 sinfo --noheader --format=%T)" = idle ]
}
until_so 30 is_idle || skip "Slurm doesn't start: $(tail -n 3 "$work/daemons.log")"

# submit ARRAY [options]: an array of these tasks of seeds.py; its number. Slurm gives each task the variable.
submit() {
    array=$1
    shift
    sbatch --parsable --array="$array" "$@" --output="$work/%a.log" --wrap \
        "tools/seeds.py --part \$SLURM_ARRAY_TASK_ID --parts $tasks --folder '$work/reports' 0 $runs $test"
}

# is_done JOB: no task of it waits or runs.
is_done() {
    waiting=$(timeout 5 squeue --noheader --jobs="$1" 2>/dev/null)
    [ $? -ne 124 ] && [ -z "$waiting" ]
}

logs() {
    cat "$work"/*.log | tail -n 20
}

job=$(submit "0-$((tasks - 1))" --hold) || fail "the array isn't taken"
{ scancel "${job}_$cancelled" && scontrol release "$job"; } || fail "task $cancelled can't be cancelled"
until_so 120 is_done "$job" || fail "the array doesn't end: $(logs)"
[ "$(echo "$work"/reports/*.report | wc -w)" -eq $((tasks - 1)) ] || fail "not $((tasks - 1)) reports: $(logs)"
said=$(tools/merge.py "$work"/reports/*.report 2>&1) && fail "7 of 8 reports are joined"
case $said in *"seeds 20000 to 29999 are missing between"*) ;; *) fail "merge.py says: $said" ;; esac

job=$(submit "$cancelled") || fail "the task isn't taken again"
until_so 60 is_done "$job" || fail "the task doesn't end: $(logs)"
tools/merge.py "$work"/reports/*.report >"$work/joined" || fail "8 reports aren't joined: $(logs)"
"$TARDIS" litmus --schedule seed --runs "$runs" "$test" | cmp - "$work/joined" || fail "another report than of one run"

# A sweep in parts: the joined table has the rows of one sweep, in the order of the parts.
leases='--lease 1..20 examples/traces/MIXED.trace'
job=$(sbatch --parsable --array=0-3 --output="$work/%a.log" --wrap \
    "tools/sweep.py --csv '$work/sweep.csv' --part \$SLURM_ARRAY_TASK_ID --parts 4 $leases") || fail "no sweep is taken"
until_so 120 is_done "$job" || fail "the sweep doesn't end: $(logs)"
# shellcheck disable=SC2086
tools/sweep.py --csv "$work/sweep.csv" --parts 4 $leases >&2 && tools/sweep.py --csv "$work/one.csv" $leases >&2 ||
    fail "the sweep's parts aren't joined: $(logs)"
sort "$work/one.csv" >"$work/one" && sort "$work/sweep.csv" | cmp - "$work/one" || fail "other rows than of one sweep"
echo "slurm.sh: $tasks tasks, one cancelled and made again: the report of one run; a sweep of 4 tasks"
