#!/usr/bin/env bash
# cluster.sh FOLDER COMMAND WORD..: runs a command beside a Slurm of this one machine, which is started for it and ended
# after it. FOLDER, an absolute name, gets all that Slurm writes. The status is the command's, or 1 where Slurm doesn't
# start. It needs slurmctld, slurmd and munged (Debian package slurm-wlm), and listens on the loopback address alone.
set -u

folder=$1
shift
mkdir -p -- "$folder"/{munge,state,spool} || exit 1
host=$(hostname -s)
user=$(id -un)
cat >"$folder/slurm.conf" <<CONF
ClusterName=fleet
SlurmctldHost=$host(127.0.0.1)
SlurmctldPort=16817
SlurmdPort=16818
CommunicationParameters=NoCtldInAddrAny,NoInAddrAny
SlurmUser=$user
SlurmdUser=$user
AuthType=auth/munge
AuthInfo=socket=$folder/munge/socket
StateSaveLocation=$folder/state
SlurmdSpoolDir=$folder/spool
SlurmctldPidFile=$folder/slurmctld.pid
SlurmdPidFile=$folder/slurmd.pid
ProctrackType=proctrack/linuxproc
TaskPlugin=task/none
MpiDefault=none
SelectType=select/cons_tres
SelectTypeParameters=CR_CPU
SchedulerParameters=sched_interval=1
NodeName=$host NodeAddr=127.0.0.1 CPUs=$(nproc) State=UNKNOWN
PartitionName=points Nodes=$host Default=YES State=UP
CONF
export SLURM_CONF=$folder/slurm.conf

# Each is ended by its own number, the last that was started first.
started=()
end_all() {
    local k
    for ((k = ${#started[@]} - 1; k >= 0; k--)); do
        kill "${started[k]}" 2>/dev/null
        wait "${started[k]}" 2>/dev/null
    done
}
trap end_all EXIT
# begin NAME COMMAND..: starts a program that stays, with its lines in FOLDER/NAME.log
begin() {
    local name=$1
    shift
    "$@" >"$folder/$name.log" 2>&1 </dev/null &
    started+=($!)
}
# answers COMMAND..: whether it succeeds within 20 seconds
answers() {
    local k
    for ((k = 0; k < 100; k++)); do
        "$@" >/dev/null 2>&1 && return 0
        sleep 0.2
    done
    return 1
}

PATH=$PATH:/usr/sbin
head -c 1024 /dev/urandom >"$folder/munge/key" && chmod 600 "$folder/munge/key" && chmod 711 "$folder/munge" || exit 1
begin munged munged --foreground --force --key-file="$folder/munge/key" --socket="$folder/munge/socket" \
    --pid-file="$folder/munge/pid" --seed-file="$folder/munge/seed"
answers test -S "$folder/munge/socket" || exit 1
begin slurmctld slurmctld -D -c
answers scontrol ping || exit 1
begin slurmd slurmd -D
idle() { [[ $(sinfo -h -o %t) == idle ]]; }
answers idle || exit 1
"$@"
