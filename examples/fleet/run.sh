#!/usr/bin/env bash
# run.sh FOLDER [ENGINE..]: the loss table of twelve points, each metered by a job of its own. ENGINE is `parallel`, for
# GNU parallel, or `slurm`, for an array of Slurm jobs; without one both are tried, one after the other. FOLDER gets a
# folder for each engine, in which a folder stands for the machine at each point. One capture isn't there when the jobs
# first run. Status 0: each engine that is installed ended with the table that `audit` prints of the same captures;
# where one isn't installed a line says so. 1: another table, or a job that failed for good. 2: the words are wrong.
set -u

here=$(dirname -- "$(readlink -f -- "${BASH_SOURCE[0]}")")
top=$here/../..

# has_engine ENGINE: whether it is installed; a line says where not
has_engine() {
    case $1 in
        parallel)
            [[ $(parallel --version 2>/dev/null) == 'GNU parallel'* ]] && return 0
            echo "parallel: skipped: GNU parallel isn't installed (Debian package parallel)"
            ;;
        slurm)
            (PATH=$PATH:/usr/sbin && command -v sbatch slurmctld slurmd munged >/dev/null) && return 0
            echo "slurm: skipped: Slurm isn't installed (Debian package slurm-wlm)"
            ;;
    esac
    return 1
}

if (($# < 1)) || [[ $1 == '' ]]; then
    echo 'run.sh FOLDER [parallel] [slurm]' >&2
    exit 2
fi
folder=$1
shift
(($# > 0)) || set -- parallel slurm
for engine in "$@"; do
    if [[ $engine != parallel && $engine != slurm ]]; then
        echo "run.sh: '$engine' is neither parallel nor slurm" >&2
        exit 2
    fi
done
mkdir -p -- "$folder" && folder=$(readlink -f -- "$folder") || exit 2

# The program is built first where that is due.
"$top/altmark" </dev/null 2>/dev/null
[[ $? == 2 ]] || { "$top/altmark"; exit 1; }

well=0
for engine in "$@"; do
    has_engine "$engine" || continue
    if ! mkdir -- "$folder/$engine" 2>/dev/null; then
        echo "run.sh: $folder/$engine is there already, or can't be made" >&2
        exit 2
    fi
    cd -- "$folder/$engine" || exit 2
    if [[ $engine == slurm ]] && ! sinfo >/dev/null 2>&1; then
        echo "slurm: none is running, so one is started for this machine alone"
        "$here/cluster.sh" "$folder/slurm-cluster" "$here/rounds.sh" slurm || well=1
    else
        "$here/rounds.sh" "$engine" || well=1
    fi
done
exit "$well"
