#!/usr/bin/env bash
# rounds.sh ENGINE: the loss table of twelve points, each metered by a job of ENGINE, `parallel` or `slurm`. It runs in
# an empty folder, in which a folder stands for the machine at each point. One capture isn't there when the jobs first
# run. Status 0: the table is the one that `audit` prints of the same captures. 1: another, or a job that failed for
# good.
set -u

engine=$1
here=$(dirname -- "$(readlink -f -- "${BASH_SOURCE[0]}")")
top=$here/../..
twelve=$here/../twelve
late=p7

# jobs NODE..: runs the job of each of these points, and returns when all have ended. Whether one failed is seen from
# its report, which then is missing.
jobs() {
    case $engine in
        parallel)
            parallel --will-cite --joblog "jobs-$round.log" 'cd {} && ../point.sh ../altmark twelve.toml {}' ::: "$@"
            ;;
        slurm)
            # The places in the list of points are the numbers of the array.
            local places
            places=$(printf '%s\n' "$@" | grep -nxFf - points | cut -d: -f1 | paste -sd,)
            sbatch --array="$places" --wait --output="jobs-$round-%a.log" --wrap \
                'node=$(sed -n "${SLURM_ARRAY_TASK_ID}p" points) && cd "$node" &&
                exec ../point.sh ../altmark twelve.toml "$node"'
            ;;
    esac >"jobs-$round.out" 2>&1
}

# missing: the points without a report, a line each
missing() {
    local node
    while IFS= read -r node; do
        [[ -e $node/$node.csv ]] || echo "$node"
    done <points
}

# What is copied to the machine of a point: the program, the job, and the domain file. Its capture is there already. The
# folder in which the machines stand has the program and the job for all.
cp -- "$top/crates/am_cli/out/am_cli" altmark && cp -- "$here/point.sh" . && cp -- "$twelve/twelve.toml" . || exit 1
./altmark check twelve.toml | awk '$1 == "node" { print $2 }' >points
mapfile -t nodes <points
for node in "${nodes[@]}"; do
    mkdir -- "$node" && cp -- twelve.toml "$node" || exit 1
    [[ $node == "$late" ]] || cp -- "$twelve/$node.pcap" "$node" || exit 1
done

for round in 1 2; do
    mapfile -t nodes < <(missing)
    jobs "${nodes[@]}"
    # What is copied back from each machine: the report.
    mkdir -p reports && cp -- p*/p*.csv reports || exit 1
    echo "$engine: round $round, jobs of ${nodes[*]}: $(ls reports | wc -l) of $(wc -l <points) reports"
    mapfile -t nodes < <(missing)
    ((${#nodes[@]} > 0)) || break
    for node in "${nodes[@]}"; do
        echo "$engine: $node failed: $(cat -- "$node/$node.line" 2>/dev/null || echo 'its job was cut off')"
    done
    # A table is never made of the reports that happen to be there.
    ./altmark loss twelve.toml reports/*.csv >table 2>line
    echo "$engine: loss, status $?, $(wc -l <table) lines: $(<line)"
    # The capture that was late has come.
    [[ -e $late/$late.pcap ]] || cp -- "$twelve/$late.pcap" "$late"
done

# The reports are handed over in whatever order the folder has them: here p1, p10, p11, p12, p2 and so on.
./altmark loss twelve.toml reports/*.csv >table
echo "$engine: loss, status $?, $(wc -l <table) lines"
(cd -- "$twelve" && "$OLDPWD/altmark" audit twelve.toml) >audited || exit 1
if ! cmp -- table audited; then
    echo "$engine: not the table that audit prints"
    exit 1
fi
echo "$engine: the table that audit prints, byte for byte"
