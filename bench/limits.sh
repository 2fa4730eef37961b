#!/usr/bin/env bash
# Runs at the limits of a run, each at a quarter, at half and whole: recorded on one thread, and its first group replayed from
# its log on one thread. Then three runs of messages alone, recorded, the races of two runs of 64 ranks, and advice on their groups; two runs
# that part in their last message, compared; a run of 64 ranks that is stuck at its end, explained; a variable beside a large one, watched; a run of
# 4,000 events, drawn as SVG, and long ones as trace events.
# Needs `rt` and GNU time (`apt-get install time`). A row gives
# wall-clock seconds from start to end (the least of five runs), the growth against the row above, peak memory in MB, and the
# bytes of all logs, without the program's text in them, for each event. `bench/limits.sh NAME` does the rows of one name alone.
. "$(dirname "$0")/idle.sh"
. "$(dirname "$0")/begin.sh"
only=${1:-}

# A program of these variables and this body, and a plan.
program() {
  printf '%s' "int main(void){int r,n,i,x=0,y=0;$2 MPI_Comm_rank(MPI_COMM_WORLD,&r);MPI_Comm_size(MPI_COMM_WORLD,&n);$3 printf(\"%d\\n\",x);return 0;}" >program
  printf '%b' "$1" >plan
}

# Two ranks that send an int to and fro: three events a message.
events() {
  program '0 1\n' '' "for(i=0;i<$(($1 / 6 - 1));i++){if(r==0){MPI_Send(&x,1,MPI_INT,1,1,MPI_COMM_WORLD);MPI_Recv(&x,1,MPI_INT,1,1,MPI_COMM_WORLD,MPI_STATUS_IGNORE);}else{MPI_Recv(&x,1,MPI_INT,0,1,MPI_COMM_WORLD,MPI_STATUS_IGNORE);x=x+1;MPI_Send(&x,1,MPI_INT,0,1,MPI_COMM_WORLD);}}"
}

# Messages of 65,536 ints, which count when they are sent and when they are received; one less than would be too many.
ints() {
  program '0\n1\n' 'int a[65536];' "for(i=0;i<$(($1 / 131072 - 1));i++){if(r==0)MPI_Send(a,65536,MPI_INT,1,1,MPI_COMM_WORLD);else MPI_Recv(a,65536,MPI_INT,0,1,MPI_COMM_WORLD,MPI_STATUS_IGNORE);}"
}

# Each rank of 64 sends to the next and receives from the one before, again and again.
ranks() {
  program '0-63\n' '' "for(i=0;i<$(($1 / 192 - 1));i++){MPI_Send(&r,1,MPI_INT,(r+1)%n,1,MPI_COMM_WORLD);MPI_Recv(&x,1,MPI_INT,(r+n-1)%n,1,MPI_COMM_WORLD,MPI_STATUS_IGNORE);}"
}

# The same, and each rank is a group of its own.
groups() {
  ranks "$1"
  seq 0 63 >plan
}

# Messages with rising tags, received in the reverse order of the tags.
tags() {
  program '0 1\n' '' "if(r==1)for(i=0;i<$1;i++)MPI_Send(&i,1,MPI_INT,0,i,MPI_COMM_WORLD);if(r==0){for(i=$1-1;i>=0;i--){MPI_Recv(&y,1,MPI_INT,1,i,MPI_COMM_WORLD,MPI_STATUS_IGNORE);x+=y;}}"
}

# Barriers of two ranks, half as many as there are calls.
barriers() {
  program '0 1\n' '' "for(i=0;i<$(($1 / 2));i++)MPI_Barrier(MPI_COMM_WORLD);"
}

# Receives that one MPI_Waitall completes.
waitall() {
  program '0 1\n' "MPI_Request q[$1];" "if(r==1){for(i=0;i<$1;i++)MPI_Send(&i,1,MPI_INT,0,1,MPI_COMM_WORLD);}else{for(i=0;i<$1;i++)MPI_Irecv(&x,1,MPI_INT,1,1,MPI_COMM_WORLD,&q[i]);MPI_Waitall($1,q,MPI_STATUSES_IGNORE);}"
}

# The same, but each message comes after a probe in vain, so that the receiver waits in vain once for each.
waiting() {
  program '0 1\n' "MPI_Request q[$1];" "if(r==1){for(i=0;i<$1;i++){MPI_Iprobe(0,9,MPI_COMM_WORLD,&y,MPI_STATUS_IGNORE);MPI_Send(&i,1,MPI_INT,0,1,MPI_COMM_WORLD);}}else{for(i=0;i<$1;i++)MPI_Irecv(&x,1,MPI_INT,1,1,MPI_COMM_WORLD,&q[i]);MPI_Waitall($1,q,MPI_STATUSES_IGNORE);}"
}

ring() {
  program '0-15\n' '' "for(i=0;i<$(($1 / 16));i++){if(r==0){MPI_Send(&x,1,MPI_INT,1,1,MPI_COMM_WORLD);MPI_Recv(&x,1,MPI_INT,n-1,1,MPI_COMM_WORLD,MPI_STATUS_IGNORE);}else{MPI_Recv(&x,1,MPI_INT,r-1,1,MPI_COMM_WORLD,MPI_STATUS_IGNORE);x=x+1;MPI_Send(&x,1,MPI_INT,(r+1)%n,1,MPI_COMM_WORLD);}}"
}

all_to_one() {
  program '0-63\n' '' "if(r==0){for(i=0;i<$(($1 / 63))*(n-1);i++){MPI_Recv(&y,1,MPI_INT,MPI_ANY_SOURCE,1,MPI_COMM_WORLD,MPI_STATUS_IGNORE);x=x+y;}}else for(i=0;i<$(($1 / 63));i++)MPI_Send(&r,1,MPI_INT,0,1,MPI_COMM_WORLD);"
}

# Each rank of 64 sends to the next with the tag of the round, and receives from any.
rounds() {
  program '0-63\n' '' "for(i=0;i<$(($1 / 192));i++){MPI_Send(&r,1,MPI_INT,(r+1)%n,i,MPI_COMM_WORLD);MPI_Recv(&x,1,MPI_INT,MPI_ANY_SOURCE,i,MPI_COMM_WORLD,MPI_STATUS_IGNORE);}"
}

# Each rank of 64 gets the sum of the ranks up to itself, again and again.
scans() {
  program '0-63\n' '' "for(i=0;i<$(($1 / 128));i++)MPI_Scan(&r,&x,1,MPI_INT,MPI_SUM,MPI_COMM_WORLD);"
}

# The least of five wall-clock times of a command in seconds, and its peak memory in MB; it is to end with this status and this last line.
measure() {
  local status=$1 want=$2 got
  shift 2
  for _ in 1 2 3 4 5; do
    /usr/bin/time -q -o took -f '%e %M' "$wiz" "$@" >printed
    got=$?
    if [ "$got" -ne "$status" ] || [ "$(tail -n 1 printed)" != "$want" ]; then
      echo "$*: status $got, $(tail -n 1 printed)" >&2
      exit 1
    fi
    cat took
  done | sort -n | awk 'NR == 1 { seconds = $1 } $2 > most { most = $2 } END { printf "%s %.0f\n", seconds, most / 1024 }'
}

# How many times the second is of the first.
growth() {
  awk -v above="$1" -v now="$2" 'BEGIN { if (above > 0) printf "%.2f", now / above; else printf "-" }'
}

# The rows of a name, up to its whole size.
rows() {
  local name=$1 whole=$2 size recorded replayed above=0 above_replay=0 events bytes text
  [ -z "$only" ] || [ "$only" = "$name" ] || return 0
  for size in $((whole / 4)) $((whole / 2)) "$whole"; do
    "$name" "$size"
    rm -f run.*
    recorded=$(measure 0 finished record program plan run --serial)
    replayed=$(measure 0 ended replay run.0.srr --serial)
    events=$(wc -l <run.order)
    text=$(wc -c <program)
    bytes=$(cat run.*.srr | wc -c)
    read -r seconds memory <<<"$recorded"
    read -r seconds_replay memory_replay <<<"$replayed"
    printf '%-10s %8d %8d %8s %7s %6d %9s %7s %6d %9.1f\n' "$name" "$size" "$events" "$seconds" "$(growth "$above" "$seconds")" "$memory" \
      "$seconds_replay" "$(growth "$above_replay" "$seconds_replay")" "$memory_replay" \
      "$(awk -v bytes="$bytes" -v text="$text" -v logs="$(ls run.*.srr | wc -l)" -v events="$events" 'BEGIN { print (bytes - text * logs) / events }')"
    above=$seconds
    above_replay=$seconds_replay
  done
}

# A run of messages, recorded.
recording() {
  local name=$1 size=$2 seconds memory
  [ -z "$only" ] || [ "$only" = "$name" ] || return 0
  "$name" "$3"
  read -r seconds memory <<<"$(measure 0 finished record program plan run --serial)"
  printf '%-10s %8d messages %8s s %6d MB\n' "$name" "$size" "$seconds" "$memory"
}

# A run recorded, its races, and advice on blocks of at most eight ranks, each command with the recording in it.
explained() {
  local name=$1 command seconds memory
  [ -z "$only" ] || [ "$only" = "$name" ] || return 0
  "$name" "$2"
  rm -f run.*
  for command in 'record program plan run' 'races program plan' 'advise program plan 8'; do
    read -r seconds memory <<<"$(measure 0 finished $command --serial)"
    printf '%-10s %8d events %-8s %8s s %6d MB\n' "$name" "$(wc -l <run.order)" "${command%% *}" "$seconds" "$memory"
  done
}

# An int to and fro; at the end rank 1 sends one more message, and rank 0 probes for it.
last_probe() {
  events "$1"
  sed -i 's/printf/if(r==0)MPI_Iprobe(1,1,MPI_COMM_WORLD,\&y,MPI_STATUS_IGNORE);if(r==1)MPI_Send(\&x,1,MPI_INT,0,1,MPI_COMM_WORLD);printf/' program
}

# Two runs of the program that part at rank 0's probe: in one it finds the message, in the other it comes too early.
parted() {
  local size seconds memory replayed last above=0
  [ -z "$only" ] || [ "$only" = diff ] || return 0
  for size in $((999000 / 4)) $((999000 / 2)) 999000; do
    last_probe $((size - 12))
    rm -f run.* other.*
    "$wiz" record program plan run --serial >/dev/null
    # The same turns, but rank 0 probes before rank 1 has sent its last message.
    head -n -4 run.order >turns
    printf '0\n0\n1\n1\n' >>turns
    "$wiz" record program plan other --order turns >/dev/null
    read -r replayed memory <<<"$(measure 0 ended replay run.0.srr --serial)"
    last=$("$wiz" diff run.0.srr other.0.srr | tail -n 1 || true)
    read -r seconds memory <<<"$(measure 15 "$last" diff run.0.srr other.0.srr)"
    printf '%-10s %8d events replay %8s s diff %8s s growth %s %6d MB\n' diff "$(wc -l <run.order)" "$replayed" "$seconds" "$(growth "$above" "$seconds")" "$memory"
    above=$seconds
  done
}

# The ranks pass an int on as in `ranks`; then each receives from the next, which sends nothing.
stuck() {
  ranks "$1"
  sed -i 's/printf/MPI_Recv(\&x,1,MPI_INT,(r+1)%n,2,MPI_COMM_WORLD,MPI_STATUS_IGNORE);printf/' program
}

explained_stuck() {
  local size recorded seconds memory
  [ -z "$only" ] || [ "$only" = waits ] || return 0
  for size in $((900000 / 4)) $((900000 / 2)) 900000; do
    stuck "$size"
    rm -f run.*
    read -r recorded memory <<<"$(measure 7 'halted stuck' record program plan run --serial)"
    read -r seconds memory <<<"$(measure 7 'halted stuck' waits program plan --serial)"
    printf '%-10s %8d events record %8s s waits %8s s %6d MB\n' waits "$(wc -l <run.order)" "$recorded" "$seconds" "$memory"
  done
}

# The changes of an int of rank 0, beside an array of 65,536 ints that is not asked for.
watched() {
  local size seconds memory replayed last above=0
  [ -z "$only" ] || [ "$only" = watch ] || return 0
  for size in $((999000 / 4)) $((999000 / 2)) 999000; do
    events "$size"
    sed -i 's/y=0;/y=0,a[65536];/' program
    rm -f run.*
    "$wiz" record program plan run --serial >/dev/null
    read -r replayed memory <<<"$(measure 0 ended replay run.0.srr --serial)"
    last=$("$wiz" watch run.0.srr 0 x | tail -n 1)
    read -r seconds memory <<<"$(measure 0 "$last" watch run.0.srr 0 x)"
    printf '%-10s %8d events replay %8s s watch %8s s growth %s %6d MB\n' watch "$(wc -l <run.order)" "$replayed" "$seconds" "$(growth "$above" "$seconds")" "$memory"
    above=$seconds
  done
}

# A picture of at most 4,000 events, and the trace events of long runs, beside their recording.
drawn() {
  local what size recorded most seconds memory above
  [ -z "$only" ] || [ "$only" = picture ] || return 0
  ranks 4000
  read -r seconds memory <<<"$(measure 0 '' picture program plan run.svg --serial)"
  printf '%-10s %-6s %8d events SVG %8s s %6d MB %9d bytes\n' picture ranks "$(grep -c '<g><title>' run.svg)" "$seconds" "$memory" "$(wc -c <run.svg)"
  for what in events ranks; do
    above=0
    for size in $((999000 / 4)) $((999000 / 2)) 999000; do
      "$what" "$size"
      rm -f run.*
      read -r recorded most <<<"$(measure 0 finished record program plan run --serial)"
      read -r seconds memory <<<"$(measure 0 '' picture program plan run.json --trace --serial)"
      printf '%-10s %-6s %8d events record %8s s %6d MB trace %8s s growth %s %6d MB %9d bytes\n' picture "$what" "$(wc -l <run.order)" "$recorded" "$most" \
        "$seconds" "$(growth "$above" "$seconds")" "$memory" "$(wc -c <run.json)"
      above=$seconds
    done
  done
}

echo "$(nproc) processors, load $(cut -d' ' -f1 /proc/loadavg) before the run"
printf '%-10s %8s %8s %8s %7s %6s %9s %7s %6s %9s\n' what size events 'record s' growth MB 'replay s' growth MB 'bytes/ev'
rows events 999000
rows ints 4194304
rows ranks 999000
rows groups 999000
rows tags 200000
rows barriers 400000
rows waitall 100000
rows waiting 200000
echo 'recorded on one thread'
recording events 100000 300000
recording ring 80000 80000
recording all_to_one 94000 94000
echo 'races, and advice on blocks of 8 ranks'
explained rounds 299520
explained scans 299520
echo 'two runs that part in their last message; who waits for whom at the end of a run'
parted
explained_stuck
echo 'a variable, watched, beside its replay'
watched
echo 'pictures, beside their recording'
drawn
