# Sourced by scripts that take times, before they build: on a machine that has other work they refuse to, since such figures cannot be compared.
# With BUSY=yes they take them all the same.
load=$(cut -d' ' -f1 /proc/loadavg)
if [ "${BUSY:-}" != yes ] && awk -v load="$load" 'BEGIN { exit !(load > 1) }'; then
  echo "the machine has other work (load $load); with BUSY=yes the times are taken all the same" >&2
  exit 1
fi
