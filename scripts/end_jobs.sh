# Read by `.` in bash scripts whose jobs are groups of their own (`set -m`).

# Ends all jobs: by INT, and what is left of their groups after two seconds, since it ignores that, by TERM. (By the shell's
# own list: a signal may come between a job's begin and a note of its number.)
end_jobs() {
  local job jobs left
  jobs=$(jobs -p)
  for job in $jobs; do kill -INT -- "-$job" 2>/dev/null || :; done
  for _ in {1..20}; do
    left=
    for job in $jobs; do ! kill -0 -- "-$job" 2>/dev/null || left+=" $job"; done
    [ -n "$left" ] || return 0
    sleep 0.1
  done
  for job in $left; do kill -TERM -- "-$job" 2>/dev/null || :; done
}
