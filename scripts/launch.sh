# Runs a program of the checkout, or prints its path. It is read by `.`, with the program's words as its own, and with these set:
#
#   top    the folder of the checkout
#   name   the program's crate
#   path   --path to print the path in place of running it, or nothing
#
# The program is the prebuilt one of dist/ if that is made of the sources that stand here, else the one that was last
# built of them, and else it is proved and built first, for which the Rattle kit is needed.
#
# A standard stream that is closed stays one that can't be read or written; but its number is taken, so that no file that the
# program opens gets it, as a journal would that standard output is then written into.
#
# For any POSIX shell. Every call of `./kroft` passes through here, so it should cost few milliseconds.
set -eu
# (a file that may not grow further fails, as a full device does, and the program tells it)
trap '' XFSZ
{ true 9<&0; } 2>/dev/null || exec 0>/dev/null
{ true 9>&1; } 2>/dev/null || exec 1</dev/null
true 9>&2 || exec 2</dev/null
# What tells cheaply, at the next call, that nothing has changed: the program, and the state of all that programs hang on.
seen=$top/crates/$name/out/seen

# The name, size, inode and time of change (which can't be set, as that of a text can) of all that programs hang on: what folders
# hold tells what is new and what is gone. The loader stands for the C library, since several machines may share a checkout.
states() {
  cd -- "$top" && find -L crates.txt scripts/make_library packaging/aarch64_heap.c dist "crates/$name/out/built" crates/*/src \
    /lib64/ld-linux-x86-64.so.2 -printf '%p %s %i %C@\n' 2>/dev/null || :
}

is_as_seen() {
  [ -r "$seen" ] && IFS= read -r program <"$seen" && { printf '%s\n' "$program"; states; } | cmp -s - "$seen"
}

# keep PROGRAM: keeps the states that were taken before the sources were summed. What changed within the last two seconds
# may change again at what counts as the same time: then nothing is kept.
keep() {
  printf '%s\n' "$states" | awk -v now="$(date +%s)" 'int($NF) + 2 > now { exit 1 }' || return 0
  mkdir -p -- "${seen%/*}" && printf '%s\n' "$1" "$states" >"$seen.new" && mv -f -- "$seen.new" "$seen"
}

# Prints the program's name in the checkout, or nothing if none is of these sources.
find_program() {
  cd -- "$top"
  . scripts/prebuilt.sh
  refuse_elsewhere
  states=$(states)
  folder=$(made_of "$name" "$(sum_of "$name")") || return 0
  { keep "$folder/$(files_of "$name")"; } 2>/dev/null || :
  printf '%s\n' "$folder/$(files_of "$name")"
}

is_as_seen || program=$(find_program)
if [ -z "$program" ]; then
  exec "$top/scripts/build_changed" "$name" "$top/scripts/run_program" $path "$name" "$@"
elif [ -n "$path" ]; then
  printf '%s\n' "$top/$program"
else
  exec "$top/$program" "$@"
fi
